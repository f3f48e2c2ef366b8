# What the scripts of this folder share. Sourced, with $here the folder of the extension and $library a path of libwarm_c.a.
#
# The servers are of a copy of PostgreSQL in a folder of its own, into which the extension is installed: programs of PostgreSQL look for
# their files beside themselves. They listen on a socket in that folder, and on no address. It is Debian's PostgreSQL 15, or that of PG_CONFIG.

version=15
# For how many seconds what is to happen is waited for. It happens in a second or two, and far later where a host takes most of two cores.
limit=300
export PGCTLTIMEOUT=$limit PG_TEST_TIMEOUT_DEFAULT=$limit
folder_of_library=$(dirname "$(dirname "$library")")
"$here/../scripts/need" gcc:gcc make:make prlimit:util-linux runuser:util-linux prove:perl /usr/share/perl5/IPC/Run.pm:libipc-run-perl
[ -n "${PG_CONFIG:-}" ] || "$here/../scripts/need" "/usr/lib/postgresql/$version/bin/postgres:postgresql-$version" \
    "/usr/include/postgresql/$version/server/postgres.h:postgresql-server-dev-$version"
config=${PG_CONFIG:-/usr/lib/postgresql/$version/bin/pg_config}
libraries=$("$config" --pkglibdir)

fail() {
    echo "postgres: $*" >&2
    exit 1
}

# Servers run as postgres, not as root.
as() {
    if [ "$(id -u)" = 0 ]; then runuser -u postgres -- "$@"; else "$@"; fi
}

make_work() {
    local parent=${TMPDIR:-/tmp}
    # in memory, where there is room for it
    if [ -z "${TMPDIR:-}" ] && [ -w /dev/shm ] && [ "$(df --output=avail -k /dev/shm | tail -n 1)" -gt 4000000 ]; then parent=/dev/shm; fi
    work=$(mktemp -d "$parent/warm-postgres-XXXXXX")
    bin=$work$("$config" --bindir)
    servers=()
    loads=()
    trap clean_up EXIT
    mkdir -p "$work/run" "$work/build" "$work$libraries"
    copy_folder "$("$config" --bindir)"
    copy_folder "$("$config" --sharedir)"
    copy_libraries
    cp -r "$here"/*.[ch] "$here"/*.sql "$here"/*.control "$here/Makefile" "$here/test" "$here/sql" "$here/expected" "$here/t" "$work/build/"
    if [ "$(id -u)" = 0 ]; then chown -R postgres "$work"; fi
}

copy_folder() {
    mkdir -p "$(dirname "$work$1")"
    cp -r "$1" "$work$1"
}

# Of the libraries all but those that only a build needs.
copy_libraries() {
    local file
    for file in "$libraries"/*; do
        case ${file##*/} in bitcode | pgxs | *.a) ;; *) cp -r "$file" "$work$libraries/" ;; esac
    done
}

# Ends the servers that this script started, and no others.
clean_up() {
    local process server
    for process in "${loads[@]}"; do kill "$process" || true; done 2> /dev/null
    for server in "${servers[@]}"; do
        [ ! -f "$work/$server/postmaster.pid" ] || as "$bin/pg_ctl" -D "$work/$server" -s -m immediate -w stop || true
    done > /dev/null 2>&1
    [ -n "${KEEP:-}" ] || rm -rf "$work"
}

# Builds the extension, without a warning, and installs it into the copy.
build() {
    make -s -C "$work/build" PG_CONFIG="$config" WARM="$folder_of_library" with_llvm=no PROFILE=-Werror > "$work/build.log" 2>&1 &&
        make -s -C "$work/build/test" PG_CONFIG="$config" with_llvm=no PROFILE=-Werror >> "$work/build.log" 2>&1 ||
        fail "the extension is not built: $(tail -n 20 "$work/build.log")"
    make -s -C "$work/build" PG_CONFIG="$config" WARM="$folder_of_library" with_llvm=no DESTDIR="$work" install >> "$work/build.log" 2>&1 ||
        fail "the extension is not installed: $(tail -n 20 "$work/build.log")"
}

# sql SERVER STATEMENTS: what they print, or an error.
sql() { PGOPTIONS='-c client_min_messages=warning' as "$bin/psql" -XqAt -h "$work/run" -p "$(port "$1")" -d "${database:-postgres}" -v ON_ERROR_STOP=1 -c "$2"; }

# A server's port names its socket alone.
port() {
    local i
    for i in "${!servers[@]}"; do
        [ "${servers[$i]}" != "$1" ] || { echo $((54500 + i)); return; }
    done
    fail "there is no server $1"
}

# start SERVER: with test/slow.c, where $preload has its path.
start() {
    LD_PRELOAD=${preload:-${LD_PRELOAD:-}} SLOW=$work/slow as "$bin/pg_ctl" -D "$work/$1" -w -s -l "$work/$1.log" start > /dev/null 2>&1 ||
        fail "$1 does not start: $(tail -n 20 "$work/$1.log")"
}

# slow PLACE NUMBER: one of the numbers of test/slow.c.
slow() {
    [ -e "$work/slow" ] || as dd if=/dev/zero of="$work/slow" bs=4096 count=1 status=none
    perl -e 'print pack("Q", shift)' "$2" | as dd of="$work/slow" bs=8 seek="$1" conv=notrunc status=none
}

# make_slow: test/slow.c, and its numbers, all 0.
make_slow() {
    [ -e "$work/slow.so" ] || gcc -shared -fPIC -O1 "$work/build/test/slow.c" -o "$work/slow.so" || fail "slow.c"
    slow 0 0
}

stop() { as "$bin/pg_ctl" -D "$work/$1" -w -s -m "${2:-fast}" stop > /dev/null; }
promote() { as "$bin/pg_ctl" -D "$work/$1" -w -s promote > /dev/null; }

# set SERVER 'NAME = VALUE'..: appends to its configuration.
configure() {
    local server=$1
    shift
    printf '%s\n' "$@" | as tee -a "$work/$server/postgresql.conf" > /dev/null
}

# set_on SERVER 'NAME = VALUE'..: by a reload.
set_on() {
    configure "$@"
    sql "$1" "select pg_reload_conf()" > /dev/null
}

# make_primary NAME SHARED_BUFFERS [SETTING..]: a primary with the extension, started. Its segments have $segment MB, where that is set.
make_primary() {
    servers+=("$1")
    as "$bin/initdb" -D "$work/$1" -A trust --locale=C -E UTF8 -N ${segment:+--wal-segsize="$segment"} > "$work/initdb.log" || fail "initdb: $(tail "$work/initdb.log")"
    configure "$1" "listen_addresses = ''" "unix_socket_directories = '$work/run'" "port = $(port "$1")" "shared_buffers = $2" \
        "fsync = off" "jit = off" "max_parallel_workers_per_gather = 0" "max_wal_senders = 12" "wal_keep_size = 1GB" "max_wal_size = 4GB" \
        "max_standby_streaming_delay = -1" "max_worker_processes = 16" "max_connections = 40" "log_min_messages = info" \
        "track_io_timing = on" "autovacuum_naptime = 1h" "dynamic_shared_memory_type = mmap" \
        "shared_preload_libraries = 'pg_stat_statements,pg_prewarm,standby_prewarm'" "pg_prewarm.autoprewarm = off" \
        "pg_stat_statements.save = off" "standby_prewarm.sample_interval = 200ms" "standby_prewarm.publish_interval = 1s" \
        "standby_prewarm.full_interval = 10s" "standby_prewarm.load_interval = 500ms" "standby_prewarm.load_rate = 4000" "standby_prewarm.fraction = 0.8" "${@:3}"
    start "$1"
}

# make_standby NAME OF [SETTING..]: a standby of the server OF, started.
make_standby() {
    local name=$1 of=$2
    shift 2
    servers+=("$name")
    as "$bin/pg_basebackup" -h "$work/run" -p "$(port "$of")" -D "$work/$name" -R -X stream -c fast --no-sync || fail "pg_basebackup of $of"
    configure "$name" "port = $(port "$name")" "$@"
    start "$name"
}

# follow SERVER OF: a server that was stopped becomes a standby of OF, and starts.
follow() {
    as touch "$work/$1/standby.signal"
    printf '%s\n' "primary_conninfo = 'host=$work/run port=$(port "$2") user=postgres'" "primary_slot_name = ''" |
        as tee -a "$work/$1/postgresql.auto.conf" > /dev/null
    start "$1"
}

# rewind SERVER OF: pg_rewind, which copies the configuration of OF, too: the server keeps its own.
rewind() {
    as cp "$work/$1/postgresql.conf" "$work/$1/postgresql.auto.conf" "$work/run/"
    as "$bin/pg_rewind" -D "$work/$1" --source-server="host=$work/run port=$(port "$2") user=postgres dbname=postgres" --no-sync > "$work/rewind.log" 2>&1 ||
        fail "pg_rewind of $1: $(tail -n 3 "$work/rewind.log")"
    as cp "$work/run/postgresql.conf" "$work/run/postgresql.auto.conf" "$work/$1/"
}

# until_true SERVER QUERY: waits until it gives t.
until_true() {
    local end=$((SECONDS + limit))
    until [ "$(sql "$1" "$2" 2> /dev/null)" = t ]; do
        [ $SECONDS -lt $end ] || return 1
        sleep 0.1
    done
}

# flush SERVER: all WAL that was inserted, as the record of a lock or a message, is written and flushed. A commit does that where its transaction
# wrote something else; txid_current alone is not enough.
flush() { sql "$1" "select pg_logical_emit_message(true, 'flush', '')" > /dev/null; }

# caught_up STANDBY PRIMARY: the standby has replayed what was inserted on the primary. Where it does not, what it waits for is said.
caught_up() {
    local lsn
    flush "$2"
    lsn=$(sql "$2" "select pg_current_wal_lsn()")
    until_true "$1" "select pg_last_wal_replay_lsn() >= '$lsn'" || { explain "$1" "$lsn"; return 1; }
}

# explain STANDBY LSN: why it does not replay up to there.
explain() {
    {
        echo "$1 does not replay up to $2:"
        sql "$1" "select 'received ' || coalesce(pg_last_wal_receive_lsn()::text, 'nothing') || ', replayed ' || pg_last_wal_replay_lsn() || ', ' ||
                         pg_get_wal_replay_pause_state() || ', receiver ' || coalesce((select status || ' ' || latest_end_lsn from pg_stat_wal_receiver), 'none')"
        sql "$1" "select backend_type, pid, wait_event_type, wait_event, state from pg_stat_activity where backend_type <> 'client backend'"
        sql "$1" "select locktype, relation, pid, mode, granted from pg_locks where pid <> pg_backend_pid()"
        tail -n 12 "$work/$1.log"
    } >&2
}

# load SERVER TRANSACTIONS SEED SEED2 [RATE [OPTION..]]: by four clients. Rows are drawn by Zipf's law; seed2 says which are hot for a third of them.
# The options are pgbench's.
load() {
    as "$bin/pgbench" -n -h "$work/run" -p "$(port "$1")" -c 4 -j 1 -t $(($2 / 4)) ${5:+-R "$5"} --random-seed="$3" -D rows="$rows" -D zipf="$zipf" \
        -D seed2="$4" -f "$work/build/test/zipf.sql@65" -f "$work/build/test/drift.sql@30" -f "$work/build/test/update.sql@${UPDATES:-5}" "${@:6}" postgres \
        > "$work/load-$1.log" 2>&1 || fail "the load on $1: $(tail -n 3 "$work/load-$1.log")"
}

# The statements of a load, which begin with a word in capitals, as those of these scripts do not.
of_load="query ~ '^(SELECT|INSERT|UPDATE) '"

# misses SERVER: pages that the load read into shared buffers so far.
misses() { sql "$1" "select coalesce(sum(shared_blks_read), 0) from pg_stat_statements where $of_load"; }

tests=0

ok() {
    tests=$((tests + 1))
    echo "ok $tests - $1 (${SECONDS}s)"
}

# stat SERVER COLUMN: of its view.
stat() { sql "$1" "select $2 from pg_stat_standby_prewarm"; }

# is SERVER CONDITION NAME: a test that the condition on the view comes to hold.
is() {
    until_true "$1" "select $2 from pg_stat_standby_prewarm" ||
        fail "$3: not $2 on $1: $(stat "$1" "pg_stat_standby_prewarm")"
    ok "$3"
}

logged() {
    local end=$((SECONDS + limit))
    until grep -q "$2" "$work/$1.log"; do
        [ $SECONDS -lt $end ] || fail "$3: $1 does not say '$2': $(tail -n 5 "$work/$1.log")"
        sleep 0.1
    done
    ok "$3"
}

worker() { sql "$1" "select pid from pg_stat_activity where backend_type = '$2' limit 1"; }

# Ends a server by kill -9, and waits until its processes, whose parent it is, have ended too.
kill_server() {
    local pid children
    pid=$(head -n 1 "$work/$1/postmaster.pid")
    children=$(ps -o pid= --ppid "$pid")
    kill -9 "$pid"
    for _ in $(seq $((limit * 20))); do
        # shellcheck disable=SC2086
        kill -0 $children 2> /dev/null || return 0
        sleep 0.05
    done
    fail "processes of $1 go on after its end"
}
