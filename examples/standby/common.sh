# What run, check and speed share. Sourced, with $work a folder of their own and $bin the one of the programs.

# A folder for database files. kill -9 loses nothing that the system has in memory, so a file system in memory shows the same, faster.
make_work() {
    local parent=${TMPDIR:-/tmp}
    [ -d /dev/shm ] && [ -w /dev/shm ] && [ -z "${TMPDIR:-}" ] && parent=/dev/shm
    work=$(mktemp -d "$parent/warm-standby-XXXXXX")
    files=$work # of the standbys
    bin=$work/bin
    broker=
    standby=
    primary=
    tests=()
    trap clean_up EXIT
}

# Ends what this script started. A test that runs beside the others is a process group.
clean_up() {
    for process in $standby ${late:-} $broker $primary "${tests[@]/#/-}"; do
        kill -9 -- "$process" || true
    done 2> /dev/null
    [ ${#tests[@]} -eq 0 ] || disown "${tests[@]}"
    rm -rf "$work"
}

fail() {
    echo "standby: $*" >&2
    exit 1
}

# free_ports COUNT: ports that nobody has. They are none of those that the system gives to whoever
# asks for any: a connection of another test would have one before its broker does.
free_ports() {
    python3 - "$1" <<'END'
import random, socket, sys
with open("/proc/sys/net/ipv4/ip_local_port_range", encoding="ascii") as given:
    low, high = map(int, given.read().split())
ports = [port for port in range(10000, 60000) if not low <= port <= high]
taken = []
while len(taken) < int(sys.argv[1]):
    one = socket.socket()
    try:
        one.bind(("127.0.0.1", random.choice(ports or [0])))
    except OSError:
        continue
    taken.append(one)
print(*(one.getsockname()[1] for one in taken))
END
}

# A broker that keeps nothing on disk, at $port. It drops nothing, however slow who hears is: by
# default it does where 1,000 messages wait, and with them that a primary is gone.
start_broker() {
    printf '%s\n' "listener $port 127.0.0.1" 'allow_anonymous true' 'persistence false' 'log_type error' 'max_queued_messages 0' \
        > "$work/broker-$port.conf"
    PATH=$PATH:/usr/sbin mosquitto -c "$work/broker-$port.conf" 2>> "$work/broker-$port.log" &
    broker=$!
    # a broker that is not told of does not print its end
    disown "$broker"
    for _ in $(seq 6000); do
        mosquitto_pub -h 127.0.0.1 -p "$port" -t ready -m yes 2> /dev/null && return
        kill -0 "$broker" 2> /dev/null || break
        sleep 0.05
    done
    fail "the broker did not start: $(cat "$work/broker-$port.log")"
}

# Its port is free then.
stop_broker() {
    kill -9 "$broker"
    while kill -0 "$broker" 2> /dev/null; do sleep 0.01; done
    broker=
}

# wait_for FILE PATTERN [COUNT]: until so many lines of a file have it. A busy machine needs minutes.
wait_for() {
    local lines
    for _ in $(seq 6000); do
        lines=$(grep -c -- "$2" "$1" 2> /dev/null || true) # nothing where the file is not there yet
        [ "${lines:-0}" -ge "${3:-1}" ] && return
        sleep 0.05
    done
    fail "$1 never said '$2': $(tail -n 5 "$1")"
}

# start_standby MODE WORD...: one that hears the primary, with a copy of its file. What it says is in MODE.out.
start_standby() {
    cp "$work/standby.copy" "$files/$1.db.copy"
    "$bin/standby" --db "$files/$1.db" --from "$work/primary.db" --mode "$1" --port "$port" --replica 2 --peer 1 --frames "$frames" --seed 9 "${@:2}" \
        > "$work/$1.out" &
    standby=$!
}

# take_over MODE: that standby takes over.
take_over() {
    kill -USR1 "$standby"
    wait "$standby" || fail "the standby failed: $(tail -n 5 "$work/$1.out")"
    standby=
}

# The same takeover without a warm history, and by stock SQLite.
take_over_as() {
    "$bin/standby" --db "$files/$1.db" --from "$work/primary.db" --mode "$1" --frames "$frames" --seed 9 "${@:2}" > "$work/$1.out" ||
        fail "$1 failed"
}

# The last number of pages and of device reads of a takeover.
last_counts() {
    grep '^after' "$work/$1.out" | tail -n 1 | cut -d ' ' -f 2,3
}
