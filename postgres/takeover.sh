# What measure and workloads share: a load on servers that took over, and what is seen of it. Sourced, after common.sh.
#
# They define play SERVER TRANSACTIONS SEED [OPTION..], which plays so many transactions of their load with options of pgbench, and $second: how
# many of them are a second.

# The extension as it is by default, or with another FRACTION: make_primary has shorter times, for tests.
usual_settings=("standby_prewarm.sample_interval = 1s" "standby_prewarm.publish_interval = 5s" "standby_prewarm.full_interval = 600s"
    "standby_prewarm.load_interval = 1s" "standby_prewarm.load_rate = -1" "standby_prewarm.fraction = ${FRACTION:-0.5}")

# From slow_servers on servers start with test/slow.c; from slow_reads on a read of a page takes them half a millisecond more, or READ_US
# microseconds, but for small catalogs.
slow_servers() {
    make_slow
    preload=$work/slow.so
}

slow_reads() { slow 2 "${READ_US:-500}"; }

# watch SERVER, and unwatch SERVER: in between the statements of the load so far, their hits and their misses are noted four times a second.
watch() {
    rm -f "$work/watched"
    PGAPPNAME=watch as "$bin/psql" -XqAt -F, -h "$work/run" -p "$(port "$1")" -d postgres > "$work/watched" 2> "$work/watch.log" << END &
select coalesce(sum(calls), 0), coalesce(sum(shared_blks_hit), 0), coalesce(sum(shared_blks_read), 0)
from pg_stat_statements where $of_load \watch 0.25
END
    watching=$!
    until [ -s "$work/watched" ]; do
        kill -0 "$watching" 2> /dev/null || fail "watching $1: $(cat "$work/watch.log")"
        sleep 0.05
    done
}

unwatch() {
    sleep 0.5 # so that all of the load is in what was noted last
    sql "$1" "select pg_terminate_backend(pid) from pg_stat_activity where application_name = 'watch'" > /dev/null
    wait "$watching" || true
}

# ratio: the share of hits in the accesses that were watched.
ratio() { awk -F, 'NR == 1 { hits = $2; misses = $3 } END { print ($2 - hits) / ($2 - hits + $3 - misses) }' "$work/watched"; }

# back RATIO SECONDS: after how many of the seconds that were watched the share of hits is within 1 % of RATIO, for a second; all where it never is.
# They are counted by statements.
back() {
    awk -F, -v ratio="$1" -v seconds="$2" '
        { calls[NR] = $1; hits[NR] = $2; misses[NR] = $3 }
        END {
            second = (calls[NR] - calls[1]) / seconds
            after = seconds
            for (from = to = 1; to <= NR; to++) {
                if (calls[to] - calls[from] < second)
                    continue
                hit = hits[to] - hits[from]
                if (hit / (hit + misses[to] - misses[from]) >= ratio - 0.01) {
                    after = (calls[from] - calls[1]) / second
                    break
                }
                from = to
            }
            printf "%.0f", after
        }' "$work/watched"
}

# latencies: the 50th, 95th and 99th percentile of the transactions that pgbench logged, in ms. They count from when a transaction began, which
# on a busy machine is later than when it was due.
latencies() {
    cat "$work"/latency.* | awk '{ print ($3 - $7) / 1000 }' | sort -n |
        awk '{ all[NR] = $1 } END { printf "%.1f,%.1f,%.1f", all[int(NR * 0.5) + 1], all[int(NR * 0.95) + 1], all[int(NR * 0.99) + 1] }'
}

# window SERVER: its misses after 1, 5, 10 and 30 seconds of the load; the latencies of the first 5; and when its hits are back at $usual.
window() {
    local before transactions line=$1 times
    rm -f "$work"/latency.*
    watch "$1"
    before=$(misses "$1")
    for transactions in $second $((second * 4)) $((second * 5)) $((second * 20)); do
        play "$1" $transactions $((4242 + transactions)) -l --log-prefix="$work/latency"
        line+=,$(($(misses "$1") - before))
        [ $transactions != $((second * 4)) ] || times=$(latencies)
    done
    unwatch "$1"
    echo "$line,$times,$(back "$usual" 30)"
}

# run_script SERVER: the rival. Which pages the primary has, read on the standby: those that are in order with one call, the hottest last.
run_script() {
    sql primary "select format('select pg_prewarm(%L::regclass, ''buffer'', %L, %s, %s);', c.oid,
                        case b.relforknumber when 0 then 'main' when 1 then 'fsm' else 'vm' end, min(b.relblocknumber), max(b.relblocknumber))
                 from (select *, relblocknumber - row_number() over (partition by relfilenode, relforknumber, usagecount order by relblocknumber) run
                       from pg_buffercache where reldatabase in (0, (select oid from pg_database where datname = current_database()))) b
                 join pg_class c on pg_relation_filenode(c.oid) = b.relfilenode where c.relkind in ('r', 'i', 't')
                 group by c.oid, b.relforknumber, b.run, b.usagecount order by b.usagecount, c.oid, min(b.relblocknumber)" > "$work/$1.sql"
    chmod a+r "$work/$1.sql"
    as "$bin/psql" -XqAt -h "$work/run" -p "$(port "$1")" -d postgres -f "$work/$1.sql" > /dev/null 2> "$work/$1.err" || true
}

# table NAMES FILE..: of the runs in these files, for each of these servers: the median of each column, and least to greatest.
table() {
    echo "| | misses in 1 s | 5 s | 10 s | 30 s | latency in ms, half of all | 95 % | 99 % | back after s |"
    echo "|---|---|---|---|---|---|---|---|---|"
    local name column values line
    for name in $1; do
        line="| $name |"
        for column in 2 3 4 5 6 7 8 9; do
            values=($(grep -h "^$name," "${@:2}" | cut -d, -f$column | sort -n))
            line+=" ${values[$((${#values[@]} / 2))]} (${values[0]} to ${values[-1]}) |"
        done
        echo "$line"
    done
}
