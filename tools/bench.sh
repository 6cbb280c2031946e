#!/bin/sh
# Measures `nbdj serve` of the program NBDJ, nbdkit's file plugin with and without nbdkit's cache filter, and qemu-nbd, in one run on one
# machine, over Unix sockets, each with an image of 512 MiB that is filled before. It prints tables in Markdown. It is part of no gate.
#
# 1. Rates, and the ratio of nbdj to the best of the others.
# 2. A reader, a flusher and writers at the same time.
# 3. nbdj and nbdkit's file plugin with syncs that take SLOW_SYNCS (0 1000 5000) microseconds more, by a preload that sleeps: READs alone, READs
#    while 4 connections write and flush, and such connections.
# 4. How long writes wait while the journal is always full, for FILLING_SECONDS (60): the other servers, and nbdj in both layouts with areas of
#    16 MiB (layout 2: 8).
# 5. Random WRITEs over 2 GiB for SUSTAINED_SECONDS (120), over images that were written by 1 MiB and by 4 KiB: nbdj with two sizes of frames and
#    areas, and nbdkit's file plugin, each limited to 256 MiB of memory with its page cache. It needs root and the memory controller of cgroups.
# 6. How long single requests take: nbdj and nbdkit's file plugin.
# 7. How much memory each server has after its start, after a load, and a minute later.
# 8. ONE connection, as a guest has it: nbdj as the guide serves it (`format --size`, `--in-flight 16`), nbdkit's file plugin with its usual threads
#    and with one, and qemu-nbd. READs beside a WRITE with FLUSH, with the times of syncs of the third table; FUA writes in flight; QEMU's own load;
#    and READs over a page cache that was dropped, which needs root.
#
# TABLES (servers syncs filling) says which are made: servers the first two, syncs the third, filling the fourth, sustained the fifth, tails the
# sixth, memory the seventh, one the eighth.
# It needs cc and Debian's libnbd-dev, nbdkit and qemu-utils. Each server is measured ROUNDS (1) times, and the medians are printed. A measurement
# takes BENCH_SECONDS (4); then each client waits for answers that are due. The images are in BENCH_FOLDER, by default TMPDIR.
set -eu
here=$(CDPATH='' cd "$(dirname "$0")/.." && pwd)
rounds=${ROUNDS:-1} seconds=${BENCH_SECONDS:-4}
blocks=131072 hot=2048 frames=4096
for tool in cc nbdkit qemu-nbd awk; do
    command -v $tool >/dev/null || { echo "bench: there is no $tool" >&2; exit 1; }
done
folder=$(mktemp -d "${BENCH_FOLDER:-${TMPDIR:-/tmp}}/bench.XXXXXX")
server='' slowly='' inside='' life=120
# stop: ends the server; the signal goes on from `timeout` to it
stop() {
    if [ -n "$server" ]; then
        kill "$server" 2>/dev/null || true
        wait "$server" 2>/dev/null || true
        server=''
        # (otherwise the next server would have to wait for what this one left in the page cache)
        sync
    fi
}
trap 'stop; rm -rf "$folder"' EXIT
trap 'exit 1' HUP INT TERM
cd "$folder"
cc -O2 -Wall -Werror -o client "$here/tools/bench_client.c" -lnbd -lpthread
cc -shared -fPIC -O2 -Wall -Werror -o slow_sync.so "$here/tests/preloads/slow_sync.c"

servers='nbdj nbdkit cache qemu'
"$NBDJ" format nbdj.img --blocks $blocks --area 64M >/dev/null
for it in nbdkit cache qemu; do truncate -s $((blocks * 4096)) $it.img; done

# command_of NAME: the command that serves its image at the socket NAME.sock
command_of() {
    case $1 in
    layout*) echo "$NBDJ serve $1.img --unix $1.sock --workers 16 --frames 16384" ;;
    small*) echo "$NBDJ serve $1.img --unix $1.sock --workers 16 --frames 4096" ;;
    large*) echo "$NBDJ serve $1.img --unix $1.sock --workers 16 --frames 32768" ;;
    guest) echo "$NBDJ serve guest.img --unix guest.sock --in-flight 16" ;;
    single) echo 'nbdkit -t 1 -f -U single.sock file single.img' ;;
    peer*) echo "nbdkit -f -U $1.sock file $1.img" ;;
    nbdj) echo "$NBDJ serve nbdj.img --unix nbdj.sock --workers 16 --frames $frames" ;;
    nbdkit) echo 'nbdkit -f -U nbdkit.sock file nbdkit.img' ;;
    cache) echo 'nbdkit -f -U cache.sock --filter=cache file cache.img' ;;
    qemu) echo "qemu-nbd -t -e 16 -f raw --cache=writeback -k $folder/qemu.sock qemu.img" ;;
    esac
}

# serve NAME: starts it, and waits until it takes clients
serve() {
    rm -f "$1.sock"
    TMPDIR=$folder timeout $life env $slowly $inside $(command_of "$1") >"$1.out" 2>"$1.err" &
    limited=$!
    tries=0
    while ! nbdinfo --size "nbd+unix:///?socket=$folder/$1.sock" >/dev/null 2>&1; do
        tries=$((tries + 1))
        [ $tries -lt 200 ] || { echo "bench: $1 doesn't serve: $(cat "$1.err")" >&2; exit 1; }
        sleep 0.05
    done
    server=$limited
}

# median: of the numbers on the input
median() { sort -n | awk '{ it[NR] = $1 } END { print it[int((NR + 1) / 2)] }'; }

# measure NAME KIND CONNECTIONS BLOCKS
measure() { timeout 100 ./client run "nbd+unix:///?socket=$folder/$1.sock" "$2" "$3" "$seconds" "$4"; }

# fill NAME BLOCKS: writes the first blocks of its image
fill() { ./client fill "nbd+unix:///?socket=$folder/$1.sock" "$2"; }

# part NAME FIELD: the median of a field of what was measured
part() { cut -d ' ' -f "$2" <"$1" | median; }

# row TEXT UNIT AIM FILE: larger is better
row() {
    echo "$1|$2|$(median <"nbdj.$4")|$(median <"nbdkit.$4")|$(median <"cache.$4")|$(median <"qemu.$4")|$3" |
        awk -F '|' '{ best = $4; if ($5 > best) best = $5; if ($6 > best) best = $6
            printf "| %s | %s | %s | %s | %s | %s | %.2f | %s |\n", $1, $2, $3, $4, $5, $6, $3 / best, $7 }'
}

# stalls TEXT FIELD, waits TEXT FIELD: a line of the second table, and of the fourth
stalls() { echo "| $1 | $(part nbdj.stall "$2") | $(part nbdkit.stall "$2") | $(part cache.stall "$2") | $(part qemu.stall "$2") |"; }
waits() { echo "| $1 | $(part layout1.waits "$2") | $(part layout2.waits "$2") | $(part nbdkit.waits "$2") | $(part cache.waits "$2") | $(part qemu.waits "$2") |"; }

# Servers run one after another, so that none shares the machine with another.
measure_servers() {
    round=0
    while [ $round -lt "$rounds" ]; do
        for it in $servers; do
            serve $it
            fill $it $blocks
            # (otherwise the next measurement would have to wait for what this one left in the page cache)
            for row in 'sequential 1' 'flushed 1' 'flushed 4' 'flushed 8' 'fua 1' 'fua 4' 'fua 8' 'write 1' 'write 4' 'mixed 4' 'write-512 1' 'write-512 4' 'read-512 1' 'read-512 4'; do
                measure $it $row $blocks >>"$it.$(echo "$row" | tr ' ' .)"
                sync
            done
            # Reads that hit: of the blocks written last, which are fewer than the frames.
            fill $it $hot
            for row in 'read 1' 'read 4' 'read-long 1' 'read-64k 1' 'write-512 1' 'write-512 4' 'read-512 1' 'read-512 4'; do measure $it $row $hot >>"$it.hit.$(echo "$row" | tr ' ' .)"; done
            for row in 'read-long 1' 'read-64k 1'; do measure $it $row $blocks >>"$it.$(echo "$row" | tr ' ' .)"; done
            sync
            timeout 100 ./client stall "nbd+unix:///?socket=$folder/$it.sock" "$seconds" $blocks >>$it.stall
            stop
        done
        round=$((round + 1))
    done

    # The start on a clean image, nine times.
    "$NBDJ" recover nbdj.img >/dev/null
    for it in $servers; do
        for k in 1 2 3 4 5 6 7 8 9; do
            rm -f $it.sock
            TMPDIR=$folder ./client start "$folder/$it.sock" $(command_of $it) >>$it.start
        done
        cut -d ' ' -f 1 $it.start | median >$it.ms
        cut -d ' ' -f 2 $it.start | median >$it.bytes
    done

    echo
    echo "Nbdj with $frames frames and areas of 64 MiB:"
    echo
    echo '| Workload | Unit | nbdj | nbdkit file | nbdkit cache, file | qemu-nbd | nbdj to the best other | Aim |'
    echo '|---|---|---|---|---|---|---|---|'
    row 'WRITE 4 KiB at random, 1 connection' '1/s' 1.0 write.1
    row 'WRITE 4 KiB at random, 4 connections' '1/s' 1.0 write.4
    row 'WRITE 4 KiB and FLUSH, 1 connection' '1/s' 0.8 flushed.1
    row 'WRITE 4 KiB and FLUSH, 4 connections' '1/s' 1.0 flushed.4
    row 'WRITE 4 KiB and FLUSH, 8 connections' '1/s' 1.2 flushed.8
    row 'WRITE 4 KiB with FUA, 1 connection' '1/s' 0.8 fua.1
    row 'WRITE 4 KiB with FUA, 4 connections' '1/s' 1.0 fua.4
    row 'WRITE 4 KiB with FUA, 8 connections' '1/s' 1.0 fua.8
    row 'WRITE 1 MiB in sequence, once over the image, FLUSH at the end' 'MiB/s' 0.55 sequential.1
    row 'READ 4 KiB at random that hits, 1 connection' '1/s' 1.0 hit.read.1
    row 'READ 4 KiB at random that hits, 4 connections' '1/s' 1.0 hit.read.4
    row '7 READs of 4 KiB to 3 WRITEs at random, 4 connections' '1/s' 0.9 mixed.4
    row 'READ 1 MiB in sequence that hits' 'MiB/s' 1.0 hit.read-long.1
    row 'READ 1 MiB in sequence that misses' 'MiB/s' 1.0 read-long.1
    row 'READ 64 KiB in sequence that hits' '1/s' 1.0 hit.read-64k.1
    row 'READ 64 KiB in sequence that misses' '1/s' 1.0 read-64k.1
    # (a write of part of a block reads its old bytes, unless they are in memory)
    for connections in 1 4; do
        many=$([ $connections -eq 1 ] && echo '1 connection' || echo '4 connections')
        row "WRITE 512 bytes at random over blocks in memory, $many" '1/s' '' hit.write-512.$connections
        row "WRITE 512 bytes at random over the image, $many" '1/s' '' write-512.$connections
        row "READ 512 bytes at random that hits, $many" '1/s' '' hit.read-512.$connections
        row "READ 512 bytes at random over the image, $many" '1/s' '' read-512.$connections
    done
    echo "| start until the greeting | ms | $(cat nbdj.ms) | $(cat nbdkit.ms) | $(cat cache.ms) | $(cat qemu.ms) | | 20 at most |"
    # The map of the image has two bits a block.
    most=$((frames * 4096 + blocks / 4 + 8388608))
    echo "| resident after the start | bytes | $(cat nbdj.bytes) | $(cat nbdkit.bytes) | $(cat cache.bytes) | $(cat qemu.bytes) | | $most at most |"

    echo
    echo '| 4 connections that write, one that writes and flushes, one that reads | nbdj | nbdkit file | nbdkit cache, file | qemu-nbd |'
    echo '|---|---|---|---|---|'
    stalls 'WRITEs of 4 KiB a second' 1
    stalls 'the longest, us' 2
    stalls 'a WRITE with a FLUSH, p99, us' 3
    stalls 'a READ of 4 KiB, p99, us' 4
}

# Slow syncs. Each server is started again for each time of a sync, in each round.
measure_syncs() {
    for it in nbdj nbdkit; do
        serve $it
        fill $it $blocks
        stop
    done
    slow_syncs=${SLOW_SYNCS:-0 1000 5000}
    round=0
    while [ $round -lt "$rounds" ]; do
        for us in $slow_syncs; do
            slowly="SLOW_SYNC_US=$us LD_PRELOAD=$folder/slow_sync.so"
            for it in nbdj nbdkit; do
                serve $it
                for length in 4096 65536; do
                    for flushers in 0 4; do
                        timeout 100 ./client beside "nbd+unix:///?socket=$folder/$it.sock" $length $flushers "$seconds" $blocks >>"$it.$us.$length.$flushers"
                    done
                done
                for connections in 1 2 4 8 15; do measure $it flushed $connections $blocks >>"$it.$us.flushed.$connections"; done
                stop
            done
        done
        slowly=''
        round=$((round + 1))
    done

    echo
    echo '| Syncs take more | Workload | nbdj, 1/s | p50, p99, longest, us | nbdkit file, 1/s | p50, p99, longest, us | Ratio |'
    echo '|---|---|---|---|---|---|---|'
    for us in $slow_syncs; do
        for length in 4096 65536; do
            for flushers in 0 4; do
                for it in nbdj nbdkit; do
                    name="$it.$us.$length.$flushers"
                    echo "$(part "$name" 1)|$(part "$name" 2), $(part "$name" 3), $(part "$name" 4)"
                done | paste -s -d '|' | awk -F '|' -v what="$us us | READ $((length / 1024)) KiB beside $flushers that flush" \
                    '{ printf "| %s | %s | %s | %s | %s | %.2f |\n", what, $1, $2, $3, $4, $1 / $3 }'
            done
        done
        for connections in 1 2 4 8 15; do
            echo "$(median <"nbdj.$us.flushed.$connections")|$(median <"nbdkit.$us.flushed.$connections")" |
                awk -F '|' -v what="$us us | WRITE 4 KiB and FLUSH, $connections connections" '{ printf "| %s | %s | | %s | | %.2f |\n", what, $1, $2, $1 / $2 }'
        done
    done
}

# A journal that is always full: new images, written at random.
measure_filling() {
    filling=${FILLING_SECONDS:-60}
    for layout in 1 2; do "$NBDJ" format layout$layout.img --blocks $blocks --area 16M --layout $layout >/dev/null; done
    round=0
    while [ $round -lt "$rounds" ]; do
        for it in layout1 layout2 nbdkit cache qemu; do
            serve $it
            timeout $((filling + 60)) ./client waits "nbd+unix:///?socket=$folder/$it.sock" "$filling" $blocks >>$it.waits
            stop
        done
        round=$((round + 1))
    done

    echo
    echo '| 4 connections that write, one that writes and flushes, through a journal that fills all the time | layout 1 | layout 2 | nbdkit file | nbdkit cache, file | qemu-nbd |'
    echo '|---|---|---|---|---|---|'
    waits 'WRITEs of 4 KiB a second' 1
    field=2
    for what in 'a WRITE' 'a WRITE with a FLUSH'; do
        for part in p50 p99 p99.9 'the longest'; do
            waits "$what, $part, us" $field
            field=$((field + 1))
        done
    done
}

# Limited memory, so that writes have to go to the disk.
measure_sustained() {
    sustained=${SUSTAINED_SECONDS:-120} large_blocks=524288 group=/sys/fs/cgroup/memory/nbdj-bench
    if ! mkdir -p "$group" 2>/dev/null || ! echo 268435456 >"$group/memory.limit_in_bytes"; then
        echo 'bench: the memory of a server cannot be limited here' >&2
        return
    fi
    printf '#!/bin/sh\necho $$ >%s/cgroup.procs\nexec "$@"\n' "$group" >within
    chmod +x within
    life=$((sustained + 600))
    echo
    echo '| Random WRITEs of 4 KiB over 2 GiB, 4 connections, a second | nbdj, 4,096 frames, areas of 64 MiB | nbdj, 32,768 frames, areas of 256 MiB | nbdkit file | Ratio of the first, the second |'
    echo '|---|---|---|---|---|'
    for piece in 256 1; do
        "$NBDJ" format small.img --blocks $large_blocks --area 64M --layout 2 >/dev/null
        "$NBDJ" format large.img --blocks $large_blocks --area 256M --layout 2 >/dev/null
        truncate -s $((large_blocks * 4096)) peer.img
        for it in small large peer; do
            inside=''
            serve $it
            ./client fill "nbd+unix:///?socket=$folder/$it.sock" $large_blocks $piece
            stop
            echo 3 >/proc/sys/vm/drop_caches
            inside=./within
            serve $it
            timeout $((sustained + 100)) ./client run "nbd+unix:///?socket=$folder/$it.sock" write 4 "$sustained" $large_blocks >$it.sustained
            stop
        done
        inside=''
        echo "$(cat small.sustained)|$(cat large.sustained)|$(cat peer.sustained)" |
            awk -F '|' -v what="written by $((piece * 4)) KiB before" '{ printf "| %s | %s | %s | %s | %.2f, %.2f |\n", what, $1, $2, $3, $1 / $3, $2 / $3 }'
        rm small.img large.img peer.img
    done
    life=120
    rmdir "$group" 2>/dev/null || true
}

# The slowest requests. The disk's syncs vary by the minute, so both servers stand, and take each load in turn.
measure_tails() {
    tailed='flushed 1
flushed 4
flushed 8
fua 1
fua 4
fua 8
write 1
write 4'
    round=0
    while [ $round -lt "$rounds" ]; do
        serve nbdj
        first=$server
        serve nbdkit
        for it in nbdj nbdkit; do fill $it $blocks; done
        sync
        echo "$tailed" | while read -r kind connections; do
            for it in nbdj nbdkit; do
                timeout 100 ./client times "nbd+unix:///?socket=$folder/$it.sock" "$kind" "$connections" "$seconds" $blocks >>"$it.$kind.$connections.times"
                # (until it has copied what its journal holds)
                sleep 0.5
                sync
            done
        done
        stop
        server=$first
        stop
        round=$((round + 1))
    done

    echo
    echo '| Requests of 4 KiB at random | nbdj, 1/s | p50, p99, p99.9, longest, us | nbdkit file, 1/s | p50, p99, p99.9, longest, us | p99 to p99 |'
    echo '|---|---|---|---|---|---|'
    echo "$tailed" | while read -r kind connections; do
        for it in nbdj nbdkit; do
            name="$it.$kind.$connections.times"
            echo "$(part "$name" 1)|$(part "$name" 2), $(part "$name" 3), $(part "$name" 4), $(part "$name" 5)|$(part "$name" 3)"
        done | paste -s -d '|' | awk -F '|' -v what="$kind, connections: $connections" '{ printf "| %s | %s | %s | %s | %s | %.2f |\n", what, $1, $2, $4, $5, $3 / $6 }'
    done
}

# resident NAME: adds how much memory its server has, in MiB, to NAME.memory
resident() { awk '/^VmRSS:/ { printf "%.1f\n", $2 / 1024 }' "/proc/$(pgrep -P "$server")/status" >>"$1.memory"; }

# Memory. Each server has all the loads, one after another.
measure_memory() {
    life=400
    for it in $servers; do
        serve $it
        resident $it
        for row in 'sequential 1' 'sequential 8' 'write 16' 'read-long 8' 'flushed 8' 'mixed 8' 'write-512 8'; do measure $it $row $blocks >/dev/null; done
        resident $it
        sleep 60
        resident $it
        stop
    done
    life=120

    echo
    echo "| Resident memory, MiB, of which nbdj has $((frames / 256)) as frames | nbdj | nbdkit file | nbdkit cache, file | qemu-nbd |"
    echo '|---|---|---|---|---|'
    line=1
    for what in 'after the start' 'after loads by up to 16 connections' 'a minute later'; do
        echo "| $what | $(sed -n ${line}p nbdj.memory) | $(sed -n ${line}p nbdkit.memory) | $(sed -n ${line}p cache.memory) | $(sed -n ${line}p qemu.memory) |"
        line=$((line + 1))
    done
}

# took FILE ARGUMENTS..: the seconds of a run of QEMU's own load
took() {
    file=$1
    shift
    began=$(date +%s.%N)
    timeout 100 qemu-img bench -q -f raw "$@" >/dev/null
    echo "$began $(date +%s.%N)" | awk '{ printf "%.3f\n", $2 - $1 }' >>"$file"
}

# guests TEXT FILE FIELD BEST: a line of the eighth table; BEST is max where more is better, or min
guests() {
    for it in guest nbdkit single qemu; do part "$it.$2" "$3"; done | paste -s -d '|' | awk -F '|' -v what="$1" -v way="$4" '{
        best = $2
        for (k = 3; k <= 4; k++) {
            is_better = way == "max" ? ($k + 0 > best + 0) : ($k + 0 < best + 0)
            if (is_better) best = $k
        }
        printf "| %s | %s | %s | %s | %s | %.2f |\n", what, $1, $2, $3, $4, (best + 0 ? $1 / best : 0)
    }'
}

# One connection. Each server is started again for each time of a sync, in each round.
measure_one() {
    all='guest nbdkit single qemu'
    "$NBDJ" format guest.img --size $((blocks * 4096)) >/dev/null
    truncate -s $((blocks * 4096)) single.img
    for it in $all; do
        serve $it
        fill $it $blocks
        stop
    done
    slow_syncs=${SLOW_SYNCS:-0 1000 5000}
    round=0
    while [ $round -lt "$rounds" ]; do
        for it in $all; do
            uri="nbd+unix:///?socket=$folder/$it.sock"
            for us in $slow_syncs; do
                slowly="SLOW_SYNC_US=$us LD_PRELOAD=$folder/slow_sync.so"
                serve $it
                for writers in 0 1 4; do timeout 100 ./client one "$uri" 4 $writers "$seconds" $blocks >>"$it.$us.one.$writers"; done
                measure $it fua-16 1 $blocks >>"$it.$us.fua"
                stop
            done
            slowly=''
            serve $it
            took "$it.long" -w -c 8000 -d 8 -s 65536 -S 131072 --flush-interval=32 --no-drain "$uri"
            took "$it.short" -w -c 10000 -d 16 -s 4096 -S 69632 --flush-interval=16 --no-drain "$uri"
            stop
        done
        round=$((round + 1))
    done
    # (only now, because every later measurement would begin with a cold page cache)
    round=0
    while [ $round -lt "$rounds" ]; do
        for it in $all; do
            for kind in read any-64k; do
                serve $it
                sync
                echo 3 >/proc/sys/vm/drop_caches
                measure $it $kind 1 $blocks >>"$it.cold.$kind"
                stop
            done
        done
        round=$((round + 1))
    done

    echo
    echo '| One connection | nbdj | nbdkit file | nbdkit -t 1 | qemu-nbd | nbdj to the best |'
    echo '|---|---|---|---|---|---|'
    for us in $slow_syncs; do
        for writers in 0 1 4; do
            guests "syncs +$us us: 4 READs beside $writers that write and flush, READs a second" "$us.one.$writers" 1 max
            guests "the same, p99 of a READ, us" "$us.one.$writers" 3 min
            [ $writers = 0 ] || guests 'the same, WRITEs with their FLUSH a second' "$us.one.$writers" 5 max
        done
        guests "syncs +$us us: FUA writes, 16 in flight, a second" "$us.fua" 1 max
    done
    guests '64 KiB writes, 8 in flight, a FLUSH each 32 (qemu-img bench), seconds' long 1 min
    guests '4 KiB writes, 16 in flight, a FLUSH each 16 (qemu-img bench), seconds' short 1 min
    guests 'cold READs of 4 KiB at random, 16 in flight, a second' cold.read 1 max
    guests 'cold READs of 64 KiB at random, 16 in flight, a second' cold.any-64k 1 max
}

echo "$(uname -sr), $(nproc) processors, load $(cut -d ' ' -f 1-3 /proc/loadavg), images on $(df -T "$folder" | awk 'NR == 2 { print $2 }');"
echo "$("$NBDJ" --version), $(nbdkit --version), $(qemu-nbd --version | head -n 1), libnbd $(nbdinfo --version | sed -n 's/^nbdinfo //p');"
echo "$rounds rounds of $seconds s, an image of $((blocks / 256)) MiB."
for table in ${TABLES:-servers syncs filling}; do
    case $table in
    servers | syncs | filling | sustained | tails | memory | one) measure_$table ;;
    *) echo "bench: there is no table $table" >&2; exit 2 ;;
    esac
done
