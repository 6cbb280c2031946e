#!/bin/sh
# Sweeps scripts with the built program NBDJ: each is run again for each crash at a device call, and for each fault of one, and the opened
# image is compared with plain bytes. The scripts are those of tests/scripts and of docs/FORMATS.md, without their lines `crash` and `fault`,
# and some random ones. Prints how many runs with a crash there were, and last 'N passed, M failed'. --long sweeps only the scripts that take
# many minutes, which no other run does.
#
# usage: tests/sweeps.sh [--long | --sample SEED]          (--sample: in an order drawn from the seed, for a minute)
set -u
here=$(CDPATH='' cd "$(dirname "$0")/.." && pwd)
. "$here/tests/checks.sh"
runs=0
seed=
[ "${1:-}" != --sample ] || seed=$2
# For this many seconds new scripts of the sample are begun.
SAMPLE_SECONDS=60

# Scripts with hundreds of device calls, or a large device.
long='checkpoint_lets_frames_go edge_is_held_before_its_read edge_waits_for_a_frame group_of_seven_puts_of_257_blocks
no_frame_left_for_bytes read_of_old_bytes_fails_after_an_eviction area_of_half_the_bytes_is_full room_after_each_finish
two_finishes_and_one_clean upgrade_in_a_checkpoint crash_in_an_upgrade three_areas_wait
upgrade_behind_a_failed_write device_fault_with_two_areas_waiting reads_while_three_areas_wait'

# swept NAME: sweeps the script in the file `input`
swept() {
    run rehearse --sweep
    calls=$(sed -n 's/^calls //p' output)
    runs=$((runs + 5 * (${calls:-0} + 1)))
    is "the sweep of $1" "0|$(printf 'calls %s\nruns %s\nok' "$calls" $((5 * (${calls:-0} + 1))))|" "$status|$(cat output)|$errors"
    run rehearse --faults
    is "the faults of $1" '0|ok|' "$status|$(tail -n 1 output)|$errors"
    # (each device call fails once)
    is "the calls of $1" "${calls:-}" "$(awk '{ if (NF == 2) sum += $2 } END { print sum + 0 }' output)"
}

# without_trouble FILE: writes a script to `input` without its lines `crash` and `fault`
without_trouble() { grep -v -e '^crash ' -e '^fault ' "$1" >input; }

if [ "${1:-}" = --long ]; then
    for name in $long; do
        without_trouble "$here/tests/scripts/$name.in"
        swept "$name"
    done
    echo "$runs runs with a crash"
    the_end
    exit
fi

# A put that is stored takes a write and a sync of the body, and of the gate; nothing is read.
printf '%s\n' 'format 16 2097152 512' 'send 1 put 0 1 41' 'serve 1' 'answer 1' seal append publish >input
ends 'a put that is stored, swept' 0 "$(printf '%s\n' 'calls 4' 'runs 25' ok | hex)" '' rehearse --sweep
ends 'the faults of a put that is stored' 0 "$(printf '%s\n' 'reads 0' 'writes 2' 'syncs 2' ok | hex)" '' rehearse --faults
# Requests of bytes whose old bytes are in memory read nothing: only the group makes device calls.
for name in bytes_across_two_holes zeroes_between_two_edges; do
    without_trouble "$here/tests/scripts/$name.in"
    ends "$name, swept" 0 "$(printf '%s\n' 'calls 4' 'runs 25' ok | hex)" '' rehearse --sweep
    ends "the faults of $name" 0 "$(printf '%s\n' 'reads 0' 'writes 2' 'syncs 2' ok | hex)" '' rehearse --faults
done

# A script is read to its end before anything runs, and must have no line `crash` or `fault`.
for how in --sweep --faults; do
    for line in 'crash ff' 'crash at 1 00' 'fault sync 1' 'no step' '' 'format 16 2097152 512'; do
        printf 'format 16 2097152 512\nsend 1 flush\n%s\nseal\n' "$line" >input
        ends "no step of $how: '$line'" 2 '' 'nbdj: line 3: not a step' rehearse "$how"
    done
    printf 'seal\n' >input
    ends "no format of $how" 2 '' 'nbdj: line 1: not a step' rehearse "$how"
    : >input
    ends "an empty script of $how" 2 '' 'nbdj: line 1: not a step' rehearse "$how"
done
: >input
run rehearse --sweep --faults
is 'one of both at a time' 2 "$status"
# An upgrade of areas that are too small ends each run.
printf '%s\n' 'format 16 2097152 512' 'send 1 put 0 1 41' 'serve 1' 'answer 1' seal append publish upgrade >input
for how in --sweep --faults; do ends "an upgrade of small areas, $how" 1 "$(text 'failed 22')" '' rehearse "$how"; done

block() { awk -v kind="$1" -v k="$2" '$0 == "```" kind { n++; on = n == k; next } /^```/ { on = 0 } on' "$here/docs/FORMATS.md"; }

# names: the scripts to sweep, those of docs/FORMATS.md as `page K`
names() {
    for script in "$here"/tests/scripts/*.in; do
        name=$(basename "$script" .in)
        case " $(echo $long) " in *" $name "*) ;; *) echo "$name" ;; esac
    done
    for k in 1 2 3; do echo "page $k"; done
}
drawn_order() { while read -r name; do echo "$(printf %s "$seed $name" | cksum | cut -d ' ' -f 1) $name"; done | sort -n | cut -d ' ' -f 2-; }
if [ -n "$seed" ]; then names | drawn_order >order; else names >order; fi
began=$(date +%s)
count=0
while read -r name; do
    [ -z "$seed" ] || [ $(($(date +%s) - began)) -lt "$SAMPLE_SECONDS" ] || break
    case $name in
    page*)
        block script "${name#page }" >whole
        without_trouble whole
        ;;
    *) without_trouble "$here/tests/scripts/$name.in" ;;
    esac
    swept "$name"
    count=$((count + 1))
done <order
echo "$count of $(wc -l <order) scripts were swept"

# drawn SEED: a script of requests of bytes that often begin or end at a border of blocks or next to one, with groups and checkpoints between
drawn() {
    awk -v x="$1" '
        function below(n) { x = x * 16807 % 2147483647; return x % n }
        function near(  k) { k = below(6); return k == 0 ? 0 : k == 1 ? 1 : k == 2 ? 4095 : k == 3 ? 4096 : below(4096) }
        function ask(what) { print "send 1 " what; print "serve 1"; print "answer 1" }
        function store() { print "seal"; print "append"; print "publish"; print "answer 1" }
        BEGIN {
            print "format 16 2097152 512"
            for (k = 1; k <= 24; k++) {
                first = below(13)
                from = 4096 * first + near()
                end = 4096 * (first + below(4)) + near()
                if (end <= from) end = from + 1 + below(300)
                range = from " " end - from
                kind = below(9)
                fua = below(6) == 0
                last = fua ? " fua" : ""
                if (kind < 4) ask("bytes " range " " sprintf("%02x", below(256)) last)
                else if (kind < 7) ask("zeroes " range " " (below(2) ? "hole" : "zero") last)
                else if (kind == 7) ask("trim " range last)
                else ask("flush")
                if (fua || kind == 8 || k % 5 == 0) store()
                if (k % 12 == 0) { print "rotate"; print "copy 99"; print "map"; print "finish"; print "clean" }
            }
            store()
        }'
}
for drawn_from in ${seed:-4711 20260 998244353}; do
    drawn "$drawn_from" >input
    swept "the script of seed $drawn_from"
    # In ordered, where a FLUSH makes nothing durable, the opened image is that after any prefix of the writes.
    drawn "$drawn_from" | sed '1s/$/ ordered/' >input
    swept "the script of seed $drawn_from in ordered"
done

echo "$runs runs with a crash"
the_end
