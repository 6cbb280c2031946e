#!/bin/sh
# Checks of nbdj-standby over a local file, with the built program NBDJ: two of them in a network namespace, each with an interface and an
# address. Needs root, iproute2, iputils-arping and util-linux. The last line is 'N passed, M failed'.
set -u
here=$(CDPATH='' cd "$(dirname "$0")/.." && pwd)
if [ "${1:-}" != inside ]; then
    [ "$(id -u)" = 0 ] && command -v ip >/dev/null && command -v arping >/dev/null && unshare --net true 2>/dev/null || {
        echo 'skipped: nbdj-standby, because it needs root, ip, arping and network namespaces'
        echo '0 passed, 0 failed'
        exit 0
    }
    exec unshare --net --pid --fork --kill-child --mount-proc "$0" inside
fi
. "$here/tests/checks.sh"
ip link set lo up
ip link add one type veth peer name two
ip link set one up
ip link set two up
fresh 16 2097152
standby=$here/packaging/nbdj-standby
first=192.0.2.1/24 second=192.0.2.2/24

# seen FILE TEXT [COUNT]: whether this many lines of the file have the text within twenty seconds
seen() {
    for _ in $(seq 200); do
        count=$(grep -cF "$2" "$1" 2>/dev/null)
        [ "${count:-0}" -ge "${3:-1}" ] && echo yes && return
        sleep 0.1
    done
    echo no
}
# has INTERFACE: its IPv4 addresses
has() { ip -o -4 address show dev "$1" | awk '{ print $4 }'; }

ip address add $first dev one
"$standby" d.img $first one --listen 127.0.0.1:0 >one.log 2>&1 &
one=$!
is 'an address that an earlier run left' yes "$(seen one.log "nbdj-standby: gives $first back")"
is 'one takes its address once it serves' yes "$(seen one.log "nbdj-standby: takes $first")"
is 'the address of one' "$first" "$(has one)"
"$standby" d.img $second two --listen 127.0.0.1:0 >two.log 2>&1 &
two=$!
is 'two waits' yes "$(seen two.log 'nbdj: d.img: another process has locked it; waiting for it')"
is 'two has no address' '' "$(has two)"

# A planned takeover.
kill -TERM $one
wait $one
is 'the end of one' "0|" "$?|$(has one)"
is 'the last line of one' "nbdj-standby: gives $first back" "$(tail -n 1 one.log)"
is 'two takes its address' yes "$(seen two.log "nbdj-standby: takes $second")"
is 'the address of two' "$second" "$(has two)"

# If only nbdj is killed, the address is given back, and taken again with the next nbdj.
kill -9 "$(pgrep -f "serve --until-eof .*d.img")"
is 'two gives its address back' yes "$(seen two.log "nbdj-standby: gives $second back")"
is 'two serves again' yes "$(seen two.log "nbdj-standby: takes $second" 2)"

# A stop while it waits.
"$standby" d.img $first one --listen 127.0.0.1:0 >one.log 2>&1 &
one=$!
is 'one waits' yes "$(seen one.log 'waiting for it')"
kill -TERM $one
wait $one
is 'a stop while it waits' 0 $?
kill -TERM $two
wait $two
is 'the end of two' "0|" "$?|$(has two)"

# A device that hangs.
preload stuck_calls
STUCK=$folder/stuck LD_PRELOAD=$folder/stuck_calls.so "$standby" d.img $first one --listen 127.0.0.1:0 --lock-check 0.2 --device-timeout 0.5 >one.log 2>&1 &
one=$!
is 'one serves' yes "$(seen one.log "nbdj-standby: takes $first")"
touch stuck
is 'a device that hangs' yes "$(seen one.log 'd.img: a call of the device has taken longer than 0.500 s')"
is 'one gives its address back' yes "$(seen one.log "nbdj-standby: gives $first back")"
rm stuck
is 'one serves again' yes "$(seen one.log "nbdj-standby: takes $first" 2)"
kill -TERM $one
wait $one
is 'the end of one after that' 0 $?

# A stop is asked for, and nbdj ends before that is passed on, because the address is given back slowly.
mkdir slow
printf '#!/bin/sh\n[ ! -e slowly ] || sleep 1\nexec %s "$@"\n' "$(command -v ip)" >slow/ip
chmod +x slow/ip
PATH=$folder/slow:$PATH "$standby" d.img $first one --listen 127.0.0.1:0 >stopped.log 2>&1 &
one=$!
is 'one serves before a stop' yes "$(seen stopped.log "nbdj-standby: takes $first")"
touch slowly
kill -TERM $one
kill -9 "$(pgrep -f "serve --until-eof .*d.img")"
wait $one
is 'its status and address after the stop' '137|' "$?|$(has one)"
is 'no signal is sent to a process that is gone' 0 "$(grep -c 'kill:' stopped.log)"

# A reason is printed once, and a refused command line ends it.
"$standby" nothing.img $first one --listen 127.0.0.1:0 >one.log 2>&1 &
one=$!
is 'a missing image' yes "$(seen one.log 'nbdj: cannot open nothing.img')"
sleep 1.5
kill -TERM $one
wait $one
is 'the lines for a missing image' 'nbdj: nothing.img: No such file or directory (os error 2)
nbdj: cannot open nothing.img' "$(cat one.log)"
"$standby" d.img $first one --workers 99 >one.log 2>&1
is 'a refused command line' "2|error: invalid value '99' for '--workers <W>': 99 is not in 1..=16" "$?|$(head -n 1 one.log)"
"$standby" d.img $first nowhere --listen 127.0.0.1:0 >one.log 2>&1
is 'no such interface' '1|Device "nowhere" does not exist.' "$?|$(cat one.log)"
"$standby" d.img $first >one.log 2>&1
is 'too few words' '2|usage: nbdj-standby' "$?|$(cut -c1-19 one.log)"
is 'no nbdj is left' '' "$(pgrep -f "serve --until-eof")"
the_end
