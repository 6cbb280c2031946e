#!/bin/bash
# nbdj over a replicated volume of GlusterFS, with nbdj-standby on two of three hosts: power off, a cut network, a paused host, a second writer, a
# replica lost under load and while an image is opened, 20 takeovers in a row, and all hosts off at once. The hosts are namespaces of this
# machine. NBDJ names the program.
#
# usage: tests/failover.sh [TRIAL ..]          (TRIAL: the name of one of the functions below whose comment says "Trial"; by default all)
#
# With TIMES=shipped it has the timeouts of packaging/, otherwise shorter ones. It takes about 15 minutes, so ./test doesn't run it. It needs root,
# FUSE, loop devices, network namespaces, and of Debian glusterfs-server, glusterfs-client, xfsprogs, iputils-arping and python3-libnbd; it says
# what is missing, and then checks nothing. The last line is 'N passed, M failed'. If a check fails, the log of its trial is printed.
set -u
here=$(CDPATH='' cd "$(dirname "$0")/.." && pwd)
. "$here/tests/failover/hosts.sh"
export NBDJ=${NBDJ:?}
address=10.77.0.100
# A host that doesn't answer is given up after six seconds, not twelve; shorter times are shortened too.
short='network.ping-timeout 2
server.tcp-user-timeout 6
server.keepalive-time 3
server.keepalive-interval 1
server.keepalive-count 3'
guarded='--lock-check 0.5 --device-timeout 4.5'
if [ "${TIMES:-}" = shipped ]; then
    short=
    guarded=$(sed -n 's/^Environment="CHECKS=\(.*\)"$/\1/p' "$here/packaging/nbdj-failover@.service")
fi
volume_options=$short checks=$guarded area=16M
passed=0 failed=0

# standby HOST: nbdj-standby there, whose lines go to $run/standby.HOST with their times
standby() {
    touch "$run/standby.$1"
    # shellcheck disable=SC2086
    host_in "$1" "$here/packaging/nbdj-standby" "$run/$1/mount/vm.img" "$address/24" eth0 --listen 0.0.0.0 --workers 4 $checks 2>&1 |
        while read -r line; do say "$1: $line"; done >>"$run/standby.$1" &
}
# servers_killed HOST: kills all of nbdj-standby there, and removes the address, as its unit does
servers_killed() {
    for program in nbdj-standby nbdj-server "$(basename "$NBDJ")"; do kill_in "$1" "$program"; done
    host_in "$1" ip address del "$address/24" dev eth0 2>/dev/null
}
# await FILE TEXT [COUNT]: waits until this many lines of the file have the text
await() {
    for _ in $(seq 1200); do
        [ "$(grep -c "$2" "$1")" -ge "${3:-1}" ] && return
        sleep 0.1
    done
    say "NOT SEEN: $2 in $1"
    return 1
}
# client HOST [OPTION ..]: runs a client there to its end; its lines go to $run/client.HOST
client() {
    local host=$1
    shift
    host_in "$host" /usr/bin/python3 "$here/tests/failover/client.py" "nbd://$address" --name "client $host" "$@" >"$run/client.$host" 2>&1
    say "client $host: status $?"
}
# held_up HOST: starts a client of the server there, which does what `held` asks
held_up() {
    rm -f "$run/held.in"
    mkfifo "$run/held.in"
    : >"$run/held.out"
    host_in "$1" /usr/bin/python3 "$here/tests/failover/held_client.py" "nbd://$(host_ip "$1")" 4000 <"$run/held.in" >>"$run/held.out" 2>&1 &
    exec 9>"$run/held.in"
}
held() {
    local lines
    lines=$(wc -l <"$run/held.out")
    echo "$*" >&9
    for _ in $(seq 400); do
        [ "$(wc -l <"$run/held.out")" -gt "$lines" ] && break
        sleep 0.1
    done
    tail -n 1 "$run/held.out"
}
# by_d [write]: a client on d reads block 4000 by the service's address, or first writes y to it and flushes
by_d() { host_in d /usr/bin/python3 -c "
import sys, nbd
h = nbd.NBD(); h.connect_uri('nbd://$address')
if sys.argv[1:] == ['write']: h.pwrite(b'y' * 4096, 4000 * 4096); h.flush()
print('by b: block 4000 holds', bytes(h.pread(1, 4000 * 4096)))" "$@"; }

# taken_back: kills b's servers, so that a, which was shut out, has to serve again
taken_back() {
    await "$run/standby.a" 'another process has locked it'
    took=$(grep -c takes "$run/standby.a")
    servers_killed b; start=$(now)
    await "$run/standby.a" takes $((took + 1)) && say "a serves again after $(since "$start") s"
}
# volume_with_image: all hosts, a volume, an image, and a serving it
volume_with_image() {
    all_up
    say "volume up"
    host_in a "$NBDJ" format "$run/a/mount/vm.img" --size 64M --area "$area"
    standby a
    await "$run/standby.a" 'takes'
}
# settled HOST: kills all servers, compares the replicas once they are healed, and checks the image on this host
settled() {
    local host
    for host in a b; do [ -f "$run/$host/pid" ] && servers_killed "$host"; done
    if [ -f "$run/a/pid" ]; then
        for _ in $(seq 60); do
            host_in "$1" gluster volume heal vol info 2>/dev/null | grep -q 'entries: [1-9-]' || break
            sleep 1
        done
        sleep 4
        # (a host sees its own mounts only)
        for host in a b c; do host_in $host cksum "$run/$host/brick/v/vm.img"; done | awk '{ seen[$1 " " $2]++; if (seen[$1 " " $2] == 3) print "alike" }' | grep -q alike && say "replicas alike"
    fi
    host_in "$1" gluster volume heal vol info | grep -E 'entries|split'
    for _ in $(seq 40); do
        host_in "$1" "$NBDJ" check "$run/$1/mount/vm.img"
        status=$?
        [ $status = 4 ] || break
        sleep 0.5
    done
    say "check: status $status"
    cat "$run"/client.* "$run"/standby.* 2>/dev/null
}

# Trial: the host that serves loses power under load.
off() {
    volume_with_image
    standby b
    client d 12 & cl=$!
    sleep 6
    host_off a; start=$(now); say "power of a is off"
    await "$run/standby.b" takes; say "b serves after $(since "$start") s"
    wait $cl
    settled b
}
# Trial: it is cut off under load of a client on d and of one on itself, and comes back.
cut() {
    volume_with_image
    standby b
    client d 24 & cl=$!
    client a 24 --base 2000 --seed 2 & own=$!
    sleep 6
    host_cut a; start=$(now); say "a is cut off"
    await "$run/standby.b" takes; say "b serves after $(since "$start") s"
    sleep 5
    host_heal a; say "a is back"
    taken_back
    wait $cl $own
    settled b
}
# Trial: all its processes are stopped under load, and go on after another host has taken over.
pause() {
    volume_with_image
    standby b
    client d 24 & cl=$!
    sleep 6
    say "a is stopped as a whole"; start=$(now)
    stopped=$(pgrep --ns "$(cat "$run/a/pid")" --nslist pid .)
    host_cut a
    # shellcheck disable=SC2086
    kill -STOP $stopped
    await "$run/standby.b" takes; say "b serves after $(since "$start") s"
    sleep 5
    host_heal a
    # (nsenter stops with what it has started)
    # shellcheck disable=SC2086,SC2046
    kill -CONT $stopped $(ps -o ppid= -p "$(echo $stopped | tr ' ' ,)")
    say "a goes on"
    taken_back
    wait $cl
    settled b
}
# Trial: it is cut off while it gets only READs, which it answers from memory. It has to stop before another host serves.
idle() {
    volume_with_image
    standby b
    held_up a
    held write x; held flush; held read
    echo 'watch 60' >&9
    sleep 1
    host_cut a; start=$(now); say "a is cut off"
    await "$run/held.out" watch; last=$(sed -n 's/.*until \([0-9.]*\),.*/\1/p' "$run/held.out")
    say "a stops to answer $(awk -v at="$last" -v from="$start" 'BEGIN { printf "%.2f", at - from }') s after the cut"
    await "$run/standby.b" takes; say "b serves after $(since "$start") s"
    by_d write
    awk -v at="$last" -v from="$start" -v took="$(since "$start")" 'BEGIN { exit !(at - from < took) }' && say "a stopped before"
    tail -n 1 "$run/held.out"
    exec 9>&-
    host_heal a; say "a is back"
    await "$run/standby.a" 'waiting for it'
    by_d read
    taken_back
    settled b
}
# mounted_again HOST: waits until this host can use the volume again
mounted_again() {
    for _ in $(seq 60); do
        host_in "$1" timeout 5 touch "$run/$1/mount/touched-by-$1" 2>/dev/null && break
        sleep 1
    done
    sleep 4
}
# cut_off_while_idle: an idle host without lock checks is cut off, and comes back after another host serves
cut_off_while_idle() {
    checks=
    volume_with_image
    standby b
    held_up a
    held write x; held flush; held read
    host_cut a; start=$(now); say "a is cut off"
    await "$run/standby.b" takes; say "b serves after $(since "$start") s"
    client d 25 & cl=$!
    by_d write
    sleep 3
    held read
    host_heal a; say "a is back"
    mounted_again a
    held write z; held flush; held read
    exec 9>&-
    client a 8 --base 2000 --seed 2 --patience 20 & own=$!
    sleep 7
    say "both servers are killed, and one starts again"
    for host in a b; do kill_in "$host" "$(basename "$NBDJ")"; done
    wait $cl $own
    by_d read
    settled b
}
# Trial: the volume alone shuts out a host that lost the lock.
fence() { cut_off_while_idle; }
# Trial: the control. Without the volume's fence two servers write one image, and the checks have to notice.
control() {
    volume_options="$short
client.strict-locks off"
    cut_off_while_idle
}
# Trial: the control, without kills. The server without the lock has to notice the other one before it changes the header of the image, and to
# end; what it had confirmed by then is lost.
noticed() {
    volume_options="$short
client.strict-locks off"
    checks= area=4M
    volume_with_image
    standby b
    held_up a
    held write x; held flush
    host_cut a; start=$(now); say "a is cut off"
    await "$run/standby.b" takes; say "b serves after $(since "$start") s"
    # (it connects to b before a is back, because a has the same address)
    client d 30 & cl=$!
    by_d write
    sleep 5
    host_heal a; say "a is back"
    mounted_again a
    held write z; held flush
    exec 9>&-
    client a 20 --base 2000 --seed 2 --patience 20 & own=$!
    start=$(now)
    await "$run/standby.a" 'something else has written'; say "a notices b after $(since "$start") s of load"
    wait $cl $own
    settled b
}
# Trial: a replica is lost while a host opens the image, which goes on with the others.
opening() {
    volume_with_image
    standby b
    await "$run/standby.b" 'waiting for it'
    client d 0 --until "$run/over" --per-flush 64 & cl=$!
    for round in 1 2 3; do
        sleep 5
        server=$(host_in b pidof "$(basename "$NBDJ")"); server=${server%% *}
        before=$(host_in b awk '/^wchar/ { print $2 }' "/proc/$server/io")
        servers_killed a; start=$(now); say "the servers of a are killed"
        # (the first bytes that the opening writes)
        for _ in $(seq 500); do
            [ "$(host_in b awk '/^wchar/ { print $2 }' "/proc/$server/io")" -gt $((before + 4000)) ] && break
        done
        grep -c takes "$run/standby.b" | grep -qx $((round - 1)) && say "b is opening: c is cut off"
        host_cut c
        await "$run/standby.b" takes "$round"; say "b serves after $(since "$start") s"
        sleep 8
        host_heal c; say "c is back"
        sleep 6
        servers_killed b
        standby a; await "$run/standby.a" takes $((round + 1))
        standby b; await "$run/standby.b" 'waiting for it' $((round + 1))
    done
    touch "$run/over"
    wait $cl
    settled b
}
# Trial: a replica is lost under load, three times. The server goes on with the others, and no other host takes over. A replica that was away counts
# again only after the image is opened again, so there is a takeover in between.
replica() {
    volume_with_image
    standby b
    client d 0 --until "$run/over" --timeout 30 & cl=$!
    serving=a waiting=b
    for round in 1 2 3; do
        sleep 6
        took=$(cat "$run"/standby.? | grep -c takes)
        host_cut c; say "c is cut off"
        sleep 15
        [ "$(cat "$run"/standby.? | grep -c takes)" = "$took" ] && say "$serving serves on"
        host_heal c; say "c is back"
        sleep 6
        await "$run/standby.$waiting" 'waiting for it'
        took=$(grep -c takes "$run/standby.$waiting")
        servers_killed $serving
        await "$run/standby.$waiting" takes $((took + 1))
        standby $serving
        other=$serving serving=$waiting waiting=$other
    done
    touch "$run/over"
    wait $cl
    settled b
}
# Trial: 20 takeovers in a row under load, each after a kill of the servers on the host that serves.
takeovers() {
    volume_with_image
    standby b
    client d 0 --until "$run/over" --timeout 10 & cl=$!
    serving=a waiting=b
    for round in $(seq 20); do
        await "$run/standby.$waiting" 'waiting for it' $(((round + 1) / 2))
        sleep 1
        took=$(grep -c takes "$run/standby.$waiting"); start=$(now)
        servers_killed "$serving"
        await "$run/standby.$waiting" takes $((took + 1)); say "takeover $round: $waiting serves after $(since "$start") s"
        standby "$serving"
        other=$serving serving=$waiting waiting=$other
    done
    touch "$run/over"
    wait $cl
    settled b
}

# brick_up HOST: mounts its replica, on its own XFS
brick_up() {
    [ -f "$run/$1.xfs" ] || { truncate -s 600M "$run/$1.xfs"; mkfs.xfs -q "$run/$1.xfs"; }
    losetup -f --show "$run/$1.xfs" >"$run/$1/loop"
    host_in "$1" mount "$(cat "$run/$1/loop")" "$run/$1/brick"
}
# all_lose_power: all hosts lose power, and what their file systems haven't written
all_lose_power() {
    for host in a b c; do host_cut $host; done
    for host in a b c; do host_in $host xfs_io -x -c shutdown "$run/$host/brick"; done
    for host in a b c; do host_off $host; done
    sleep 1
    for host in a b c; do losetup -d "$(cat "$run/$host/loop")"; done
}
all_come_back() {
    for host in a b c; do host_up $host "$(host_ip $host)"; brick_up $host; host_in $host glusterd; done
    bricks_up
    for host in a b c; do volume_mount $host; done
}
# Trial: all three hosts lose power at once, twice, under load. First a probe shows that such a cut loses an unsynced write and keeps a synced one;
# otherwise the trial would show nothing.
all_off() {
    switch_up
    for host in a b c d; do host_up $host "$(host_ip $host)"; done
    for host in a b c; do brick_up $host; done
    volume_up >"$run/up.log" 2>&1
    host_in a python3 -c "
import os
f = os.open('$run/a/mount/probe', os.O_RDWR | os.O_CREAT)
os.pwrite(f, b's' * 4096, 0); os.fdatasync(f); os.pwrite(f, b'u' * 4096, 4096)
import time; time.sleep(3600)" &
    sleep 3
    all_lose_power; say "all off"; start=$(now); all_come_back; say "all back in $(since "$start") s"
    host_in b python3 -c "print('of the probe there is', sorted(set(open('$run/b/mount/probe', 'rb').read())))"
    host_in a "$NBDJ" format "$run/a/mount/vm.img" --size 64M --area 16M
    standby a; await "$run/standby.a" takes
    client d 24 --patience 150 & cl=$!
    for round in 1 2; do
        sleep $((5 + round))
        all_lose_power; say "all off"; start=$(now); all_come_back; say "all back in $(since "$start") s"
        standby b; await "$run/standby.b" takes "$round"; say "b serves after $(since "$start") s"
    done
    wait $cl
    settled b
}

# trial NAME: runs it in a folder of its own, with its log
trial() {
    local begin
    begin=$(date +%s)
    run=$(mktemp -d)
    log=$run/log
    (
        trap 'hosts_down; for it in "$run"/*/loop; do [ -f "$it" ] && losetup -d "$(cat "$it")"; done 2>/dev/null' EXIT
        trap 'exit 1' INT TERM HUP
        "$1"
    ) >"$log" 2>&1
    name=$1 was_failed=$failed
    echo "$1: $(($(date +%s) - begin)) s$(sed -n 's/.* \(b serves after .*\)/, \1/p; s/.*\(a stops to answer.*\)/, \1/p' "$log" | head -n 2 | tr -d '\n')"
}
# has COUNT PATTERN: checks that at least this many lines of the log match; hasnt PATTERN: that none does
has() {
    if [ "$(grep -cE "$2" "$log")" -ge "$1" ]; then passed=$((passed + 1)); else failed=$((failed + 1)); echo "FAILED $name: not $1 times: $2"; fi
}
hasnt() {
    if grep -qE "$1" "$log"; then failed=$((failed + 1)); echo "FAILED $name: there is: $1"; else passed=$((passed + 1)); fi
}
checked() {
    case $1 in
    off) has 1 'client d: status 0'; has 1 'b serves after'; has 1 'check: status 0'; hasnt BAD ;;
    cut) has 1 'client d: status 0'; has 1 'client a: status 0'; has 1 'a: nbdj: device fault'; has 1 'a serves again'; has 1 'replicas alike'; has 1 'check: status 0'; hasnt BAD ;;
    pause) has 1 'client d: status 0'; has 1 'a: nbdj: device fault'; has 1 'a serves again'; has 1 'replicas alike'; has 1 'check: status 0'; hasnt BAD ;;
    idle) has 1 'a stopped before'; has 1 'a: nbdj: .*(lock check|taken longer)'; has 2 "by b: block 4000 holds b'y'"; has 1 'a serves again'; has 1 'replicas alike'; has 1 'check: status 0'; hasnt BAD ;;
    fence) has 1 'held client: flush: EIO'; has 1 'client a: status 0'; has 1 'client d: status 0'; has 2 "by b: block 4000 holds b'y'"; has 1 'check: status 0'; hasnt BAD ;;
    control) has 1 'client [ad]: status 1'; has 1 'held client: write z: Ok' ;;
    noticed) has 1 'held client: write z: Ok'; has 1 'a: nbdj: .*: something else has written to this image'; has 1 'a: nbdj: device fault'; has 1 'client a: status 1' ;;
    opening) has 3 'b is opening: c is cut off'; has 3 'b serves after'; hasnt 'b: nbdj: device fault'; has 1 'client d: status 0'; has 1 'replicas alike'; has 1 'check: status 0'; hasnt BAD ;;
    takeovers) has 20 'takeover .* serves after'; has 1 'client d: status 0'; has 1 'replicas alike'; has 1 'check: status 0'; hasnt BAD ;;
    replica) has 3 'serves on'; hasnt '[ab]: nbdj: device fault'; has 1 'client d: status 0'; has 1 'replicas alike'; has 1 'check: status 0'; hasnt BAD ;;
    all_off) has 1 'of the probe there is \[115\]'; has 1 'client d: status 0'; has 2 'b serves after'; has 2 'goes on after'; has 1 'replicas alike'; has 1 'check: status 0'; hasnt BAD ;;
    esac
}

skip() {
    echo "skipped: $1"
    exit 0
}
# (bash reads a script while it runs it, so this function keeps it from seeing later changes of the file)
main() {
    [ "$(id -u)" = 0 ] || skip 'not root'
    for program in glusterd gluster mkfs.xfs xfs_io nsenter unshare losetup arping; do
        command -v "$program" >/dev/null || skip "there is no $program"
    done
    [ -c /dev/fuse ] && /usr/bin/python3 -c 'import nbd' 2>/dev/null && unshare --net true || skip 'there are no FUSE, libnbd or network namespaces'
    begin=$(date +%s)
    [ $# -gt 0 ] || set -- off cut pause idle fence control noticed replica opening takeovers all_off
    for it; do
        trial "$it"
        checked "$it"
        [ "$failed" = "$was_failed" ] || tail -n 150 "$log" | sed "s/^/    /"
        [ -n "${KEEP_LOGS:-}" ] && cp "$log" "$KEEP_LOGS/$it.log"
        rm -rf --one-file-system "$run"
    done
    echo "$(($(date +%s) - begin)) s"
    echo "$passed passed, $failed failed"
    [ "$failed" = 0 ]
}
main "$@"
exit
