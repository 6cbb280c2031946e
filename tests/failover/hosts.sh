# Hosts of a trial, to be read by '.': each has its own namespaces for network, mounts, processes, host name and IPC, and its files in $run/NAME; a
# bridge in one more namespace connects them. No address, mount or service of the machine changes.

# say TEXT..: a line with its time
say() { printf '%s %s\n' "$(date -u +%H:%M:%S.%3N)" "$*"; }
now() { date +%s.%N; }
# since TIME: the seconds since then
since() { awk -v from="$1" -v to="$(now)" 'BEGIN { printf "%.2f", to - from }'; }

# child_of PID: waits for a child of this process, and prints its number
child_of() {
    local _
    for _ in $(seq 100); do
        pgrep -P "$1" && return
        sleep 0.1
    done
}

# switch_up: makes the bridge
switch_up() {
    unshare --net --fork --kill-child sleep infinity </dev/null >/dev/null 2>&1 &
    child_of $! >"$run/switch.pid"
    nsenter -t "$(cat "$run/switch.pid")" -n sh -c 'ip link set lo up; ip link add br0 type bridge; ip link set br0 up'
}

# host_up NAME IP
host_up() {
    local name=$1 ip=$2 own=$run/$1 pid
    mkdir -p "$own"/{state,log,brick,mount}
    cp -rn /var/lib/glusterd/. "$own/state/"
    unshare --net --mount --uts --ipc --pid --fork --kill-child --mount-proc --propagation private sh -c "
        hostname $name
        mount --bind $own/state /var/lib/glusterd && mkdir -p /var/log/glusterfs && mount --bind $own/log /var/log/glusterfs
        mount -t tmpfs tmpfs /run && mkdir -p /run/gluster /run/lock
        ip link set lo up; trap : TERM; exec sleep infinity" </dev/null >"$own/log/init" 2>&1 &
    echo $! >"$own/outer"
    child_of $! >"$own/pid"
    pid=$(cat "$own/pid")
    for _ in $(seq 100); do
        [ "$(cat "/proc/$pid/comm")" = sleep ] && break
        sleep 0.1
    done
    nsenter -t "$(cat "$run/switch.pid")" -n ip link add "p$name" type veth peer name eth0 netns "$pid"
    nsenter -t "$(cat "$run/switch.pid")" -n ip link set "p$name" master br0 up
    host_in "$name" sh -c "ip address add $ip/24 dev eth0; ip link set eth0 up"
}

# host_in NAME COMMAND..
host_in() {
    local name=$1
    shift
    nsenter -t "$(cat "$run/$name/pid")" -n -m -p -u -i -- "$@"
}

# host_cut NAME: its link stays up, and packets vanish both ways; host_heal undoes it
host_cut() { nsenter -t "$(cat "$run/switch.pid")" -n ip link set "p$1" nomaster; }
host_heal() { nsenter -t "$(cat "$run/switch.pid")" -n ip link set "p$1" master br0; }

# host_off NAME: power off. First the host is cut off, so that no connection is closed; then all its processes are killed.
host_off() {
    host_cut "$1"
    kill -9 "$(cat "$run/$1/pid")"
    wait "$(cat "$run/$1/outer")" 2>/dev/null
    rm -f "$run/$1/pid"
    nsenter -t "$(cat "$run/switch.pid")" -n ip link del "p$1" 2>/dev/null
}

# kill_in NAME PROGRAM: kills the processes of this program on a host
kill_in() {
    local pid
    for pid in $(host_in "$1" pidof -x "$2"); do host_in "$1" kill -9 "$pid"; done
}

# hosts_down: ends all hosts, and the bridge
hosts_down() {
    local own
    for own in "$run"/*/; do
        [ -f "$own/pid" ] && kill -9 "$(cat "$own/pid")" 2>/dev/null
        rm -f "$own/pid"
    done
    [ -f "$run/switch.pid" ] && kill -9 "$(cat "$run/switch.pid")" 2>/dev/null
    rm -f "$run/switch.pid"
}

# volume_up: a GlusterFS volume of three replicas over the hosts a, b and c, mounted on each, with the options of packaging/failover.volume
# and then those of $volume_options, lines "option value"
volume_up() {
    local host option value
    for host in a b c; do host_in "$host" glusterd --log-level INFO; done
    for _ in $(seq 100); do
        host_in a gluster --mode=script pool list >/dev/null 2>&1 && break
        sleep 0.2
    done
    host_in a gluster --mode=script peer probe 10.77.0.2
    host_in a gluster --mode=script peer probe 10.77.0.3
    for _ in $(seq 100); do
        [ "$(host_in a gluster pool list | grep -c Connected)" = 3 ] && break
        sleep 0.5
    done
    host_in a gluster --mode=script volume create vol replica 3 "10.77.0.1:$run/a/brick/v" "10.77.0.2:$run/b/brick/v" "10.77.0.3:$run/c/brick/v" force
    while read -r option value; do
        case $option in '' | '#'*) continue ;; esac
        host_in a gluster --mode=script volume set vol "$option" "$value" </dev/null
    done < <(cat "$here/packaging/failover.volume"; echo "$volume_options")
    host_in a gluster --mode=script volume start vol
    bricks_up
    for host in a b c; do volume_mount "$host"; done
}

# bricks_up: waits until all three replicas are online
bricks_up() {
    for _ in $(seq 200); do
        [ "$(host_in a gluster volume status vol detail 2>/dev/null | grep -c '^Online *: Y')" = 3 ] && return
        sleep 0.5
    done
}

# volume_mount HOST: without the kernel's page cache, as docs/FAILOVER.md has it
volume_mount() {
    host_in "$1" glusterfs --direct-io-mode=enable --volfile-server="$(host_ip "$1")" --volfile-id=vol "$run/$1/mount"
    for _ in $(seq 100); do
        host_in "$1" stat -f -c %T "$run/$1/mount" 2>/dev/null | grep -q fuse && return
        sleep 0.2
    done
}

host_ip() {
    case $1 in a) echo 10.77.0.1 ;; b) echo 10.77.0.2 ;; c) echo 10.77.0.3 ;; d) echo 10.77.0.9 ;; esac
}

# all_up: three hosts with the volume, and d, which only has clients
all_up() {
    local host
    switch_up
    for host in a b c d; do host_up "$host" "$(host_ip "$host")"; done
    volume_up >"$run/up.log" 2>&1
}
