#!/bin/sh
# The virtual machines of docs/GUIDE.md, "Attach it": QEMU by both of its command lines, and a domain of libvirt with the XML of the
# page, over a served image. The machine starts from the image, reads its second sector and writes that to its ninth. NBDJ names the program.
#
# usage: tests/libvirt.sh
#
# It starts a libvirtd of its own, in a temporary folder, with Debian's settings except the path of the socket. It needs root, and of Debian
# qemu-system-x86, libvirt-daemon-system, libvirt-clients, libnbd-bin and python3; it says what is missing, and leaves out what needs that.
# ./test doesn't run it. The last line is 'N passed, M failed'.
set -u
here=$(CDPATH='' cd "$(dirname "$0")/.." && pwd)
. "$here/tests/checks.sh"
server='' machine='' daemon='' logger=''
release() {
    [ -z "$machine" ] || kill -9 "$machine" 2>/dev/null
    [ -z "$daemon" ] || { quiet virsh destroy nbdj-test; quiet virsh undefine nbdj-test; kill "$daemon"; } >/dev/null 2>&1
    [ -z "$logger" ] || kill "$logger"
    [ -z "$server" ] || kill -9 "$server" 2>/dev/null
}
trap 'release; rm -rf "$folder"' EXIT
begin=$(date +%s)
need qemu-system-x86_64 nbdcopy python3
quiet_seconds=120
page=$here/docs/GUIDE.md
# (libvirt runs the machine as another user, who has to reach the socket)
chmod 755 "$folder"

# A boot sector that reads the second sector by the BIOS and writes it to the ninth, and a second sector with a pattern.
python3 - <<'BOOT'
code = bytes.fromhex(
    "31c0 8ed8 8ec0 8ed0 bc007c"        # segments 0, a stack
    "b80102 b90200 ba8000 bb0080 cd13"  # reads one sector of disk 0x80: cylinder 0, head 0, sector 2, to 0:8000
    "720e"                              # a fault: halt
    "b80103 b90900 ba8000 bb0080 cd13"  # writes it to sector 9
    "f4 ebfd"                           # halt
)
with open("source", "wb") as file:
    file.write(code.ljust(510, b"\0") + b"\x55\xaa" + bytes(n * n % 251 for n in range(512)))
    file.truncate(16 << 20)
with open("wanted", "wb") as file:
    file.write(bytes(n * n % 251 for n in range(512)))
BOOT

# starts WORD..: serves d.img
starts() {
    : >heard
    "$here/packaging/nbdj-server" d.img --workers 16 "$@" >heard 2>serve_errors &
    server=$!
    await_listening 20
}
# serves WORD..: makes a new d.img with the sectors, and serves it
serves() {
    rm -f d.img
    "$NBDJ" format d.img --size 16M --area 8M >/dev/null
    starts "$@"
    is "the server listens at $1" 0 "$(quiet nbdcopy --flush source "$uri")"
}
# ninth: the ninth sector of the export
ninth() { timeout 60 nbdcopy "$uri" found >&2 && dd if=found bs=512 skip=8 count=1 status=none; }
is_written() { ninth | cmp -s - wanted; }
# written NAME: waits until the machine has written its sector
written() {
    wait_for 180 is_written
    is "$1: the machine writes its sector" yes "$(is_written && echo yes)"
}
# stopped NAME: the server is stopped, and the sector is in the image when it is opened again
stopped() {
    kill -TERM "$server"
    wait "$server"
    is "$1: a stop" '0|' "$?|$(cat serve_errors)"
    starts --unix "$folder/after"
    is "$1: the sector is in the image" yes "$(is_written && echo yes)"
    kill -TERM "$server"
    wait "$server"
    server=''
}

# The command lines of the page: the first takes one line, the second two.
lines=$(sed -n '/^    qemu-system-x86_64 /,/^$/p' "$page" | sed 's/^    //; s/\\$//')
short=$(printf '%s\n' "$lines" | sed -n 's/^qemu-system-x86_64 \(-drive .*\)/\1/p')
long=$(printf '%s\n' "$lines" | sed -n '/^qemu-system-x86_64 -device /,$p' | tr '\n' ' ' | sed 's/^qemu-system-x86_64 //')
for way in short long; do
    eval "words=\$$way"
    is "$way: the page has the command" yes "$(case $words in *10809*) echo yes ;; esac)"
    serves --listen 127.0.0.1:0
    # shellcheck disable=SC2046
    qemu-system-x86_64 -nodefaults -display none -machine accel=tcg $(printf '%s' "$words" | sed "s/10809/$at/") >machine_output 2>&1 </dev/null &
    machine=$!
    written "QEMU, $way"
    kill "$machine"
    wait "$machine"
    is "QEMU, $way: what it said" '' "$(grep -v 'terminating on signal 15' machine_output)"
    machine=''
    stopped "QEMU, $way"
done

lacks=''
for program in libvirtd virtlogd virsh; do
    [ -n "$(PATH="$PATH:/usr/sbin:/sbin" command -v $program)" ] || lacks="there is no $program"
done
if [ -n "$lacks" ]; then
    skipped 'a domain of libvirt' "$lacks"
else
    PATH=$PATH:/usr/sbin:/sbin
    mkdir run
    # (libvirtd needs a virtlogd: the system's, or this one)
    if [ ! -S /run/libvirt/virtlogd-sock ]; then
        virtlogd --pid-file "$folder/run/logger.pid" >virtlogd_output 2>&1 &
        logger=$!
    fi
    printf 'unix_sock_dir = "%s/run"\nauth_unix_rw = "none"\nauth_unix_ro = "none"\n' "$folder" >libvirtd.conf
    libvirtd --config libvirtd.conf --pid-file "$folder/run/pid" >libvirtd_output 2>&1 &
    daemon=$!
    wait_for 30 test -S run/libvirt-sock
    export LIBVIRT_DEFAULT_URI="qemu+unix:///system?socket=$folder/run/libvirt-sock"
    is 'libvirtd answers' 0 "$(quiet virsh version)"
    # Debian's libvirt runs QEMU as the user libvirt-qemu, with its groups. The socket belongs to a group, as that of the units does.
    serves --unix "$folder/socket" --unix-mode 0660
    disk=$(sed -n '/^```xml$/,/^```$/p' "$page" | grep -v '^```' | sed "s,/run/nbdj-data/socket,$folder/socket,")
    is 'the page has the XML of a disk' yes "$(case $disk in "<disk "*"$folder/socket"*"</disk>") echo yes ;; esac)"
    cat >domain.xml <<XML
<domain type='qemu'>
  <name>nbdj-test</name>
  <memory unit='MiB'>64</memory>
  <os><type arch='x86_64' machine='q35'>hvm</type><boot dev='hd'/></os>
  <devices>
$disk
  </devices>
</domain>
XML
    is 'libvirt, a socket of another group: define' 0 "$(quiet virsh define domain.xml)"
    is 'libvirt, a socket of another group: start' 'Permission denied' "$(virsh start nbdj-test 2>&1 | grep -o 'Permission denied')"
    is 'libvirt, a socket of another group: undefine' 0 "$(quiet virsh undefine nbdj-test)"
    chgrp "$(id -G libvirt-qemu | cut -d ' ' -f 1)" socket
    for round in 1 2; do
        is "libvirt, $round: define" 0 "$(quiet virsh define domain.xml)"
        is "libvirt, $round: start" 0 "$(quiet virsh start nbdj-test)"
        is "libvirt, $round: its state" running "$(virsh domstate nbdj-test 2>&1 | head -n 1)"
        written "libvirt, $round"
        is "libvirt, $round: its disk" "network|disk|vda" "$(virsh domblklist --details nbdj-test 2>&1 | awk '/vda/ { print $1 "|" $2 "|" $3 }')"
        is "libvirt, $round: stop" 0 "$(quiet virsh destroy nbdj-test)"
        is "libvirt, $round: its state after the stop" 'shut off' "$(virsh domstate nbdj-test 2>&1 | head -n 1)"
        is "libvirt, $round: undefine" 0 "$(quiet virsh undefine nbdj-test)"
        # The second start has to write the sector again.
        [ $round = 2 ] || is 'the sector is cleared' 0 "$(quiet nbdcopy --flush source "$uri")"
    done
    stopped libvirt
    kill "$daemon"
    wait "$daemon" 2>/dev/null
    [ "$failed" -eq 0 ] || tail -n 20 libvirtd_output
    daemon=''
    if [ -n "$logger" ]; then
        kill "$logger"
        wait "$logger" 2>/dev/null
        logger=''
    fi
fi
echo "$(($(date +%s) - begin)) s"
the_end
