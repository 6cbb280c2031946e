#!/bin/sh
# guestfish over a served image: its appliance, a Linux guest under QEMU, makes a file system on the export, writes files, syncs and trims.
# The server is stopped and started again, and then killed while files are written: each file that was synced has to be there.
# NBDJ names the program.
#
# usage: tests/guestfish.sh [OPTION ..]          (further options of `nbdj serve`)
#
# With `--cache ordered --flush-interval 0` it has to fail, because synced files are lost then. Without KVM each of the three appliances
# takes a minute or more, so ./test doesn't run it. It needs root, guestfish, nbdinfo and a kernel in /boot, which may all be Debian's
# (guestfish, libnbd-bin, linux-image-amd64); it says what is missing, and then
# checks nothing. The last line is 'N passed, M failed'.
set -u
here=$(CDPATH='' cd "$(dirname "$0")/.." && pwd)
. "$here/tests/checks.sh"
server=''
trap '[ -z "$server" ] || kill -9 $(cat server_pid) "$server" 2>/dev/null; rm -rf "$folder"' EXIT
begin=$(date +%s)
need guestfish nbdinfo
ls /boot/vmlinuz-* >/dev/null 2>&1 || skip_if 'there is no kernel in /boot'
export LIBGUESTFS_BACKEND=direct LIBGUESTFS_MEMSIZE=512 TMPDIR="$folder"

# serves OPTION..: serves d.img by nbdj-server; server_pid has the number of the program itself
serves() {
    : >heard
    NBDJ="$folder/program" "$here/packaging/nbdj-server" d.img --unix socket "$@" >heard 2>serve_errors &
    server=$!
    await_listening 40
    is 'the server listens' 'listening socket' "$(cat heard)"
}
printf '#!/bin/sh\necho $$ >%s/server_pid\nexec "%s" "$@"\n' "$folder" "$(realpath "$NBDJ")" >program
chmod 755 program

# fish NAME STATUS: runs the commands of standard input over the export; they end with this status; what they print goes to `output`
fish() {
    began=$(date +%s)
    { echo "add-drive \"\" format:raw protocol:nbd server:unix:$folder/socket discard:enable"; echo run; cat; } >commands
    timeout 1800 guestfish <commands >output 2>errors
    ended=$?
    is "$1: guestfish ends" "$2" "$ended"
    [ "$ended" -eq "$2" ] || tail -n 5 errors
    echo "$1: $(($(date +%s) - began)) s"
}
# holes: how many bytes of the export are holes
holes() { nbdinfo --map --totals "$uri" | awk '/hole/ { print $1 }'; }
# missing_sums FILE: the sums in this file that aren't in `output_sums` of guestfish
missing_sums() { sort "$1" >wanted_sums; sort output_sums | comm -23 wanted_sums -; }

mkdir early late
for k in 1 2 3 4; do differing $((k * 1000003)) $((k * 1000003)) >early/$k; done
differing 33554432 17 >early/large
for k in $(seq 300); do differing 65536 $((k * 100003)) >late/$k; done
(cd early && sha256sum ?) | sed 's,  ,  ./,' >early_sums
(cd late && sha256sum -- *) | sed 's,  ,  ./,' >late_sums

"$NBDJ" format d.img --size 256M --area 16M >/dev/null
serves "$@"
fish 'a file system' 0 <<COMMANDS
mkfs ext4 /dev/sda
mount /dev/sda /
mkdir /late
copy-in early /
sync
!nbdinfo --map --totals '$uri' >before
rm /early/large
sync
fstrim /
!nbdinfo --map --totals '$uri' >after
umount-all
debug sh "e2fsck -f -n /dev/sda"
COMMANDS
trimmed=$(($(awk '/hole/ { print $1 }' after) - $(awk '/hole/ { print $1 }' before)))
# (the file system has written something meanwhile)
is 'a trim makes holes of a removed file' yes "$([ "$trimmed" -ge 16777216 ] && echo yes || echo "$trimmed bytes")"

kill -TERM "$server"
wait "$server"
is 'a stop' '0|' "$?|$(cat serve_errors)"
serves "$@"
{
    echo 'mount /dev/sda /'
    echo 'checksums-out sha256 /early output_sums'
    # (guestfish's own `sync` doesn't report a failed device)
    for k in $(seq 300); do printf 'upload late/%s /late/%s\ndebug sh "sync /sysroot/late/%s /sysroot/late"\n!echo %s >>synced\n' "$k" "$k" "$k" "$k"; done
} >load
: >synced
(
    wait_for 600 has_lines synced 20
    kill -9 "$(cat server_pid)"
) &
killer=$!
fish 'a kill while files are written' 1 <load
wait $killer
wait "$server"
is 'the server ended by the kill' 137 "$?"
is 'the files from before the stop' '' "$(missing_sums early_sums)"
is 'files were synced up to the kill' yes "$(has_lines synced 20 && echo yes || wc -l <synced)"
sed 's,^,  ./,' synced | while read -r name; do grep -F "  $name" late_sums | grep "  $name\$"; done >synced_sums

serves "$@"
fish 'after the kill' 0 <<COMMANDS
mount /dev/sda /
checksums-out sha256 /late output_sums
umount-all
debug sh "e2fsck -f -n /dev/sda"
COMMANDS
is 'the files that were synced' "$(wc -l <synced)" "$(wc -l <synced_sums)"
is 'each file that was synced is there, whole' '' "$(missing_sums synced_sums)"
kill -TERM "$server"
wait "$server"
is 'a stop after the kill' 0 "$?"
server=''
echo "killed after $(wc -l <synced) synced files; $(($(date +%s) - begin)) s"
the_end
