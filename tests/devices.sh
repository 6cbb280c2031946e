#!/bin/sh
# Checks of the built program NBDJ on block devices in use, on devices and files that hold data, and on full disks, with loop devices, as
# root. What can't be tried here is skipped by name. The last line is 'N passed, M failed'.
set -u
here=$(CDPATH='' cd "$(dirname "$0")/.." && pwd)
. "$here/tests/checks.sh"
: >input
loops=''
mounted=''
mapped=''
clean_up() {
    [ -z "$mapped" ] || dmsetup remove "$mapped"
    for place in $mounted; do umount "$place"; done
    for device in $loops; do losetup -d "$device"; done
    rm -rf "$folder"
}
trap 'clean_up 2>/dev/null' EXIT

# loop_on FILE: makes a loop device on a file, and sets `loop`
loop_on() {
    loop=$(losetup -f --show "$1" 2>/dev/null) || return 1
    loops="$loops $loop"
}
loop_off() { losetup -d "$1" && loops=$(printf '%s' "$loops" | sed "s| $1\$||; s| $1 | |"); }

# in_use NAME PATH REASON: each command refuses a path as in use, says why, and leaves its bytes
in_use() {
    # (more of a device in use may change by itself)
    head -c 4096 "$2" | cksum >before
    for command in 'recover -v' 'upgrade -v' 'pipe -v' 'serve --unix d.sock' 'format -v --force --size 1M --area 2M' 'format -v --blocks 16 --area 2M'; do
        timeout 20 "$NBDJ" $command "$2" <input >output 2>errors
        is "$1: ${command%% *}" "4||nbdj: $2: $3|nbdj: $2 is in use" "$?|$(cat output)|$(paste -s -d '|' errors)"
        told
    done
    is "$1: its bytes" "$(cat before)" "$(head -c 4096 "$2" | cksum)"
}

# used DEVICE FILE: a device in use, by its own node, by another node, and by the file behind it
used() {
    mkdir mounted
    if mkfs.ext4 -q -F "$1" 2>/dev/null && mount -o ro "$1" mounted; then
        mounted=mounted
        in_use 'a mounted device' "$1" 'a file system on it is mounted'
        mknod other_node b $((0x$(stat -L -c %t "$1"))) $((0x$(stat -L -c %T "$1")))
        in_use 'another node of a mounted device' other_node 'a file system on it is mounted'
        in_use 'the file behind a mounted device' "$2" 'a file system on it is mounted'
        is 'the mounted file system' ext4 "$(stat -f -c %T mounted | sed 's,ext2/ext3,ext4,')"
        umount mounted
        mounted=''
    else
        skipped 'a mounted device' 'nothing can be mounted here'
    fi
    if mkswap "$1" >/dev/null 2>&1 && swapon "$1" 2>/dev/null; then
        in_use 'a device for swapping' "$1" 'the system swaps to it'
        swapoff "$1"
    else
        skipped 'a device for swapping' 'the system does not swap to it'
    fi
    if dmsetup create "nbdj-$$" --table "0 2048 linear $1 0" >/dev/null 2>&1; then
        mapped=nbdj-$$
        in_use 'a device under another one' "$1" 'another device stands on it'
        dmsetup remove "$mapped"
        mapped=''
    else
        skipped 'a device under another one' "the kernel's device mapper is not there"
    fi
}

# holds NAME WORD..: starts a pipe, which holds its device until `let_go`
holds() {
    rm -f requests replies
    mkfifo requests replies
    timeout 60 "$NBDJ" pipe "$1" <requests >replies 2>/dev/null &
    holding=$!
    exec 5>requests 6<replies
    request 0000 3 1 0 0 >&5
    is "$1 is held" "$(reply 1 0)" "$(head -c 16 <&6 | hex)"
}
let_go() {
    exec 5>&- 6<&-
    wait "$holding"
}

# shared DEVICE FILE NODE: only one process uses a device at a time, by whichever of its names
shared() {
    "$NBDJ" format "$1" --blocks 16 --area 2M >/dev/null
    for pair in "$1 $3" "$3 $1" "$1 $2" "$2 $1" "$3 $2" "$2 $3"; do
        cp "$2" before.img
        holds "${pair% *}"
        for command in 'recover -v' 'check -v' 'serve --unix d.sock' 'format -v --blocks 16 --area 2M'; do
            timeout 20 "$NBDJ" $command "${pair#* }" <input >output 2>errors
            is "${command%% *} of ${pair#* } while ${pair% *} is held" "4|nbdj: ${pair#* }: another process has locked it|nbdj: ${pair#* } is in use" "$?|$(paste -s -d '|' errors)"
        done
        let_go
        same "the bytes of ${pair#* } while ${pair% *} was held" before.img "$2"
    done
    is 'a device that was held' 'commands 0' "$("$NBDJ" recover "$3")"
}

# settled: waits for udev, which locks and reads a device after it was closed by a writer
settled() { ! command -v udevadm >/dev/null || udevadm settle --timeout=20 >/dev/null 2>&1 || :; }

# refuses NAME PATH CONTENT: `format --size` says what is there and leaves it; with --force it replaces it
refuses() {
    cp "$2" before.img
    settled
    timeout 20 "$NBDJ" format "$2" --size 1M --area 2M <input >output 2>errors
    is "$1" "1||nbdj: $2 holds data, which --force replaces" "$?|$(cat output)|$(cat errors)"
    settled
    timeout 20 "$NBDJ" format "$2" --size 1M --area 2M -v <input >output 2>errors
    is "$1: why" "1||nbdj: $2: it has $3|nbdj: $2 holds data, which --force replaces" "$?|$(cat output)|$(paste -s -d '|' errors)"
    is "$1: what was there" '' "$(cmp "$2" before.img 2>&1)"
    settled
    is "$1, which is replaced" '0|formatted 5259264' "$(timeout 20 "$NBDJ" format "$2" --size 1M --area 2M --force 2>&1 >output; echo "$?|$(cat output)")"
}

# known DEVICE: formats that are recognised on a device by a few bytes
known() {
    while read -r offset bytes name; do
        dd if=/dev/zero of="$1" bs=1M count=8 conv=notrunc 2>/dev/null
        bytes "$bytes" | dd of="$1" bs=1 seek="$offset" conv=notrunc 2>/dev/null
        refuses "a device with $name at $offset" "$1" "$name"
    done <<'ROWS'
0 514649fb a qcow2 image
0 58465342 an XFS file system
0 4c554b53babe a LUKS volume
0 4c4142454c4f4e45 an LVM physical volume
512 4c4142454c4f4e45 an LVM physical volume
512 4546492050415254 a partition table
510 55aa a partition table
1080 53ef an ext2, ext3 or ext4 file system
4086 53574150535041434532 swap space
4096 fc4e2ba9 a member of a RAID
32769 4344303031 an ISO 9660 file system
65600 5f42485266535f4d a Btrfs file system
ROWS
}

# on_partition DEVICE: a device is in use if one of its partitions is
on_partition() {
    if ! addpart "$1" 1 2048 20480 2>/dev/null || ! [ -b "$1p1" ]; then
        skipped 'a partition' "the kernel's devices have none here"
        return
    fi
    mkfs.ext4 -q -F "$1p1"
    mount -o ro "$1p1" mounted
    mounted=mounted
    in_use 'a device whose partition is mounted' "$1" 'a file system on it is mounted'
    umount mounted
    mounted=''
    "$NBDJ" format "$1p1" --size 1M --area 2M --force >/dev/null
    holds "$1p1"
    in_use 'a device whose partition is held' "$1" 'another process has locked it'
    let_go
    delpart "$1" 1
}

truncate -s 32M disk
if [ "$(id -u)" -ne 0 ] || ! loop_on disk; then
    skipped 'block devices' 'there is no loop device here'
else
    used "$loop" disk
    on_partition "$loop"
    dd if=/dev/zero of="$loop" bs=1M count=32 conv=notrunc 2>/dev/null
    known "$loop"
    refuses 'a device with an image' "$loop" 'an image of nbdj'
    loop_off "$loop"
    truncate -s 4276224 image
    loop_on image
    mknod node b $((0x$(stat -L -c %t "$loop"))) $((0x$(stat -L -c %T "$loop")))
    shared "$loop" image node
    loop_off "$loop"
fi

# Files that aren't empty are kept, unless --force replaces them.
differing 5000000 1 >some
refuses 'a file with data' some '5000000 bytes'
"$NBDJ" format e.img --size 64K --area 2M >/dev/null
refuses 'a file with an image' e.img '4276224 bytes'
rm -f e.img
: >e.img
ends 'an empty file' 0 "$(text 'formatted 4276224')" '' format e.img --size 64K --area 2M
ends 'a format by blocks replaces' 0 "$(text 'formatted 4276224')" '' format e.img --blocks 16 --area 2M

# full NAME FILE WORD..: a format on a full disk says so
full() {
    name=$1 path=$2
    shift 2
    timeout 20 "$NBDJ" format "$path" -v "$@" <input >output 2>errors
    is "$name" "1||nbdj: $path: sync: No space left on device (os error 28)|nbdj: device fault (1)" "$?|$(cat output)|$(paste -s -d '|' errors)"
}

# served IMAGE: what nbdj-server prints until it listens, without numbers that vary; then it is stopped
served() {
    mkfifo told
    "$here/packaging/nbdj-server" "$1" --unix socket >told 2>&1 &
    sed -e '/^listening/{s/ .*//;q}' -e 's/has [0-9]* MiB free/has N MiB free/' told
    kill $!
    wait $!
    rm told
}

# A disk of 12 MiB: a format without space removes its new file, and leaves an old one. Journal and maps are allocated by `format`, so only a copy
# into a hole can lack space, and it loses nothing.
on_full_disks() {
    full 'all of a new file' small/new.img --size 64M --area 2M --preallocate
    full 'the journal of a new file' small/new.img --size 1M --area 16M
    is 'a file without room' no "$([ -e small/new.img ] && echo yes || echo no)"
    differing 5000000 1 >some
    cp some small/some
    full 'all of a file with data' small/some --blocks 16384 --area 2M --preallocate
    full 'the journal of a file with data' small/some --blocks 16 --area 8M
    same 'a file with data without room' some small/some
    is 'a file with data with room' 'formatted 4276224' "$("$NBDJ" format small/some --blocks 16 --area 2M --preallocate 2>&1)"
    rm small/some
    "$NBDJ" format small/d.img --size 64M --area 2M >/dev/null
    is 'nbdj-server warns of too little space' 'nbdj-server: small/d.img may need 64 MiB more, and its file system has N MiB free|listening' "$(served small/d.img | paste -s -d '|')"
    "$NBDJ" format small/e.img --size 1M --area 2M >/dev/null
    is 'nbdj-server with enough space' listening "$(served small/e.img)"
    rm small/e.img
    dd if=/dev/zero of=small/rest bs=64K 2>/dev/null
    {
        request 0000 1 1 0 1048576
        filled 1048576 A
        request 0000 3 2 0 0
    } >input
    run pipe small/d.img
    is 'a write that is stored on a full disk' "$(reply 1 0)$(reply 2 0)" "$output"
    : >input
    run recover -v small/d.img
    is 'a copy into a hole on a full disk' '1|nbdj: small/d.img: write of N bytes at K: No space left on device (os error 28)|nbdj: no space left on device: free some and start again; nothing durable is lost|nbdj: device fault (1)' \
        "$status|$(sed 's/of [0-9]* bytes at [0-9]*/of N bytes at K/' errors | paste -s -d '|')"
    rm small/rest
    ends 'a disk with room again' 0 "$(text 'commands 1')" '' recover small/d.img
}
mkdir small
if mount -t tmpfs -o size=12m tmpfs small 2>/dev/null; then
    mounted=small
    on_full_disks
    umount small
    mounted=''
else
    skipped 'a full disk' 'nothing can be mounted here'
fi

the_end
