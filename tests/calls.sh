#!/bin/sh
# Checks of the system calls of the built program NBDJ: that it syncs when it has to, what it does if a write or a sync fails, and that
# what a FLUSH confirmed is found again after a kill. The last line is 'N passed, M failed'.
set -u
here=$(CDPATH='' cd "$(dirname "$0")/.." && pwd)
. "$here/tests/checks.sh"
preload fail_calls

# called FAIL WORD..: runs the program; the call FAIL fails, or none if that is empty; `calls` has the calls that it made
called() {
    rm -f calls
    fail=$1
    shift
    CALLS_LOG=$folder/calls FAIL_CALL=$fail LD_PRELOAD=$folder/fail_calls.so "$NBDJ" "$@" <input >output 2>errors
    status=$?
    output=$(hex <output)
    errors=$(cat errors)
    told
}

# found: what a recovery prints
found() { "$NBDJ" recover d.img 2>&1; }

# made NAME WANTED: compares the calls that were made
made() { is "$1" "$2" "$(cat calls)"; }

# made_until NAME WANTED FAIL: these calls were made up to the one that failed, and none after it
made_until() {
    made "$1" "$(printf '%s\n' "$2" | awk -v kind="${3% *}" -v n="${3#* }" '$1 == kind && ++met == n { print $0 " failed"; exit } { print }')"
}

# A format writes zeroes over headers, journal and maps, so that they are allocated. It syncs and closes both header gates; it writes
# area 0's first gate, map slot 0 and the header's body; it opens the header's gate.
format_calls="$(seq 0 32768 4161536 | sed 's/.*/pwrite & 32768/')
pwrite 4194304 16384
"'fdatasync
pwrite 0 1
pwrite 4096 1
fdatasync
pwrite 8192 1
pwrite 4202496 4096
pwrite 1 4095
fdatasync
pwrite 0 1
fdatasync'
: >input
called '' format d.img --blocks 16 --area 2097152
is 'a format' "0|$(text 'formatted 4276224')|" "$status|$output|$errors"
made 'the calls of a format' "$format_calls"
for fail in 'pwrite 1' 'pwrite 129' 'fdatasync 1' 'pwrite 130' 'pwrite 131' 'fdatasync 2' 'pwrite 132' 'pwrite 133' 'pwrite 134' 'fdatasync 3' 'pwrite 135' 'fdatasync 4'; do
    called "$fail" format d.img --blocks 16 --area 2097152
    is "format where $fail fails" '1||nbdj: device fault (1)' "$status|$output|$errors"
    made_until "the calls of a format where $fail fails" "$format_calls" "$fail"
    # Before the last sync the header's gate is already open.
    case $fail in
    'fdatasync 4') wanted='commands 0' ;;
    *) wanted='nbdj: no header (7)' ;;
    esac
    is "after a format where $fail failed" "$wanted" "$(found)"
done

# If a format fails, its new file is removed.
rm d.img
for fail in 'ftruncate 1' 'pwrite 1' 'pwrite 130' 'fdatasync 2'; do
    called "$fail" format d.img --blocks 16 --area 2097152
    is "a new file where $fail failed" '1|no' "$status|$([ -e d.img ] && echo yes || echo no)"
done

# A file system without locks, and one that refuses the length: the file stays as it was, and no call is made.
differing 5000000 1 >old.img
for command in 'pipe d.img' 'recover d.img' 'check d.img' 'format d.img --size 64K --area 2M' 'format d.img --size 1G'; do
    cp old.img d.img
    called 'flock 1' $command
    is "$command without locks" '1||nbdj: cannot lock d.img' "$status|$output|$errors"
    same "the file after $command without locks" old.img d.img
    made "the calls of $command without locks" ''
done
cp old.img d.img
called 'ftruncate 1' format d.img --blocks 262144 --area 64M
is 'a format of a length that is refused' '1||nbdj: cannot open d.img' "$status|$output|$errors"
same 'the file after a format of a length that is refused' old.img d.img

# Two WRITEs of two blocks and a FLUSH; then one more WRITE and FLUSH, and a DISC.
differing 8192 1 >first
differing 8192 5000003 >second
{
    request 0000 1 1 8192 8192
    cat first
    request 0000 1 2 40960 8192
    cat second
    request 0000 3 3 0 0
} >flushed
{
    cat flushed
    request 0000 1 4 0 4096
    filled 4096 A
    request 0000 3 5 0 0
    request 0000 2 6 0 0
} >requests
# The group that the first FLUSH stores.
{
    bytes '01 0000401a 0000000000000001 00000002'
    bytes '01 0000000000000002 00000002'
    cat first
    bytes '01 000000000000000a 00000002'
    cat second
} >group

# stored NAME GATE: area 0 begins with the group, and the gate after it is this byte
stored() {
    tail -c +8193 d.img | head -c 16427 >stored
    same "$1" group stored
    is "$1: the next gate" "$2" "$(part d.img 24619 1)"
}

# The opening syncs. A group is written from after its gate to the next gate, synced, opened by the write of a byte, and synced.
pipe_calls='fdatasync
pwrite 8193 16427
fdatasync
pwrite 8192 1
fdatasync
pwrite 24620 4126
fdatasync
pwrite 24619 1
fdatasync'
cp requests input
fresh 16 2097152
called '' pipe d.img
is 'a pipe' "0|$(reply 1 0)$(reply 2 0)$(reply 3 0)$(reply 4 0)$(reply 5 0)|" "$status|$output|$errors"
made 'the calls of a pipe' "$pipe_calls"
cp d.img stored.img
is 'after a pipe' 'commands 3' "$(: | found)"
: >input
called '' recover d.img
made 'the calls of a recovery of an empty journal' 'fdatasync'
called '' check d.img
made 'the calls of a check' ''

# A long group is written in pieces that end at multiples of 32 KiB. After every second whole piece the system is told that the last byte of
# the piece before it and the first byte of this one aren't needed: so it begins to write both, and the sync has less to write.
{
    request 0000 1 1 0 163840
    differing 163840 1
    request 0000 3 2 0 0
    request 0000 2 3 0 0
} >long
long_calls='fdatasync
pwrite 8193 24575
pwrite 32768 32768
posix_fadvise 32767 2
pwrite 65536 32768
pwrite 98304 32768
posix_fadvise 98303 2
pwrite 131072 32768
pwrite 163840 8223
fdatasync
pwrite 8192 1
fdatasync'
for fail in '' posix_fadvise; do
    cp long input
    fresh 64 2097152
    called "$fail" pipe d.img
    is "a pipe of a long write${fail:+ whose advice is refused}" "0|$(reply 1 0)$(reply 2 0)|" "$status|$output|$errors"
    made "the calls of a long write${fail:+ whose advice is refused}" "$(printf '%s\n' "$long_calls" | sed "/^posix_fadvise/s/\$/${fail:+ failed}/")"
    is "after a long write${fail:+ whose advice is refused}" 'commands 1' "$(found)"
    differing 163840 1 >first_blocks
    tail -c 262144 d.img | head -c 163840 >found_blocks
    same "the blocks of a long write${fail:+ whose advice is refused}" first_blocks found_blocks
done

# A recovery closes the first gate of the other area and syncs. The header with both areas goes to slot 1, whose gate is closed: body, sync,
# gate, sync. The puts are copied, each longest run of blocks in one write. After each the system is told that the last byte of a page and the
# first of the next aren't needed: so it begins to write both, and drops neither from its cache. Then the map with a sync; then the header with
# only the second area, to slot 0, whose gate is closed first.
recovery_calls='fdatasync
pwrite 2105344 1
fdatasync
pwrite 4097 39
fdatasync
pwrite 4096 1
fdatasync
pwrite 4210688 4096
posix_fadvise 4214783 2
pwrite 4218880 8192
posix_fadvise 4222975 2
pwrite 4251648 8192
posix_fadvise 4255743 2
pwrite 4206592 4096
fdatasync
pwrite 0 1
fdatasync
pwrite 1 39
fdatasync
pwrite 0 1
fdatasync'
{
    filled 4096 A
    filled 4096 '\000'
    cat first
    filled 24576 '\000'
    cat second
    filled 16384 '\000'
} >image
# recovered NAME: the data region is the image, and the map says which blocks are data
recovered() {
    tail -c 65536 d.img >found
    same "$1: the blocks" image found
    is "$1: the map" a200a000 "$(part d.img 4206592 4)"
    is "$1: the check" "0|$(printf 'blocks 16\nmode 0\nbase 3\ncommands 3\ndata 5\nzero 0\nhole 11\n' | hex)|" "$("$NBDJ" check d.img >report 2>&1; echo "$?|$(hex <report)|")"
}
cp stored.img d.img
called '' recover d.img
is 'a recovery' "0|$(text 'commands 3')|" "$status|$output|$errors"
made 'the calls of a recovery' "$recovery_calls"
recovered 'a recovery'
# Advice that is refused changes nothing.
cp stored.img d.img
called posix_fadvise recover d.img
is 'a recovery whose advice is refused' "0|$(text 'commands 3')|" "$status|$output|$errors"
made 'the calls of a recovery whose advice is refused' "$(printf '%s\n' "$recovery_calls" | sed '/^posix_fadvise/s/$/ failed/')"
recovered 'a recovery whose advice is refused'
for fail in 'fdatasync 1' 'pwrite 1' 'fdatasync 2' 'pwrite 2' 'fdatasync 3' 'pwrite 3' 'fdatasync 4' 'pwrite 4' 'pwrite 5' 'pwrite 6' 'pwrite 7' 'fdatasync 5' \
    'pwrite 8' 'fdatasync 6' 'pwrite 9' 'fdatasync 7' 'pwrite 10' 'fdatasync 8'; do
    cp stored.img d.img
    called "$fail" recover d.img
    is "recovery where $fail fails" '1||nbdj: device fault (1)' "$status|$output|$errors"
    made_until "the calls of a recovery where $fail fails" "$recovery_calls" "$fail"
    "$NBDJ" check d.img >report 2>errors
    is "check after a recovery where $fail failed" 'commands 3|data 5' "$(sed -n 4p report)|$(sed -n 5p report)"
    is "after a recovery where $fail failed" 'commands 3' "$(found)"
    recovered "after a recovery where $fail failed"
done
cp requests input
for fail in 'fdatasync 1' 'pwrite 1' 'fdatasync 2' 'pwrite 2' 'fdatasync 3' 'pwrite 3' 'fdatasync 4' 'pwrite 4' 'fdatasync 5'; do
    fresh 16 2097152
    called "$fail" pipe d.img
    # No FLUSH whose sync failed is answered Ok, and after the fault everything gets EIO. If the last sync of a group failed, its gate is open
    # in the file; after a power cut it might not be.
    case $fail in
    'fdatasync 1') wanted='' count=0 ;;
    'pwrite 1' | 'fdatasync 2' | 'pwrite 2') wanted=$(reply 1 0)$(reply 2 0)$(reply 3 5)$(reply 4 5)$(reply 5 5) count=0 ;;
    'fdatasync 3') wanted=$(reply 1 0)$(reply 2 0)$(reply 3 5)$(reply 4 5)$(reply 5 5) count=2 ;;
    'fdatasync 5') wanted=$(reply 1 0)$(reply 2 0)$(reply 3 0)$(reply 4 0)$(reply 5 5) count=3 ;;
    *) wanted=$(reply 1 0)$(reply 2 0)$(reply 3 0)$(reply 4 0)$(reply 5 5) count=2 ;;
    esac
    is "pipe where $fail fails" "1|$wanted|nbdj: device fault (1)" "$status|$output|$errors"
    made_until "the calls of a pipe where $fail fails" "$pipe_calls" "$fail"
    is "after a pipe where $fail failed" "commands $count" "$(: | found)"
    case $count in
    2) stored "what is stored where $fail failed" 00 ;;
    3) stored "what is stored where $fail failed" 01 ;;
    esac
done

# The program is killed as soon as the reply to the FLUSH was read: the group was synced by then, and is found.
fresh 16 2097152
rm -f calls
mkfifo asked told
CALLS_LOG=$folder/calls LD_PRELOAD=$folder/fail_calls.so "$NBDJ" pipe d.img <asked >told 2>errors &
running=$!
exec 3>asked 4<told
cat flushed >&3
is 'the replies before the kill' "$(reply 1 0)$(reply 2 0)$(reply 3 0)" "$(timeout 20 head -c 48 <&4 | hex)"
made 'the calls before the kill' "$(printf '%s\n' "$pipe_calls" | head -n 5)"
kill -9 "$running"
wait "$running" 2>wait
is 'the status after the kill' 137 $?
exec 3>&- 4<&-
is 'after the kill' 'commands 2' "$(: | found)"
stored 'what is stored after the kill' 00

the_end
