#!/bin/sh
# Checks of the built program NBDJ on real files. Prints a line for each check that fails, and last 'N passed, M failed'.
set -u
here=$(CDPATH='' cd "$(dirname "$0")/.." && pwd)
. "$here/tests/checks.sh"

# refused NAME WORD..: the command line is refused with clap's usage and status 2, and makes no file
refused() {
    name=$1
    shift
    run "$@"
    is "$name" '2||yes|no' "$status|$output|$(grep -qi 'usage\|--help' errors && echo yes)|$([ -e new.img ] && echo yes || echo no)"
}

# patch FILE OFFSET HEX: writes bytes into a file
patch() { bytes "$3" | dd of="$1" bs=1 seek="$2" conv=notrunc 2>/dev/null; }

# unchanged NAME MESSAGE: recover, pipe and check refuse d.img with this message and leave it as it is
unchanged() {
    cp d.img before.img
    ends "$1" 1 '' "$2" recover d.img
    is "$1: the file" same "$(cmp -s d.img before.img && echo same)"
    ends "$1: pipe" 1 '' "$2" pipe d.img
    is "$1: the file after pipe" same "$(cmp -s d.img before.img && echo same)"
    ends "$1: check" 3 '' "$2" check d.img
    is "$1: the file after check" same "$(cmp -s d.img before.img && echo same)"
}

# checks NAME BLOCKS MODE BASE COMMANDS DATA ZERO HOLE: `check` prints these numbers, and leaves d.img as it is
checks() {
    cp d.img before.img
    ends "$1" 0 "$(printf 'blocks %s\nmode %s\nbase %s\ncommands %s\ndata %s\nzero %s\nhole %s\n' "$2" "$3" "$4" "$5" "$6" "$7" "$8" | hex)" '' check d.img
    is "$1: the file" same "$(cmp -s d.img before.img && echo same)"
}

: >input

# The command line.
refused 'no command'
refused 'no path' format --blocks 16 --area 2097152
refused 'unknown command' copy new.img
refused 'no blocks' format new.img --area 2097152
refused 'blocks 0' format new.img --blocks 0 --area 2097152
refused 'too many blocks' format new.img --blocks 16777217 --area 2097152
refused 'blocks past 64 bits' format new.img --blocks 18446744073709551616 --area 2097152
refused 'a signed number' format new.img --blocks -1 --area 2097152
refused 'area too small' format new.img --blocks 16 --area 2088960
refused 'area too large' format new.img --blocks 16 --area 1073750016
refused 'area no multiple' format new.img --blocks 16 --area 2097153
refused 'neither size nor blocks' format new.img
refused 'blocks without an area' format new.img --blocks 16
refused 'size and blocks' format new.img --size 64K --blocks 16 --area 2097152
for size in '' G 10X 10KB 1.5G '10 G' -1 0 4095 4097 5000 65G 1T 68719480832 18446744073709551616 99999999999T; do
    refused "size '$size'" format new.img --size="$size"
done
for area in '' 2X 2088960 2097153 1073750016 2G 1K -1; do
    refused "area '$area'" format new.img --size 64K --area="$area"
done
run format new.img --size 65G
is 'the text of a size too large' "error: invalid value '65G' for '--size <SIZE>': 65G is not in 4096..=68719476736" "$(head -n 1 errors)"
run format new.img --size 10X
is 'the message for a wrong size' "error: invalid value '10X' for '--size <SIZE>': a size is a number of bytes that fits 64 bits, or one with K, M, G or T behind it" "$(head -n 1 errors)"
run format new.img --size 64K --area 2088960
is 'the text of an area too small' "error: invalid value '2088960' for '--area <BYTES>': 2088960 is not in 2097152..=1073741824" "$(head -n 1 errors)"
refused 'frames too few' pipe new.img --frames 511
refused 'frames too many' pipe new.img --frames 65537
refused 'unknown cache mode' pipe new.img --cache unsafe
refused 'serve without an address' serve new.img
for workers in 0 17 -1 many; do
    refused "workers '$workers'" serve new.img --listen 127.0.0.1:0 --workers="$workers"
done
for frames in 511 65537; do
    refused "frames '$frames' of a server" serve new.img --listen 127.0.0.1:0 --frames="$frames"
done
for seconds in 0 86401; do
    refused "a handshake of '$seconds' seconds" serve new.img --listen 127.0.0.1:0 --handshake-timeout="$seconds"
done
for seconds in -1 86401 many ''; do
    refused "an idle timeout of '$seconds' seconds" serve new.img --listen 127.0.0.1:0 --idle-timeout="$seconds"
done
for seconds in -1 86401 86400.001 many '' . .5 1. 1.0001 0,1 1.+5 1e3; do
    refused "a flush interval of '$seconds' seconds" serve new.img --listen 127.0.0.1:0 --flush-interval="$seconds"
done
for mode in '' 8 0888 1000 -1 0x1ff rw; do
    refused "a socket's mode of '$mode'" serve new.img --unix new.sock --unix-mode="$mode"
done
refused 'the mode of no socket' serve new.img --listen 127.0.0.1:0 --unix-mode 0660
for way in '' Exit leave; do
    refused "'$way' on a fault" serve new.img --listen 127.0.0.1:0 --on-fault="$way"
done
for way in '' Wait close; do
    refused "'$way' when each worker has a client" serve new.img --listen 127.0.0.1:0 --when-full="$way"
done
refused 'a value of until-eof' serve new.img --listen 127.0.0.1:0 --until-eof=yes
refused 'an empty path of a socket' serve new.img --unix ''
run serve new.img
is 'the message without an address' "2|error: one of --listen <ADDR> and --unix <SOCKET> is wanted" "$status|$(head -n 1 errors)"
refused 'sessions past 64 bits' serve new.img --listen 127.0.0.1:0 --sessions 18446744073709551616
refused 'unknown cache mode of a server' serve new.img --listen 127.0.0.1:0 --cache unsafe
refused 'too few bytes that may be lost' serve new.img --listen 127.0.0.1:0 --loss-bytes 2097151
refused 'too many of them' serve new.img --listen 127.0.0.1:0 --loss-bytes 65M
refused 'bytes that are no number' serve new.img --listen 127.0.0.1:0 --loss-bytes much
refused 'four digits of a second' serve new.img --listen 127.0.0.1:0 --loss-seconds 0.0001
refused 'a word too many' recover new.img more
refused 'layout 0' format new.img --size 64K --layout 0
refused 'layout 3' format new.img --size 64K --layout 3
refused 'a layout of letters' format new.img --size 64K --layout two
refused 'a layout without a value' format new.img --size 64K --layout
refused 'a layout before its command' --layout 1 format new.img --size 64K
refused 'a layout after the words' format new.img --size 64K -- --layout 1
refused 'a part of an option' format new.img --size 64K --lay 1
refused 'an unknown option' format new.img --size 64K --layuot 1
refused 'blocks without a value' format new.img --size 64K --blocks
run format new.img --size 64K --help
is 'help with a format makes no file' '0|no' "$status|$([ -e new.img ] && echo yes || echo no)"
refused 'check without a path' check
# The version is that of the first heading of CHANGELOG.md.
version=$(sed -n 's/^## \([0-9][0-9.]*\).*/\1/p' "$here/CHANGELOG.md" | head -n 1)
run --version
is 'version' "0|$(text "nbdj $version")|" "$status|$output|$errors"
run pipe --help
is 'help' '0|yes|' "$status|$(grep -q FLUSH output && echo yes)|$errors"
for command in format serve pipe recover upgrade check rehearse; do
    run "$command" --version
    is "version of $command" "0|$version|" "$status|$(sed 's/.* //' output)|$errors"
    run "$command" --help
    is "help of $command" '0|yes|' "$status|$(grep -q "^Usage: nbdj $command" output && echo yes)|$errors"
    # (each command has 0, 1 and 2, check also 3, and those that use a file also 4)
    case $command in check) statuses='0 1 2 3 4 ' ;; rehearse) statuses='0 1 2 ' ;; *) statuses='0 1 2 4 ' ;; esac
    is "the exit statuses in the help of $command" "$statuses" "$(sed -n 's/^Exit status: //p' output | tr ';' '\n' | sed 's/^ *\([0-9]*\) [a-z].*/\1/' | tr '\n' ' ')"
done

# The example in each help runs. Those of serve and of the program go on after they listen.
mkdir bin
ln -s "$NBDJ" bin/nbdj
request 0000 2 1 0 0 >requests
cp "$here/examples/crash-before-the-flush.script" script
for command in format pipe recover upgrade check rehearse; do
    example=$("$NBDJ" "$command" --help | sed -n 's/^Example: //p')
    case $command in format) example="$example --area 4M" ;; esac
    is "the example of $command" "0|nbdj $command" "$(PATH="$folder/bin:$PATH" sh -c "$example" >printed 2>&1; echo $?)|$(echo "$example" | cut -d ' ' -f 1-2)"
done
fresh 16 2097152
# serves NAME STATUS PRINTED ERRORS WORD..: how a server ends, with the last line of its errors; once it has printed something it is stopped,
# with status 143
serves() {
    name=$1
    wanted="$2|$3|$4"
    shift 4
    : >printed
    : >errors
    timeout 20 "$NBDJ" serve "$@" >printed 2>errors </dev/null &
    serving=$!
    wait_for 10 has_said
    [ -s errors ] || kill "$serving"
    wait "$serving" 2>/dev/null
    is "$name" "$wanted" "$?|$(cat printed)|$(tail -n 1 errors)"
    told
}
has_said() { [ -s printed ] || [ -s errors ]; }
example=$("$NBDJ" serve --help | sed -n 's/^Example: nbdj serve //p')
serves 'the example of serve' 143 "listening ${example##*:}" '' $example
example=$("$NBDJ" --help | sed -n 's/^Example: //p')
rm -f d.img
is 'the example of the program: format' 'nbdj format d.img 0' "$(echo "$example" | cut -d ' ' -f 1-3) $(PATH="$folder/bin:$PATH" sh -c "${example%%&&*} --area 2M" >printed 2>&1; echo $?)"
example=${example#*&& nbdj serve }
serves 'the example of the program: serve' 143 "listening ${example##*:}" '' $example
fresh 16 2097152
serves 'an address without a port' 143 'listening 10809' '' d.img --listen 127.0.0.1
if grep -q . /proc/net/if_inet6 2>/dev/null; then
    for address in ::1 '[::1]' '[::1]:10809'; do
        serves "the address $address" 143 'listening 10809' '' d.img --listen "$address"
    done
else
    skipped 'addresses of version 6' 'there are none'
fi
serves 'a Unix socket' 143 'listening d.sock' '' d.img --unix d.sock
is 'the socket of a killed server' yes "$([ -S d.sock ] && echo yes)"
(umask 0 && serves 'a Unix socket with a mode' 143 'listening e.sock' '' d.img --unix e.sock --unix-mode 0640)
is 'the mode of a socket' 640 "$(stat -c %a e.sock)"
rm -f e.sock
serves 'a Unix socket that nobody listens on' 143 'listening d.sock' '' d.img --unix d.sock
: >d.file
serves 'a file in the place of a socket' 1 '' 'nbdj: stream fault (21)' d.img --unix d.file
is 'the file in the place of a socket' yes "$([ -f d.file ] && echo yes)"
serves 'a socket in a folder that is missing' 1 '' 'nbdj: stream fault (21)' d.img --unix none/d.sock
for address in 192.0.2.1:0 192.0.2.1 ::1:0; do
    serves "the address '$address'" 1 '' 'nbdj: stream fault (21)' d.img --listen "$address"
done
for address in 127.0.0.1:65536 : '' '[::1' 0 10809; do
    is "the address '$address'" "2|error: invalid value '$address' for '--listen <ADDR>'" \
        "$("$NBDJ" serve d.img --listen "$address" 2>errors; echo "$?|$(head -n 1 errors | sed 's/: it is .*//')")"
done
serves 'a missing image' 1 '' 'nbdj: cannot open none.img' none.img --listen 127.0.0.1
is 'a server that was killed at once' 'commands 0' "$("$NBDJ" recover d.img)"
printf 'no image' >d.img
serves 'an image without a header' 1 '' "$("$NBDJ" recover d.img 2>&1)" d.img --listen 127.0.0.1
rm -f d.img d.file requests replies script

# A path that is neither a file nor a block device is refused at once, and stays.
mkfifo d.fifo
for path in d.fifo d.sock . /dev/null /dev/zero; do
    for command in recover check pipe 'serve --listen 127.0.0.1:0' 'format --size 64K --area 2M'; do
        timeout 10 "$NBDJ" $command "$path" <input >printed 2>errors
        is "$command of $path" "1||nbdj: cannot open $path" "$?|$(cat printed)|$(tail -n 1 errors)"
        told
    done
done
is 'the fifo and the socket' yes "$([ -p d.fifo ] && [ -S d.sock ] && echo yes)"
rm -f d.fifo d.sock

# A server prints the reason on a line before the refusal; other commands do so with -v.
reason() {
    name=$1
    wanted=$(printf '%s\n%s' "$3" "$4")
    code=$2
    shift 4
    timeout 10 "$NBDJ" "$@" <input >printed 2>errors
    is "the reason of $name" "$code|$wanted" "$?|$(grep -v ': recovered ' errors)"
}
reason 'a missing file' 1 'nbdj: none.img: No such file or directory (os error 2)' 'nbdj: cannot open none.img' recover none.img -v
reason 'a missing file to be served' 1 'nbdj: none.img: No such file or directory (os error 2)' 'nbdj: cannot open none.img' serve none.img --unix d.sock
reason 'a missing folder' 1 'nbdj: none/d.img: No such file or directory (os error 2)' 'nbdj: cannot open none/d.img' format none/d.img --size 64K --verbose
reason 'a folder' 1 'nbdj: .: neither a file nor a block device' 'nbdj: cannot open .' pipe -v .
: >d.img
reason 'an empty file' 3 'nbdj: d.img: not an image of nbdj; see nbdj format' 'nbdj: no header (7)' check d.img -v
filled 8192 '\001' >d.img
reason 'a file of ones' 1 "nbdj: d.img: its header isn't one that nbdj has written
nbdj: d.img: both header slots, at offsets 0 and 4096, have generation 72340172838076673" 'nbdj: bad header (8)' recover d.img -v
bad_slot="nbdj: d.img: header slot 0 at offset 0, or the file's length, breaks a rule"
fresh 16 2097152
truncate -s -4096 d.img
reason 'a file that was cut' 3 "nbdj: d.img: 4,096 bytes shorter than its header says
$bad_slot" 'nbdj: bad header (8)' check d.img -v
reason 'a served file that was cut' 1 "nbdj: d.img: 4,096 bytes shorter than its header says
$bad_slot" 'nbdj: bad header (8)' serve d.img --unix d.sock
truncate -s +1238663 d.img
reason 'a file that has grown' 1 "nbdj: d.img: 1,234,567 bytes longer than its header says
$bad_slot" 'nbdj: bad header (8)' recover d.img -v
fresh 16 2097152
reason 'an address of another machine' 1 'nbdj: 192.0.2.1:0: Cannot assign requested address (os error 99)' 'nbdj: stream fault (21)' serve d.img --listen 192.0.2.1:0
reason 'a socket in a folder that is missing' 1 'nbdj: none/d.sock: No such file or directory (os error 2)' 'nbdj: stream fault (21)' serve d.img --unix none/d.sock
reason 'a file in place of the socket' 1 'nbdj: d.img: Address already in use (os error 98)' 'nbdj: stream fault (21)' serve d.img --unix d.img
long=$(printf '%0120d' 0)
reason 'a path of a socket that is too long' 1 "nbdj: $long: path must be shorter than SUN_LEN" 'nbdj: stream fault (21)' serve d.img --unix "$long"
# (also on a terminal)
if command -v script >/dev/null; then
    is 'the reason of a missing file, on a terminal' 'nbdj: none.img: No such file or directory (os error 2)|nbdj: cannot open none.img' \
        "$(script -qec "$NBDJ recover none.img" /dev/null 2>&1 </dev/null | tr -d '\r' | paste -s -d '|')"
else
    skipped 'reasons on a terminal' 'there is no script'
fi
if command -v flock >/dev/null; then
    flock -x d.img "$NBDJ" check d.img -v >printed 2>errors
    is 'the reason of a file in use' "4|$(printf 'nbdj: d.img: another process has locked it\nnbdj: d.img is in use')" "$?|$(cat errors)"
fi
rm -f d.img

# Files.
ends 'a missing file' 1 '' 'nbdj: cannot open none.img' recover none.img
ends 'check a missing file' 1 '' 'nbdj: cannot open none.img' check none.img
ends 'a folder' 1 '' 'nbdj: cannot open .' pipe .
ends 'a missing folder' 1 '' 'nbdj: cannot open none/d.img' format none/d.img --blocks 16 --area 2097152
ends 'format a folder' 1 '' 'nbdj: cannot open .' format . --blocks 16 --area 2097152
: >d.img
unchanged 'an empty file' 'nbdj: no header (7)'
filled 4096 '\000' >d.img
unchanged '4,096 zero bytes' 'nbdj: no header (7)'

# The device.
ends 'format' 0 "$(text 'formatted 4276224')" '' format d.img --blocks 16 --area 2097152
is 'header slot 0' 014e42444a524e4c31000000000000000100000000000000100020000000000000000000000000000000 "$(part d.img 0 42)"
is 'length of the file' 4276224 "$(wc -c <d.img | tr -d ' ')"
checks 'check of a fresh device' 16 0 0 0 0 0 16
ends 'a fresh device' 0 "$(text 'commands 0')" '' recover d.img
# Sizes: a device has 8,192 bytes, two areas, two map slots of 4,096 for each 16,384 blocks, and the blocks. The header's magic ends with the
# number of the layout; in layout 2 an area has half of the bytes asked for. --size makes layout 2 by default, if an area has 4 MiB or more.
while read -r words layout blocks area bytes; do
    rm -f s.img
    ends "format --size $words" 0 "$(text "formatted $bytes")" '' format s.img --size $(echo "$words" | tr , ' ')
    is "header of --size $words" "$layout|$blocks|$area" "$(part s.img 8 1)|$(part s.img 17 8)|$(part s.img 25 4)"
done <<'ROWS'
64K,--area,2097152 31 0000000000000010 00200000 4276224
65536,--area,2M 31 0000000000000010 00200000 4276224
4096,--area,2048k 31 0000000000000001 00200000 4214784
+4k,--area,+2m 31 0000000000000001 00200000 4214784
64K,--area,4186112 31 0000000000000010 003fe000 8454144
64K,--area,4M 32 0000000000000010 00200000 8470528
64K,--area,4M,--layout,1 31 0000000000000010 00400000 8470528
512M 32 0000000000020000 02000000 671162368
512M,--layout,2 32 0000000000020000 02000000 671162368
512M,--layout,1 31 0000000000020000 04000000 671162368
1g 32 0000000000040000 02000000 1208098816
1G,--area,1G 32 0000000000040000 20000000 3221364736
ROWS
ends 'format --blocks with letters in the area' 0 "$(text 'formatted 4276224')" '' format s.img --blocks 16 --area 2M
rm -f s.img

# Layout 2, made by a format and by an upgrade, which may be repeated.
lines() { printf '%s\n' "$@" | hex; }
ends 'format of layout 2' 0 "$(text 'formatted 8470528')" '' format e.img --blocks 16 --area 4M --layout 2
is 'header of layout 2' 014e42444a524e4c3200000000000000010000000000000010002000000100000000000000000000 "$(part e.img 0 40)"
ends 'format of blocks' 0 "$(text 'formatted 8470528')" '' format e.img --blocks 16 --area 4M
is 'header of blocks' 014e42444a524e4c3100000000000000010000000000000010004000000000000000000000000000 "$(part e.img 0 40)"
ends 'format of layout 1' 0 "$(text 'formatted 8470528')" '' format e.img --blocks 16 --area 4194304 --layout 1
for name in 'an upgrade' 'a second upgrade'; do
    ends "$name" 0 "$(text 'layout 2')" '' upgrade e.img
    is "slot 1 after $name" 014e42444a524e4c3200000000000000020000000000000010002000000100000000000000000000 "$(part e.img 4096 40)"
    ends "check after $name" 0 "$(lines 'layout 2' 'blocks 16' 'mode 0' 'base 0' 'commands 0' 'data 0' 'zero 0' 'hole 16')" '' check e.img
    ends "recover after $name" 0 "$(text 'commands 0')" '' recover e.img
done
cp "$here/examples/write-and-flush.requests" input
ends 'pipe of layout 2' 0 6744669800000000010203040506070867446698000000000000000000000002 '' pipe e.img
: >input
ends 'check after a pipe of layout 2' 0 "$(lines 'layout 2' 'blocks 16' 'mode 0' 'base 0' 'commands 1' 'data 1' 'zero 0' 'hole 15')" '' check e.img
serves 'a server of layout 2' 143 'listening s.sock' '' e.img --unix s.sock
rm -f e.img s.sock
ends 'format of small areas' 1 '' 'nbdj: area too small (22)' format e.img --blocks 16 --area 4186112 --layout 2
is 'the file of small areas' no "$([ -e e.img ] && echo yes || echo no)"
ln -s made.img e.img
ends 'format of small areas over a link' 1 '' 'nbdj: area too small (22)' format e.img --blocks 16 --area 2M --layout 2
is 'the target of the link' no "$([ -e made.img ] && echo yes || echo no)"
rm -f e.img
printf 'something else' >e.img
ends 'format of small areas over a file' 1 '' 'nbdj: area too small (22)' format e.img --size 64K --area 2M --layout 2
is 'the file under small areas' 'something else' "$(cat e.img)"
ends 'format of small areas in a missing folder' 1 '' 'nbdj: cannot open none/e.img' format none/e.img --blocks 16 --area 2M --layout 2
refused 'layout 2 with an area below all limits' format new.img --blocks 16 --area 1M --layout 2
refused 'layout 2 without a path' format --blocks 16 --area 2M --layout 2
"$NBDJ" format e.img --blocks 16 --area 2M >/dev/null
ends 'upgrade of small areas' 1 '' 'nbdj: area too small (22)' upgrade e.img
rm -f e.img

# An image of 1,024 blocks that was written before there was layout 2, with commands 5 to 8 in its second area. There were writes of blocks 0 to
# 255, 200 to 449, 400 to 655, 700 to 899 and 10 to 159, each block with other bytes; then 20 to 49 were trimmed, three blocks from byte 100 of
# block 200 on became zeroes, and 10 digits were written from byte 904 of block 1 on.
for command in recover upgrade; do
    gzip -dc "$here/tests/images/before-layout-2.img.gz" >d.img
    checks "check of an old image, before $command" 1024 0 4 8 824 0 200
    case $command in recover) printed='commands 8' ;; upgrade) printed='layout 2' ;; esac
    ends "$command of an old image" 0 "$(text "$printed")" '' "$command" d.img
    while read -r block offset wanted; do
        is "block $block of an old image, after $command" "$wanted" "$(part d.img $((8404992 + 4096 * block + offset)) $((${#wanted} / 2)))"
    done <<'ROWS'
0 0 0808
1 902 0909303132333435363738390909
10 4094 bfbf
19 0 c8c8
50 0 e7e7
159 0 5959
160 0 a8a8
200 98 29290000
203 98 00002c2c
399 0 f0f0
400 0 b7b7
655 4094 bbbb
700 0 0303
899 4094 caca
ROWS
    case $command in recover) first= ;; upgrade) first='layout 2' ;; esac
    ends "check of an old image, after $command" 0 "$(lines ${first:+"$first"} 'blocks 1024' 'mode 0' 'base 8' 'commands 8' 'data 824' 'zero 0' 'hole 200')" '' check d.img
done
rm -f d.img before.img

# --preallocate allocates every block of the file; without it the file has holes, if the file system has any.
held() { [ $(($(stat -c %b "$1") * 512)) -ge "$(stat -c %s "$1")" ] && echo whole || echo holes; }
truncate -s 4276224 sparse
ends 'format without --preallocate' 0 "$(text 'formatted 4276224')" '' format s.img --blocks 16 --area 2M
is 'the blocks of a file' "$(held sparse)" "$(held s.img)"
ends 'format --preallocate' 0 "$(text 'formatted 4276224')" '' format d.img --blocks 16 --area 2M --preallocate
is 'the blocks of a file that was preallocated' 'whole 4276224' "$(held d.img) $(stat -c %s d.img)"
same 'the bytes of a file that was preallocated' s.img d.img
checks 'check of a file that was preallocated' 16 0 0 0 0 0 16
ends 'recover a file that was preallocated' 0 "$(text 'commands 0')" '' recover d.img
differing 5000000 1 >d.img
ends 'format --preallocate over a longer file' 0 "$(text 'formatted 4276224')" '' format d.img --blocks 16 --area 2M --preallocate
same 'the bytes of a longer file that was preallocated' s.img d.img
is 'the blocks of a longer file that was preallocated' whole "$(held d.img)"
rm -f s.img sparse

# A format replaces a longer file and a shorter one.
ends 'format over a longer file' 0 "$(text 'formatted 4276224')" '' format d.img --blocks 16 --area 2097152
differing 5000000 1 >d.img
ends 'format over another longer file' 0 "$(text 'formatted 4276224')" '' format d.img --blocks 16 --area 2097152
checks 'check of the file that was longer' 16 0 0 0 0 0 16
tail -c 65536 d.img >found
filled 65536 '\000' >wanted
same 'the data of the file that was longer' wanted found

# While a pipe serves a file, nothing else opens it, and a format leaves every byte.
fresh 16 2097152
mkfifo requests replies
timeout 60 "$NBDJ" pipe d.img <requests >replies &
serving=$!
exec 3>requests 4<replies
{ request 0001 1 7 0 4096; filled 4096 G; } >&3
is 'a reply of the pipe that has the file' "$(reply 7 0)" "$(head -c 16 <&4 | hex)"
cp d.img before.img
for command in 'pipe d.img' 'recover d.img' 'check d.img' 'format d.img --blocks 16 --area 2097152' 'format d.img --size 1G'; do
    ends "$command of a file in use" 4 '' 'nbdj: d.img is in use' $command
    same "the file in use after $command" before.img d.img
done
ln -s d.img link.img
ends 'a link to a file in use' 4 '' 'nbdj: link.img is in use' check link.img
{ request 0001 1 8 4096 4096; filled 4096 H; request 0000 2 9 0 0; } >&3
exec 3>&-
wait $serving
is 'the end of the pipe that had the file' 0 $?
exec 4<&-
rm -f requests replies link.img
ends 'the file that was in use' 0 "$(text 'commands 2')" '' recover d.img
# Two checks share a file, and keep writers away while they run.
if command -v flock >/dev/null; then
    flock -s d.img "$NBDJ" check d.img >shared 2>&1
    is 'a check during a check' '0|blocks 16' "$?|$(head -n 1 shared)"
    flock -s d.img "$NBDJ" recover d.img >shared 2>&1
    is 'a recovery during a check' '4|nbdj: d.img is in use' "$?|$(cat shared)"
    flock -x d.img "$NBDJ" check d.img >shared 2>&1
    is 'a check during a server' '4|nbdj: d.img is in use' "$?|$(cat shared)"
else
    skipped 'locks that are shared' 'there is no flock'
fi
# `check` works on a file that is read-only.
chmod 444 d.img
ends 'check of a file that may only be read' 0 "$(printf 'blocks 16\nmode 0\nbase 2\ncommands 2\ndata 2\nzero 0\nhole 14\n' | hex)" '' check d.img
chmod 644 d.img
fresh 16 2097152
printf x >>d.img
unchanged 'one byte longer' 'nbdj: bad header (8)'
fresh 16 2097152
dd if=d.img of=d.img bs=4096 count=1 seek=1 conv=notrunc 2>/dev/null
unchanged 'two headers of one generation' 'nbdj: bad header (8)'
fresh 16 2097152
patch d.img 8 32
unchanged 'another magic' 'nbdj: bad header (8)'
fresh 16 2097152
patch d.img 0 00
unchanged 'a closed gate' 'nbdj: no header (7)'
fresh 16 2097152
patch d.img 4202496 03
unchanged 'a code 3 in the map' 'nbdj: bad map (6)'
fresh 16 2097152
patch d.img 32 ffffffffffffffff
ends 'the greatest base' 0 "$(text 'commands 18446744073709551615')" '' recover d.img
{ request 0000 1 1 0 4096; filled 4096 A; request 0000 2 2 0 0; } >input
ends 'no number is left' 0 "$(reply 1 28)" '' pipe d.img
: >input
fresh 16 2097152
patch d.img 8192 '01 0000000d 0000000000000001 00000001 02 0000000000000000 00000004 00'
checks 'check of a stored group' 16 0 0 1 0 0 16
cp d.img stored.img
ends 'a stored group' 0 "$(text 'commands 1')" '' recover d.img
checks 'check of the recovered group' 16 0 1 1 0 0 16
cp stored.img d.img
patch d.img 8205 00000000
unchanged 'a group of no commands' 'nbdj: damaged group (12)'
# (the length of its body is at 8193, its first number at 8197, the count at 8205, and its command from 8209 on)
for row in 'a body longer than the area|8193|00800000' 'a body longer than a group may be|8193|00800001' \
    'a body one byte below its command|8193|0000000c' 'a body one byte above its command|8193|0000000e' \
    'a body that ends within the head of a command|8193|00000005' 'an empty body|8193|00000000' \
    'another first number|8197|0000000000000002' 'one command more than there are|8205|00000002' \
    'a command of kind 0|8209|00' 'a command of kind 4 without its edges|8209|04' 'a command of kind 6|8209|06' \
    'a first block of 2^64 - 1|8210|ffffffffffffffff' 'one block past the image|8218|00000011'; do
    cp stored.img d.img
    patch d.img "$(printf '%s' "$row" | cut -d '|' -f 2)" "${row##*|}"
    unchanged "${row%%|*}" 'nbdj: damaged group (12)'
done
# grouped COMMAND COUNT: makes d.img, an image of 16 holes with one group, which has this command, in hex, with COUNT bytes of data after it
grouped() {
    fresh 16 2097152
    patch d.img 8192 "01 $(printf %08x $((${#1} / 2 + $2))) 0000000000000001 00000001 $1"
    differing "$2" 3 >data
    dd if=data of=d.img bs=1 seek=$((8209 + ${#1} / 2)) conv=notrunc 2>/dev/null
}
for row in 'no edges|04000000000000000000000002 00|0' 'edges 4|04000000000000000000000002 04|4096' \
    'a tail of one block|05000000000000000000000001 02|4096' 'a head and a tail of one block|05000000000000000000000001 03|8192' \
    'edges of no block|04000000000000000000000000 01|4096' 'a put of no block|01000000000000000000000000|0' \
    'a clear to zero of no block|03000000000000000000000000|0' 'a trim of no block after the end|02000000000000001100000000|0' \
    'an edge of 2,048 bytes|04000000000000000000000002 01|2048' 'edges past the image|04000000000000000f00000002 01|4096' \
    'a tail after the end of the body|05000000000000000e00000002 03|4096'; do
    command=${row#*|}
    grouped "$(printf '%s' "${command%|*}" | tr -d ' ')" "${row##*|}"
    unchanged "${row%%|*}" 'nbdj: damaged group (12)'
done
# (a row ends with the numbers of data blocks, zero blocks and holes after it)
for row in 'a trim of no block|02000000000000000f00000000|0|0 0 16' 'a trim of no block at the end|02000000000000001000000000|0|0 0 16' \
    'a clear to zero with a head and a tail|05000000000000000d00000003 03|8192|2 1 13' \
    'a clear of only two edges|05000000000000000e00000002 03|8192|2 0 14' 'a clear with a tail|04000000000000000e00000002 02|4096|1 0 15' \
    'a clear of one block that is its head|05000000000000000f00000001 01|4096|1 0 15'; do
    command=${row#*|}
    count=${command#*|}
    count=${count%|*}
    grouped "$(printf '%s' "${command%%|*}" | tr -d ' ')" "$count"
    checks "check of ${row%%|*}" 16 0 0 1 ${row##*|}
    ends "${row%%|*}" 0 "$(text 'commands 1')" '' recover d.img
    checks "check of ${row%%|*}, recovered" 16 0 1 1 ${row##*|}
    # (the data region is the end of the file)
    is "the last block after ${row%%|*}" "$(if [ "$count" -gt 0 ]; then tail -c 4096 data; else head -c 4096 /dev/zero; fi | hex)" "$(tail -c 4096 d.img | hex)"
done
# The head of a command is its first block.
grouped 05000000000000000d0000000303 8192
ends 'a clear whose head is recovered' 0 "$(text 'commands 1')" '' recover d.img
is 'the block of the head' "$(head -c 4096 data | hex)" "$(tail -c 12288 d.img | head -c 4096 | hex)"
# A put of as many blocks as a command may have, and of one more, inside the image.
fresh 300 2097152
patch d.img 8192 '01 0010100d 0000000000000001 00000001 01 0000000000000000 00000101'
checks 'check of a put of 257 blocks' 300 0 0 1 257 0 43
patch d.img 8192 '01 0010200d 0000000000000001 00000001 01 0000000000000000 00000102'
unchanged 'a put of 258 blocks' 'nbdj: damaged group (12)'
# The last number, and one past it.
fresh 16 2097152
patch d.img 32 fffffffffffffffe
patch d.img 8192 '01 0000000d ffffffffffffffff 00000001 02 0000000000000000 00000004 00'
checks 'check of the last number' 16 0 18446744073709551614 18446744073709551615 0 0 16
patch d.img 8192 '01 0000001a ffffffffffffffff 00000002 02 0000000000000000 00000004 02 0000000000000000 00000004 00'
unchanged 'a number past the last one' 'nbdj: damaged group (12)'
# The second group of an area, and a second area in use. The bytes of an area that isn't in use don't count.
cp stored.img d.img
patch d.img 8222 '01 0000000d 0000000000000002 00000001 03 0000000000000004 00000004 00'
checks 'check of two groups' 16 0 0 2 0 4 12
patch d.img 8235 00000000
unchanged 'a second group of no commands' 'nbdj: damaged group (12)'
cp stored.img d.img
patch d.img 2105344 '01 ffffffff ffffffffffffffff ffffffff'
checks 'check with an area that is not in use' 16 0 0 1 0 0 16
patch d.img 29 01
unchanged 'a damaged second area' 'nbdj: damaged group (12)'
patch d.img 2105344 '01 0000000d 0000000000000002 00000001 03 0000000000000004 00000004 00'
checks 'check of two areas' 16 1 0 2 0 4 12
# An area that is too small, in a file of the right length for it, and a file that is one byte too short.
fresh 16 2097152
patch d.img 25 001fe000
head -c 4259840 d.img >shorter && mv shorter d.img
unchanged 'an area below the least' 'nbdj: bad header (8)'
fresh 16 2097152
head -c 4276223 d.img >shorter && mv shorter d.img
unchanged 'one byte shorter' 'nbdj: bad header (8)'
# The order of refusals: a bad header before a bad map, and a bad map before a damaged group.
cp stored.img d.img
patch d.img 8205 00000000
patch d.img 4202496 03
unchanged 'a bad map over a damaged group' 'nbdj: bad map (6)'
printf x >>d.img
unchanged 'a bad header over a bad map' 'nbdj: bad header (8)'

# Wrong values in each field of a header and in a map, as offset and bytes.
for row in 'another magic at its first byte|1|00' 'no blocks|24|00' 'a block more|24|11' 'an area of 2 GiB|25|80' \
    'an area that is no multiple|28|01' 'two areas too many in use|29|02' 'a third first area|30|02' 'a third map slot|31|02' 'blocks past all limits|17|01'; do
    fresh 16 2097152
    patch d.img "$(printf '%s' "$row" | cut -d '|' -f 2)" "${row##*|}"
    unchanged "${row%%|*}" 'nbdj: bad header (8)'
done
for row in 'a state after the last block|4202500|01' 'a state at the end of a map slot|4206591|40'; do
    fresh 16 2097152
    patch d.img "$(printf '%s' "$row" | cut -d '|' -f 2)" "${row##*|}"
    unchanged "${row%%|*}" 'nbdj: bad map (6)'
done
# Two areas in use that are both empty.
fresh 16 2097152
patch d.img 29 01
checks 'check of two empty areas' 16 1 0 0 0 0 16
ends 'two empty areas' 0 "$(text 'commands 0')" '' recover d.img
# Headers of layout 2, in slot 1 of an upgraded device: areas in use, first area, map slot, bytes of an area, magic, generation and blocks; and the
# generation of the header of layout 1 in slot 0. Each row ends with the layout and mode that are found, or nothing if the header is bad.
"$NBDJ" format upgraded.img --blocks 16 --area 4194304 >/dev/null
"$NBDJ" upgrade upgraded.img >/dev/null
while IFS='|' read -r offset put layout mode; do
    cp upgraded.img d.img
    patch d.img "$offset" "$put"
    if [ -z "$layout" ]; then
        unchanged "$put at $offset of an upgraded device" 'nbdj: bad header (8)'
    else
        found=$("$NBDJ" check d.img | grep -e layout -e mode -e hole | tr '\n' ' ')
        is "$put at $offset of an upgraded device" "$([ "$layout" = 1 ] || echo "layout $layout ")mode $mode hole 16 " "$found"
        ends "recovery of $put at $offset of an upgraded device" 0 "$(text 'commands 0')" '' recover d.img
    fi
done <<'ROWS'
4125|00000000||
4125|05000000||
4125|04000000|2|3
4125|01040000||
4125|01030000|2|0
4125|02030000|2|1
4125|01000200||
4121|00201000||
4121|00100000||
4121|00200800||
4121|00400000||
4101|524e4c33||
4101|524e4c31||
13|00000002||
13|00000003|1|0
4117|00000011||
4117|00000000||
ROWS
# Three areas in use, each with one group: a change in one of them, and how many commands are found, or nothing if a group is damaged. The changes
# are none, the number of the third group, the gates of the second and the third, an area that isn't in use, and a length that only fits an area
# of layout 1.
patch upgraded.img 4125 03
patch upgraded.img 8192 '01 0000000d 0000000000000001 00000001 03 0000000000000000 00000001 00'
patch upgraded.img 2105344 '01 0000000d 0000000000000002 00000001 03 0000000000000001 00000001 00'
patch upgraded.img 4202496 '01 0000000d 0000000000000003 00000001 03 0000000000000002 00000001 00'
while IFS='|' read -r offset put commands; do
    cp upgraded.img d.img
    patch d.img "$offset" "$put"
    if [ -z "$commands" ]; then
        unchanged "$put at $offset of three areas" 'nbdj: damaged group (12)'
    else
        is "$put at $offset of three areas" "commands $commands zero $commands " "$("$NBDJ" check d.img | grep -e commands -e zero | tr '\n' ' ')"
        ends "recovery of $put at $offset of three areas" 0 "$(text "commands $commands")" '' recover d.img
    fi
done <<'ROWS'
8192|01|3
4202505|00000004|
2105344|00000010|
4202496|00000010|2
6299648|01ffffff|3
4202497|001fffef|
ROWS
rm -f upgraded.img

# Streams that end early: nothing is answered and nothing accepted.
fresh 16 2097152
{ request 0000 1 1 0 4096; filled 4096 A; } >whole
for count in 0 1 27 28 128 4123; do
    head -c "$count" whole >input
    ends "a stream of $count bytes" 1 '' 'nbdj: peer closed (19)' pipe d.img
done
: >input
ends 'after the short streams' 0 "$(text 'commands 0')" '' recover d.img

# Validation: each request with the error of its reply.
{
    request 0000 1 1 61440 4096; filled 4096 A
    request 0000 1 2 61440 8192; filled 8192 A
    bytes '25609513 0000 0001 0000000000000003 fffffffffffff000 00001000'; filled 4096 A
    request 0000 1 4 61441 4096; filled 4096 A
    request 0000 1 5 65536 1; filled 1 A
    request 0000 1 6 0 0
    request 0002 1 7 0 4096; filled 4096 A
    request 0000 3 8 4096 0
    request 0000 3 9 0 4096
    request 0001 3 10 0 0
    request 0000 0 11 61440 8192
    request 0000 5 12 0 0
    request 0000 99 13 0 0
    request 0000 1 14 0 1052672; filled 1052672 A
    request ffff 2 15 9 9
    request 0000 1 16 0 4096; filled 4096 A
} >input
replies="$(reply 1 0)$(reply 2 28)$(reply 3 28)$(reply 4 28)$(reply 5 28)$(reply 6 22)$(reply 7 22)$(reply 8 22)$(reply 9 22)"
replies="$replies$(reply 10 0)$(reply 11 22)$(reply 12 22)$(reply 13 22)$(reply 14 22)"
ends 'judgement' 0 "$replies" '' pipe d.img
: >input
ends 'after the judgement' 0 "$(text 'commands 1')" '' recover d.img

# Requests that end the session.
{ request 0000 1 1 0 4096; filled 4096 A; bytes 25609514; filled 24 '\000'; } >input
ends 'a wrong magic' 1 "$(reply 1 0)" 'nbdj: protocol end (20)' pipe d.img
request 0000 1 1 0 33554433 >input
ends 'a WRITE that is too long' 1 '' 'nbdj: protocol end (20)' pipe d.img
: >input
ends 'after the closed streams' 0 "$(text 'commands 2')" '' recover d.img

# One group of 41 commands, and the next gate after it.
fresh 64 2097152
{
    number=1
    while [ $number -le 40 ]; do
        request 0000 1 $number $((4096 * number)) 4096
        filled 4096 B
        number=$((number + 1))
    done
    request 0001 1 41 0 4096
    filled 4096 C
    request 0000 2 42 0 0
} >input
run pipe d.img
is '41 commands' "0|656|" "$status|$((${#output} / 2))|$errors"
is 'the head of their group' 010002921500000000000000010000002901000000000000000100000001 "$(part d.img 8192 30)"
is 'the gate after it' 00 "$(part d.img $((8192 + 168486)) 1)"
: >input
checks 'check of the group' 64 0 0 41 41 0 23
ends 'commands of the group' 0 "$(text 'commands 41')" '' recover d.img
checks 'check of the group in the image' 64 0 41 41 41 0 23
# A recovery by a checkpoint: two headers later only the second area is in use, map slot 1 has the states, and the blocks are in the data region.
is 'the header after the recovery' 014e42444a524e4c3100000000000000030000000000000040002000000001010000000000000029 "$(part d.img 0 40)"
is 'the map after the recovery' aaaaaaaaaaaaaaaaaaaa0200000000000000 "$(part d.img $((8192 + 2 * 2097152 + 4096)) 18)"
data=$((8192 + 2 * 2097152 + 2 * 4096))
{ filled 4096 C; filled 163840 B; filled 94208 '\000'; } >wanted
tail -c "+$((data + 1))" d.img >found
same 'the blocks after the recovery' wanted found
ends 'a recovered device again' 0 "$(text 'commands 41')" '' recover d.img

# The groups of requests of bytes, from their first gate to the next. A block that is covered in part goes into the group with its old bytes,
# except if it isn't data and bytes become zero, and except for a trim.
# stands NAME PLACE: d.img has the bytes of `wanted` from this place on
stands() {
    tail -c "+$(($2 + 1))" d.img | head -c "$(wc -c <wanted)" >found
    same "$1" wanted found
}
# slice FILE FROM COUNT: a part of a file
slice() { tail -c "+$(($2 + 1))" "$1" | head -c "$3"; }
differing 12288 7 >data

fresh 16 2097152
{ request 0000 1 1 4000 200; slice data 0 200; request 0000 2 2 0 0; } >input
ends 'a write over two holes' 0 "$(reply 1 0)" '' pipe d.img
{ bytes '01 0000200d 0000000000000001 00000001 01 0000000000000000 00000002'; filled 4000 '\000'; slice data 0 200; filled 3993 '\000'; } >wanted
stands 'the group of a write over two holes' 8192

fresh 16 2097152
{ request 0000 4 1 61441 4095; request 0000 2 2 0 0; } >input
ends 'a trim of less than a block' 0 "$(reply 1 0)" '' pipe d.img
bytes '01 0000000d 0000000000000001 00000001 02 000000000000000f 00000000 00' >wanted
stands 'the group of a trim of less than a block' 8192

fresh 16 2097152
{ request 0000 1 1 4096 4096; slice data 0 4096; request 0002 6 2 4000 200; request 0000 2 3 0 0; } >input
ends 'zeroes that end in data' 0 "$(reply 1 0)$(reply 2 0)" '' pipe d.img
{
    bytes '01 0000201b 0000000000000001 00000002 01 0000000000000001 00000001'
    slice data 0 4096
    bytes '05 0000000000000000 00000002 02'
    filled 104 '\000'
    slice data 104 3992
    bytes 00
} >wanted
stands 'the group of zeroes that end in data' 8192

fresh 16 2097152
{ request 0000 1 1 20480 4096; slice data 4096 4096; request 0002 6 2 20500 100; request 0000 2 3 0 0; } >input
ends 'zeroes inside a block' 0 "$(reply 1 0)$(reply 2 0)" '' pipe d.img
{
    bytes '01 0000201b 0000000000000001 00000002 01 0000000000000005 00000001'
    slice data 4096 4096
    bytes '05 0000000000000005 00000001 01'
    slice data 4096 20
    filled 100 '\000'
    slice data 4216 3976
    bytes 00
} >wanted
stands 'the group of zeroes inside a block' 8192

# Old bytes from the device go into the group, which stands in the second area after the recovery.
fresh 16 2097152
{ request 0000 1 1 0 4096; slice data 8192 4096; request 0000 2 2 0 0; } >input
ends 'a block for the next session' 0 "$(reply 1 0)" '' pipe d.img
{ request 0000 1 1 100 200; slice data 0 200; request 0000 2 2 0 0; } >input
ends 'a write into a block of the session before' 0 "$(reply 1 0)" '' pipe d.img
{
    bytes '01 0000100d 0000000000000002 00000001 01 0000000000000000 00000001'
    slice data 8192 100
    slice data 0 200
    slice data 8492 3796
    bytes 00
} >wanted
stands 'the group of a write into a block of the session before' 2105344

# Zeroes between two blocks that stay data; a checkpoint copies both, and the block between them is a hole.
fresh 16 2097152
{ request 0000 1 1 0 12288; cat data; request 0000 6 2 100 8192; request 0000 2 3 0 0; } >input
ends 'zeroes between data' 0 "$(reply 1 0)$(reply 2 0)" '' pipe d.img
{
    bytes '01 0000501b 0000000000000001 00000002 01 0000000000000000 00000003'
    cat data
    bytes '04 0000000000000000 00000003 03'
    slice data 0 100
    filled 4096 '\000'
    slice data 8292 3996
    bytes 00
} >wanted
stands 'the group of zeroes between data' 8192
: >input
checks 'check of zeroes between data' 16 0 0 2 2 0 14
ends 'zeroes between data, recovered' 0 "$(text 'commands 2')" '' recover d.img
{ slice data 0 100; filled 8192 '\000'; slice data 8292 3996; } >wanted
stands 'the blocks of zeroes between data' $((8192 + 2 * 2097152 + 2 * 4096))
is 'the map of zeroes between data' 22000000 "$(part d.img $((8192 + 2 * 2097152 + 4096)) 4)"

# READs of written bytes, of a hole with FUA, past the end, with DF, a BLOCK_STATUS, READs up to 2^64, too long and of no byte; then READs after
# an opening.
fresh 16 2097152
differing 8192 5 >data
{
    request 0000 1 1 4096 8192; cat data
    request 0000 0 2 8192 4096
    request 0001 0 3 0 4096
    request 0000 0 4 61440 8192
    request 0004 0 5 0 4096
    request 0000 7 6 0 4096
    request 0000 0 7 65535 2
    request 0000 0 8 65536 4096
    bytes '25609513 0000 0000 0000000000000009 fffffffffffff000 00001000'
    request 0000 0 10 0 1052672
    request 0000 0 11 512 0
    request 0000 2 12 0 0
} >input
refused=$(for cookie in 4 5 6 7 8 9 10 11; do reply $cookie 22; done)
ends 'reads' 0 "$(reply 1 0)$(reply 2 0)$(part data 4096 4096)$(reply 3 0)$(filled 4096 '\000' | hex)$refused" '' pipe d.img
{ request 0000 0 1 4096 8192; request 0000 2 2 0 0; } >input
ends 'reads of an opened device' 0 "$(reply 1 0)$(hex <data)" '' pipe d.img
: >input

# Four blocks are written; the second becomes a hole by TRIM, the third allocated zero by WRITE_ZEROES with NO_HOLE, and the fourth a hole by
# WRITE_ZEROES.
fresh 16 2097152
{
    request 0000 1 1 0 16384; filled 16384 D
    request 0000 4 2 4096 4096
    request 0002 6 3 8192 4096
    request 0001 6 4 12288 4096
    request 0002 4 5 0 4096
    request 0000 4 6 61440 8192
    request 0000 6 7 61440 8192
    request 0000 2 8 0 0
} >input
ends 'clears' 0 "$(reply 1 0)$(reply 2 0)$(reply 3 0)$(reply 4 0)$(reply 5 22)$(reply 6 22)$(reply 7 28)" '' pipe d.img
: >input
checks 'check of the clears' 16 0 0 4 1 1 14
ends 'after the clears' 0 "$(text 'commands 4')" '' recover d.img
data=$((8192 + 2 * 2097152 + 2 * 4096))
{ filled 4096 D; filled 61440 '\000'; } >wanted
tail -c "+$((data + 1))" d.img >found
same 'the blocks after the clears' wanted found

# A written block, zeroes that keep their place, and a hole: two bits each, from the lowest on.
fresh 16 2097152
{ request 0000 1 1 0 4096; filled 4096 A; request 0002 6 2 4096 4096; request 0000 2 3 0 0; } >input
ends 'data, zeroes and a hole' 0 "$(reply 1 0)$(reply 2 0)" '' pipe d.img
: >input
ends 'data, zeroes and a hole, recovered' 0 "$(text 'commands 2')" '' recover d.img
is 'the map of data, zeroes and a hole' 06000000 "$(part d.img $((8192 + 2 * 2097152 + 4096)) 4)"

# Requests of any bytes, in one stream, and READs after an opening. A write of bytes 4,000 to 4,199 is a put of blocks 0 and 1. Zeroes over bytes
# 100 to 8,291 of three data blocks clear the block between, and leave both edges data. The first trim covers no whole block, and has a number too.
fresh 16 2097152
differing 12288 3 >data
{ head -c 4000 /dev/zero; filled 200 A; head -c 3992 /dev/zero; head -c 100 data; head -c 8192 /dev/zero; tail -c 3996 data; } >wanted
reads=''
for range in '0 8192' '8192 12288' '4000 200' '4095 2' '3999 1' '8291 2' '16483 2' '20479 1'; do reads="$reads $range"; done
asks() {
    cookie=20
    set -- $reads
    while [ $# -gt 0 ]; do
        request 0000 0 $cookie "$1" "$2"
        cookie=$((cookie + 1))
        shift 2
    done
    request 0000 2 $cookie 0 0
}
answers() {
    cookie=20
    set -- $reads
    while [ $# -gt 0 ]; do
        reply $cookie 0
        part wanted "$1" "$2"
        cookie=$((cookie + 1))
        shift 2
    done
}
{
    request 0000 1 1 4000 200; filled 200 A
    request 0000 1 2 8192 12288; cat data
    request 0001 6 3 8292 8192
    request 0000 4 4 8193 8190
    request 0000 4 5 65535 1
    request 0000 6 6 5 0
    asks
} >input
ends 'requests of any bytes' 0 "$(reply 1 0)$(reply 2 0)$(reply 3 0)$(reply 4 0)$(reply 5 0)$(reply 6 22)$(answers)" '' pipe d.img
: >input
checks 'check of requests of any bytes' 16 0 0 5 4 0 12
is 'the edges of the zeroes' "04000000000000000200000003$(printf 03)$(part data 0 100)$(filled 3996 '\000' | hex)$(filled 100 '\000' | hex)$(part data 8292 3996)" \
    "$(part d.img $((8192 + 17 + 13 + 8192 + 13 + 12288)) 8206)"
asks >input
ends 'reads of any bytes of an opened device' 0 "$(answers)" '' pipe d.img
rm -f data wanted
: >input

# A full journal is emptied: the first write is copied into the image, and the second one stored.
fresh 256 2097152
{
    request 0001 1 1 0 1048576; filled 1048576 D
    request 0001 1 2 524288 524288; filled 524288 E
    request 0001 1 3 0 524288; filled 524288 F
    request 0000 2 4 0 0
} >input
ends 'a full journal' 0 "$(reply 1 0)$(reply 2 0)$(reply 3 0)" '' pipe d.img
: >input
checks 'check of the journal that was full' 256 0 2 3 256 0 0
ends 'after the full journal' 0 "$(text 'commands 3')" '' recover d.img
data=$((8192 + 2 * 2097152 + 2 * 4096))
{ filled 524288 F; filled 524288 E; } >wanted
tail -c "+$((data + 1))" d.img >found
same 'the blocks after the full journal' wanted found

# If no frame is left, what is stored is copied into the image, and its frames are free again.
fresh 1024 4194304
{
    request 0000 1 1 0 1048576; filled 1048576 F
    request 0000 1 2 1048576 1048576; filled 1048576 G
    request 0000 1 3 0 4096; filled 4096 H
    request 0000 1 4 2097152 4096; filled 4096 I
    request 0000 2 5 0 0
} >input
ends 'no frames left' 0 "$(reply 1 0)$(reply 2 0)$(reply 3 0)$(reply 4 0)" '' pipe d.img --frames 512
: >input
checks 'check after no frames left' 1024 0 3 4 513 0 511
ends 'after no frames left' 0 "$(text 'commands 4')" '' recover d.img
data=$((8192 + 2 * 4194304 + 2 * 4096))
{ filled 4096 H; filled 1044480 F; filled 1048576 G; filled 4096 I; filled 2093056 '\000'; } >wanted
tail -c "+$((data + 1))" d.img >found
same 'the blocks after no frames left' wanted found

# A full journal when no generation is left for another header: the answered write is found.
fresh 256 2097152
patch d.img 9 ffffffffffffffff
{
    request 0001 1 1 0 1048576; filled 1048576 D
    request 0001 1 2 0 1048576; filled 1048576 E
} >input
ends 'no generation left' 1 "$(reply 1 0)" 'nbdj: numbers full (9)' pipe d.img
: >input
checks 'check after no generation left' 256 0 0 1 256 0 0
ends 'after no generation left' 1 '' 'nbdj: numbers full (9)' recover d.img

# A reply is written before the program waits for the next request.
fresh 16 2097152
mkfifo requests replies
timeout 20 "$NBDJ" pipe d.img --cache writethrough <requests >replies &
exec 3>requests 4<replies
{ request 0000 1 7 0 4096; filled 4096 G; } >&3
is 'a reply in time' "$(reply 7 0)" "$(head -c 16 <&4 | hex)"
is 'stored before its reply' 01 "$(part d.img 8192 1)"
request 0000 2 8 0 0 >&3
exec 3>&-
wait $!
is 'the end of the conversation' 0 $?
exec 4<&-

# In ordered a FLUSH makes nothing durable, and neither does FUA: both are answered at once, and everything is stored at the end.
fresh 16 2097152
timeout 20 "$NBDJ" pipe d.img --cache ordered <requests >replies &
exec 3>requests 4<replies
{ request 0001 1 7 0 4096; filled 4096 G; request 0000 3 8 0 0; } >&3
is 'a flush in ordered' "$(reply 7 0)$(reply 8 0)" "$(head -c 32 <&4 | hex)"
is 'not stored before its reply' 00 "$(part d.img 8192 1)"
request 0000 2 9 0 0 >&3
exec 3>&-
wait $!
is 'the end of the conversation in ordered' 0 $?
exec 4<&-
: >input
ends 'stored at the end in ordered' 0 "$(text 'commands 1')" '' recover d.img

# A stream that can't be written.
if [ -w /dev/full ]; then
    fresh 16 2097152
    "$NBDJ" pipe d.img <whole >/dev/full 2>errors
    is 'a full output' '1|nbdj: stream fault (21)' "$?|$(cat errors)"
    told
    : >input
    ends 'after the full output' 0 "$(text 'commands 1')" '' recover d.img
else
    skipped 'a stream that cannot be written' 'there is no /dev/full'
fi

# The largest image with the largest areas, if the file system allows a file of 66 GiB with holes: it is formatted and opened in little memory, for
# its map of 4 MiB and not for its data or its journal.
if dd if=/dev/null of=large.img bs=1 seek=70875357184 2>/dev/null; then
    rm -f large.img
    is 'the largest image' 'formatted 70875357184' "$(ulimit -v 65536 && "$NBDJ" format large.img --blocks 16777216 --area 1073741824 2>&1)"
    is 'the header of the largest image' 014e42444a524e4c3100000000000000010000000001000000 "$(part large.img 0 25)"
    is 'the largest image again' 'commands 0' "$(ulimit -v 65536 && "$NBDJ" recover large.img 2>&1)"
    rm -f large.img
else
    skipped 'the largest image' 'the file system allows no file of 66 GiB with holes'
fi

# The scripts of docs/FORMATS.md print what it says.
block() { awk -v kind="$1" -v k="$2" '$0 == "```" kind { n++; on = n == k; next } /^```/ { on = 0 } on' "$here/docs/FORMATS.md"; }
for k in 1 2 3; do
    block script "$k" >input
    ends "script $k of the page" 0 "$(block prints "$k" | hex)" '' rehearse
done

# The scripts of tests/scripts print what stands there.
scripts=0
for script in "$here"/tests/scripts/*.in; do
    cp "$script" input || continue
    ends "script $(basename "$script")" 0 "$(hex <"${script%.in}.out")" '' rehearse
    scripts=$((scripts + 1))
done
is 'there are scripts' yes "$([ "$scripts" -gt 0 ] && echo yes)"

# READs of more blocks than there are frames leave the last ones in memory: 513 of 1,024 blocks are read over 512 frames. Then the next device
# read fails: blocks 1 and 512 are read from memory, and block 0 isn't.
{
    echo 'format 1024 8388608 512'
    for first in 0 256 512 768; do
        printf '%s\n' "send 1 put $first 256 41" 'serve 1' 'answer 1' seal append publish rotate 'copy 512' map finish clean
    done
    echo 'crash new'
    for block in $(seq 0 512); do printf '%s\n' "send 1 read $block 1" 'serve 1' 'answer 1'; done
    echo 'fault read 1'
    for block in 1 512 0; do printf '%s\n' "send 1 read $block 1" 'serve 1' 'answer 1'; done
} >input
run rehearse
is 'reads of more blocks than frames' '0||513 answer 1 bytes 41' "$status|$errors|$("$NBDJ" rehearse <input | sed -n '/^run/,/^armed/p' | grep -c 'answer 1 bytes 41') answer 1 bytes 41"
is 'the blocks in memory then' "$(printf '%s\n' armed 'answer 1 bytes 41' 'answer 1 bytes 41' 'answer 1 error 5')" "$("$NBDJ" rehearse <input | sed -n '/^armed/,$p' | grep -v done)"
# Three runs of blocks that aren't in memory are three device reads; later READs of them need none.
{
    printf '%s\n' 'format 1024 8388608 512' 'send 1 put 0 256 41' 'serve 1' 'answer 1' seal append publish 'crash new'
    for range in '1 1' '3 2'; do printf '%s\n' "send 1 read $range" 'serve 1' 'answer 1'; done
    echo 'fault read 4'
    for range in '0 8' '0 8' '8 1'; do printf '%s\n' "send 1 read $range" 'serve 1' 'answer 1'; done
} >input
is 'a read of three runs' "$(printf '%s\n' armed 'answer 1 bytes 41 41 41 41 41 41 41 41' 'answer 1 bytes 41 41 41 41 41 41 41 41' 'answer 1 error 5')" \
    "$("$NBDJ" rehearse <input | sed -n '/^armed/,$p' | grep -v done)"
: >input

# Layout 2 in scripts: areas that would be too small, and how many commands fit into a group. Its body has at most the bytes of an area less 18, and
# at most 8,388,608: 7 puts of 1 MiB, one of a block less, and 308 clears of 13 bytes.
printf '%s\n' 'format 16 4186112 512 layout2' 'crash ff' >input
ends 'a script with small areas' 1 "$(text 'failed 22')" '' rehearse
printf '%s\n' 'format 16 2097152 512' 'send 1 put 0 1 41' 'serve 1' 'answer 1' seal append publish upgrade 'crash ff' >input
ends 'an upgrade of small areas in a script' 1 "$(lines done done done 'answer 1 ok' done done done 'failed 22')" '' rehearse
many() {
    awk -v format="$1" 'function ask(what) { print "send 1 " what; print "serve 1"; print "answer 1" }
        BEGIN {
            print format
            for (k = 0; k < 7; k++) ask("put 0 256 41")
            ask("put 0 255 42")
            for (k = 0; k < 308; k++) ask("clear hole 0 1")
            print "seal"; print "append"; print "publish"; print "crash 00"
        }'
}
while read -r area layout commands; do
    case $layout in .) many 'format 256 16777216 512' ;; *) many "format 256 16777216 512 $layout" ;; esac >input
    run rehearse
    is "the commands of a group in areas of $area" "0|$(printf 'opened %s\nrun 0 1 h 00\nrun 1 254 d 42\nrun 255 1 d 41' "$commands")|" "$status|$(tail -n 4 output)|$errors"
done <<'ROWS'
16M . 315
8M layout2 313
ROWS

# An area of 2 MiB is filled to its last byte: a group's body of 2,097,134 bytes fits, the last byte of the area is the next gate, and nothing
# more fits. Of commands with a byte more the last one stays pending.
filled_area() {
    awk -v second="$1" -v clears="$2" 'function ask(what) { print "send 1 " what; print "serve 1"; print "answer 1" }
        BEGIN {
            print "format 256 2097152 512"
            ask("put 0 256 41")
            ask("put 0 " second " 42")
            for (k = 0; k < clears; k++) ask("clear hole 0 1")
            print "seal"; print "append"; print "publish"
            ask("clear hole 1 1")
            print "seal"; print "append"; print "crash 00"
        }'
}
while read -r second clears commands; do
    filled_area "$second" "$clears" >input
    run rehearse
    is "an area with puts of 256 and $second blocks and $clears clears" "0|$(printf 'done\nheld\nopened %s' "$commands")|" "$status|$(grep -B 2 '^opened' output)|$errors"
done <<'ROWS'
251 1572 1574
252 1257 1258
ROWS

# Second lines of a script that are no step, and first lines that are no format.
while IFS= read -r line; do
    printf 'format 16 2097152 512\n%s\nseal\n' "$line" >input
    ends "no step: '$line'" 2 "$(text 'done')" 'nbdj: line 2: not a step' rehearse
done <"$here/tests/scripts/no_steps"
while IFS= read -r line; do
    printf '%s\nseal\n' "$line" >input
    ends "no format: '$line'" 2 '' 'nbdj: line 1: not a step' rehearse
done <"$here/tests/scripts/no_formats"
: >input
ends 'an empty script' 2 '' 'nbdj: line 1: not a step' rehearse

# The output of a line is written before the program waits for the next line.
mkfifo lines told
timeout 20 "$NBDJ" rehearse <lines >told &
exec 3>lines 4<told
echo 'format 16 2097152 512' >&3
is 'a line in time' done "$(head -n 1 <&4)"
exec 3>&-
wait $!
is 'the end of the script' 0 $?
exec 4<&-

# Installation into a folder, also by a relative path with a space, and as a package; and what the systemd unit runs, with a socket.
"$here/tools/install" --prefix 'in stalled'
is 'the installed program' "nbdj $version" "$('in stalled/bin/nbdj' --version)"
is 'the installed man pages' 'man1/nbdj-server.1 man1/nbdj.1 man8/nbdj-standby.8' "$(cd 'in stalled/share/man' && LC_ALL=C sh -c 'echo man?/*')"
is 'the installed completion' yes "$([ -s 'in stalled/share/bash-completion/completions/nbdj' ] && echo yes)"
unit='in stalled/lib/systemd/system/nbdj@.service'
is 'the program of the unit' "ExecStart=\"$folder/in stalled/bin/nbdj-server\"" "$(sed -n 's/^\(ExecStart="[^"]*"\) .*/\1/p' "$unit")"
is 'the program of the unit of a takeover' "\"$folder/in stalled/bin/nbdj-standby\" /srv/nbdj/%i.img \${ADDRESS}" \
    "$(sed -n 's/^ExecStart=\(.*ADDRESS}\).*/\1/p' 'in stalled/lib/systemd/system/nbdj-failover@.service')"
same 'the installed options of a volume' "$here/packaging/failover.volume" 'in stalled/share/nbdj/failover.volume'
is 'the installed unit of the socket' 'ListenStream=/run/nbdj-%i/socket' "$(grep ListenStream= "${unit%.service}.socket")"
fresh 16 2097152
mkdir run
if command -v systemd-socket-activate >/dev/null; then
    timeout 20 systemd-socket-activate -l "$folder/run/socket" \
        sh -c "exec $(sed -n 's/^ExecStart=//p' "$unit" | sed "s|/var/lib/nbdj/%i.img|$folder/d.img|")" >printed 2>errors &
    serving=$!
    is 'the unit: a client' NBDMAGIC "$(python3 -c '
import socket, sys, time
client = socket.socket(socket.AF_UNIX)
client.settimeout(15)
for _ in range(200):
    try:
        client.connect(sys.argv[1])
        break
    except OSError:
        time.sleep(0.05)
print(client.recv(8).decode())' "$folder/run/socket")"
    is 'the unit: nothing is printed' '' "$(cat printed)"
    kill "$serving"
    wait "$serving"
    is 'the unit: the end' "0|nbdj: $folder/d.img: recovered 0 commands|yes" "$?|$(sed -n 's/ in [0-9].*//; /: recovered /p' errors)|$([ -e run/socket ] && echo yes || echo no)"
else
    skipped 'what the unit runs' 'systemd-socket-activate is not installed'
fi
if command -v systemd-analyze >/dev/null; then
    cp "$unit" nbdj@data.service
    sed -i 's|^ExecStart="[^"]*"|ExecStart=/bin/true|' nbdj@data.service
    is 'the unit: its exposure is below 3' 0 "$(systemd-analyze security --offline=true --threshold=29 --no-pager ./nbdj@data.service >printed 2>&1; echo $?)"
else
    skipped 'the exposure of the unit' 'systemd-analyze is not installed'
fi
"$here/tools/install" --prefix 'in stalled' --uninstall
is 'what is left of what was installed' '' "$(find 'in stalled' -type f)"
is 'the help of tools/install' '0|usage: ' "$("$here/tools/install" --help >printed; echo "$?|$(head -c 7 printed)")"
is 'a prefix of other characters' 2 "$("$here/tools/install" --prefix 'a|b' 2>errors; echo $?)"
# completed FUNCTION WORD..: what bash offers for the last word
ln -s "$NBDJ" nbdj
completed() {
    bash -c '. "$1"; function=$2; shift 2; COMP_WORDS=("$@"); COMP_CWORD=$(($# - 1)); "$function"; echo "${COMPREPLY[*]}"' \
        bash "$here/packaging/nbdj.bash" "$@"
}
is 'what is completed: no option of another command' '' "$(completed _nbdj "$folder/nbdj" status --status)"
is 'what is completed: an option' '--store' "$(completed _nbdj "$folder/nbdj" status --sto)"
is 'what is completed: of nbdj-server' '--on-fault --on-full' "$(completed _nbdj_server "$folder/nbdj-server" d.img --on-f)"
is 'what is completed: a value' 'wait' "$(completed _nbdj_server "$folder/nbdj-server" d.img --on-full w)"
is 'what is completed: nothing that is refused' '' "$(completed _nbdj_server "$folder/nbdj-server" d.img --until)"
if command -v dpkg-deb >/dev/null; then
    package=$("$here/tools/package-deb" "$folder/package" 2>errors)
    dpkg-deb -x "$package" unpacked
    is 'the program of the package' "nbdj $version" "$(unpacked/usr/bin/nbdj --version)"
    is 'what the package needs' 'libc6 (>= 2.34)' "$(dpkg-deb -f "$package" Depends)"
    is 'the pages of the package' 'CHANGELOG.md.gz FAILOVER.md FORMATS.md GUIDE.md changelog.gz copyright' \
        "$(LC_ALL=C ls unpacked/usr/share/doc/nbdj | grep -v ORDERED | paste -s -d ' ')"
    mkdir fakes
    printf '#!/bin/sh\nexit 2\n' >fakes/getent
    printf '#!/bin/sh\necho "$@" >%s/made\n' "$folder" >fakes/useradd
    printf '#!/bin/sh\n' >fakes/systemctl
    chmod +x fakes/*
    dpkg-deb -e "$package" control
    is 'the user without systemd' '0|nbdj' "$(PATH=$folder/fakes /bin/sh control/postinst configure; echo "$?|$(sed 's/.* //' made)")"
    if command -v lintian >/dev/null; then
        is 'lintian finds no error in the package' '' "$(lintian "$package" 2>errors | grep '^E:')"
    else
        skipped 'lintian over the package' 'lintian is not installed'
    fi
    is 'the package tells systemd of its unit' yes "$(dpkg-deb -I "$package" postinst | grep -q 'systemctl daemon-reload' && echo yes)"
    if command -v man >/dev/null; then
        for page in man1/nbdj.1 man1/nbdj-server.1 man8/nbdj-standby.8; do
            is "the man page of the package: $page" 0 "$(man -l "unpacked/usr/share/man/$page.gz" >printed 2>&1 </dev/null; echo $?)"
        done
    else
        skipped 'the man pages of the package' 'man is not installed'
    fi
else
    skipped 'the package' 'dpkg-deb is not installed'
fi

the_end
