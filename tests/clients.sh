#!/bin/sh
# Checks of `nbdj serve` of the built program NBDJ with other projects' clients: libnbd's (nbdinfo, nbdcopy, nbdfuse, and its library under
# tests/libnbd_client.py), QEMU's (qemu-img, qemu-io), fio, nbdkit as a proxy, nbd-client, and Linux's ext4 over nbdfuse. None has an option
# that sets block sizes. For each that writes, the server is also killed: what a FLUSH had confirmed has to be there. A client that isn't
# installed is skipped, and a line says so; tools/install-clients installs Debian's packages. The last line is 'N passed, M failed'.
set -u
here=$(CDPATH='' cd "$(dirname "$0")/.." && pwd)
. "$here/tests/checks.sh"
SIZE=67108864 HALF=33554432 AREA=8388608
mounted='' loop='' fuse='' attached='' server=''

# Cleans up, also after a run that is stopped: mounts first, because they use the server.
release() {
    [ -z "$mounted" ] || umount "$mounted" 2>/dev/null
    [ -z "$loop" ] || losetup -d "$loop" 2>/dev/null
    [ -z "$fuse" ] || umount -l "$fuse" 2>/dev/null
    [ -z "$attached" ] || nbd-client -d "$attached" >/dev/null 2>&1
    [ -z "$server" ] || kill -9 "$(cat server_pid)" 2>/dev/null
    [ ! -d "$folder/small" ] || umount "$folder/small" 2>/dev/null
    mounted='' loop='' fuse='' attached='' server=''
}
trap 'release; rm -rf "$folder"' EXIT
trap 'exit 1' HUP INT TERM

# has COMMAND: whether it is installed; says once if it isn't
has() {
    command -v "$1" >/dev/null 2>&1 && return 0
    case " ${missing:-} " in *" $1 "*) ;; *) skipped "$1" 'it is not installed' ;; esac
    missing="${missing:-} $1"
    return 1
}

# The python3 that has libnbd, which is usually the system's own.
python=''
for candidate in python3 /usr/bin/python3; do
    "$candidate" -c 'import nbd' 2>/dev/null && python=$candidate && break
done
# client SECONDS COMMAND WORD..: runs tests/libnbd_client.py
client() {
    limit=$1
    shift
    timeout "$limit" "$python" "$here/tests/libnbd_client.py" "$@" 2>&1
}

# image: makes a new d.img of holes, in layout 1 and in layout 2 alternately
layout=2
image() {
    layout=$((3 - layout))
    rm -f d.img
    "$NBDJ" format d.img --size "$SIZE" --area "$AREA" --layout "$layout" >/dev/null
}

# serves TRANSPORT WORD..: serves d.img over tcp or unix, and sets uri, and for nbd-client where
serves() {
    transport=$1
    shift
    : >heard
    case $transport in
    tcp) address='--listen 127.0.0.1:0' ;;
    unix) address="--unix $folder/socket" ;;
    esac
    # (a kill goes to the program itself, by the number in server_pid; the time limit ends it if a check hangs)
    timeout 900 sh -c 'echo $$ >server_pid; exec "$@"' sh "$NBDJ" serve d.img $address "$@" >heard 2>serve_errors &
    server=$!
    await_listening 20
    case $transport in
    tcp) where="127.0.0.1 $at" ;;
    unix) where="-unix $at" ;;
    esac
    is "$transport: the server listens" "listening" "$(cut -d ' ' -f 1 heard; grep -v -e '^nbdj: d.img: recovered ' -e '^nbdj: d.img: nbdj .* serves ' serve_errors)"
}

# killed NAME: kills the server, which has to be alive, and recovers the image
killed() {
    kill -9 "$(cat server_pid)" 2>/dev/null
    wait "$server" 2>wait
    is "$1: the server ended by the kill" "137|" "$?|$(cat serve_errors)"
    server=''
    recovered "$1"
}

# recovered NAME: recovers the image
recovered() {
    "$NBDJ" recover d.img >output 2>errors
    is "$1: the recovery" '0|commands|' "$?|$(cut -d ' ' -f 1 output)|$(cat errors)"
}

# held NAME: copies the recovered image to `found`, by a server (in the file itself a hole may still have old bytes)
held() {
    serves unix --workers 8
    if has nbdcopy; then
        is "$1: the copy" 0 "$(quiet nbdcopy "$uri" found)"
    else
        is "$1: the copy" 0 "$(quiet qemu-img convert -f raw -O raw "$uri" found)"
    fi
    killed "$1, again"
}

# Two images to copy, with other bytes and other holes: half of each is data, and source_a has data in the middle and in the last block.
differing $((SIZE / 4)) 11 >bytes_a
differing $((SIZE / 4)) 50000017 >bytes_b
truncate -s "$SIZE" source_a source_b
dd if=bytes_a of=source_a bs=1M conv=notrunc 2>/dev/null
dd if=bytes_a of=source_a bs=4096 skip=100 seek=10240 count=256 conv=notrunc 2>/dev/null
dd if=bytes_a of=source_a bs=4096 skip=1000 seek=16383 count=1 conv=notrunc 2>/dev/null
dd if=bytes_b of=source_b bs=4096 seek=2048 conv=notrunc 2>/dev/null
head -c "$HALF" source_a >half_a
head -c "$HALF" source_b >half_b
# The data and holes of source_a, as `nbdinfo --map` prints them.
map_a='0 16777216 0 data
16777216 25165824 3 hole,zero
41943040 1048576 0 data
42991616 24113152 3 hole,zero
67104768 4096 0 data'

# map: the data and holes of the export
map() { timeout 30 nbdinfo --map "$uri" 2>&1 | awk '{ print $1, $2, $3, $4 }'; }

# informs NAME: what the export says of itself
informs() {
    if has nbdinfo; then
        is "$1: nbdinfo" 'protocol: newstyle-fixed without TLS, using structured packets
export="":
export-size: 67108864 (64M)
base:allocation
is_rotational: false
is_read_only: false
can_cache: false
can_df: true
can_fast_zero: false
can_flush: true
can_fua: true
can_multi_conn: true
can_trim: true
can_zero: true
block_size_minimum: 1
block_size_preferred: 4096
block_size_maximum: 1048576' "$(timeout 30 nbdinfo --no-content "$uri" 2>&1 | tr -d '\t' | grep -v '^uri:\|^contexts:')"
        is "$1: nbdinfo --list" '0|1|export="":' "$(quiet nbdinfo --list "$uri")|$(grep -c '^export=' output)|$(grep '^export=' output)"
        is "$1: nbdinfo --map of holes" '0 67108864 3 hole,zero' "$(map)"
    fi
    if has qemu-img; then
        is "$1: qemu-img info" '0|67108864|raw' "$(quiet qemu-img info --output=json "$uri")|$(sed -n 's/.*"virtual-size": \([0-9]*\).*/\1/p' output)|$(
            sed -n 's/^    "format": "\(.*\)".*/\1/p' output)"
    fi
}

# shell NAME: nbdsh, with the Python that has libnbd. First come commands of its manual, then odd offsets, while block 1 is data and block 2 a
# hole: the write at byte 4,095 has a byte in block 0; the zeroes at byte 8,191 have one in block 1, which stays data, and two in block 2,
# which becomes allocated. The last trim covers only block 2.
shell() {
    { [ -n "$python" ] && has nbdsh; } || return
    cat >commands.py <<'PYTHON'
data = bytes(byte * 7 % 251 for byte in range(8192))
h.pwrite(data, 4096, nbd.CMD_FLAG_FUA)
h.trim(4096, 8192)
h.flush()
print(h.pread(8192, 4096) == data[:4096] + bytes(4096))
found = []
h.block_status(16384, 0, lambda context, offset, entries, error: found.extend(entries) or 0)
print(found)
h.pwrite(b"odd", 4095)
h.zero(3, 8191, nbd.CMD_FLAG_NO_HOLE)
h.pwrite(b"!", 20001)
print(h.pread(5, 4094) == b"\0odd" + data[2:3], h.pread(4, 8190) == data[4094:4095] + bytes(3), h.pread(3, 20000) == b"\0!\0")
found = []
h.block_status(20479, 1, lambda context, offset, entries, error: found.extend(entries) or 0)
print(found)
h.trim(4097, 8191)
found = []
h.block_status(10000, 8000, lambda context, offset, entries, error: found.extend(entries) or 0)
print(found, h.pread(8192, 4096) == b"dd" + data[2:4095] + bytes(4097))
PYTHON
    is "$1: nbdsh" "0|True|[4096, 3, 4096, 0, 8192, 3]|True True True|[8191, 0, 4096, 2, 4096, 3, 4096, 0]|[192, 0, 8192, 3, 1616, 0] True" "$(
        PATH="$(dirname "$(command -v "$python")"):$PATH" quiet nbdsh --base-allocation -u "$uri" -c "$(cat commands.py)")|$(paste -s -d '|' output)"
}

# handed: libnbd makes the socket and starts the server, as a service manager would.
handed() {
    { [ -n "$python" ] && has nbdsh; } || return
    rm -f handed.img
    is 'handed: an image' 0 "$(quiet "$NBDJ" format handed.img --size 4M --area 4M)"
    cat >commands.py <<PYTHON
h.connect_systemd_socket_activation(["$NBDJ", "serve", "handed.img", "--sessions", "1"])
h.pwrite(b"handed", 4093)
h.flush()
print(h.get_size(), h.pread(8, 4092) == b"\\0handed\\0")
h.shutdown()
PYTHON
    is 'handed: libnbd starts the server' '0|4194304 True' "$(
        PATH="$(dirname "$(command -v "$python")"):$PATH" quiet nbdsh -c "$(cat commands.py)")|$(grep -v '^listening ' output)"
}

# Copies whole images in and out, over one connection and over four, and compares the data and holes of the export.
copies() {
    if has nbdcopy; then
        for connections in 1 4; do
            for source in b a; do
                is "$1: nbdcopy in over $connections" 0 "$(quiet nbdcopy --connections=$connections --flush source_$source "$uri")"
                is "$1: nbdcopy out over $connections" 0 "$(quiet nbdcopy --connections=$connections "$uri" found)"
                same "$1: what nbdcopy copied over $connections" source_$source found
            done
        done
        is "$1: nbdinfo --map of the copy" "$map_a" "$(map)"
    fi
    if has qemu-img; then
        is "$1: qemu-img convert in" 0 "$(quiet qemu-img convert -n -f raw -O raw source_b "$uri")"
        is "$1: qemu-img compare" 0 "$(quiet qemu-img compare -f raw -F raw source_b "$uri")"
        timeout 60 qemu-img compare -f raw -F raw source_a "$uri" >output 2>&1
        is "$1: qemu-img compare with another" 1 $?
        is "$1: qemu-img convert out" 0 "$(quiet qemu-img convert -f raw -O raw "$uri" found)"
        same "$1: what qemu-img copied" source_b found
        is "$1: qemu-img convert in again" 0 "$(quiet qemu-img convert -n -f raw -O raw source_a "$uri")"
        is "$1: qemu-img map" '0 16777216 true
41943040 1048576 true
67104768 4096 true' "$(timeout 30 qemu-img map --output=json -f raw "$uri" 2>&1 |
            sed -n 's/.*"start": \([0-9]*\), "length": \([0-9]*\),.*"data": \(true\).*/\1 \2 \3/p')"
        qemu-img convert -f raw -O raw "$uri" found
        same "$1: what qemu-img copied again" source_a found
    fi
}

# Copies of 1,000,003 bytes and of 1,954 sectors of 512, whose ends are no border of a block, over an image whose later bytes stay.
odd_copies() {
    head -c 1000003 bytes_b >odd
    head -c 1000448 bytes_b >sectors
    # Sectors 3, 8 to 10 and 1,953 are zeroes: the middle of a block, the beginning of one, and the last.
    for run in '3 1' '8 3' '1953 1'; do dd if=/dev/zero of=sectors bs=512 seek=${run% *} count=${run#* } conv=notrunc 2>/dev/null; done
    if has nbdcopy; then
        is "$1: nbdcopy in before an odd copy" 0 "$(quiet nbdcopy source_a "$uri")"
        cp source_a wanted
        dd if=odd of=wanted conv=notrunc 2>/dev/null
        is "$1: nbdcopy of 1,000,003 bytes" 0 "$(quiet nbdcopy --flush odd "$uri")"
        is "$1: nbdcopy out after it" 0 "$(quiet nbdcopy "$uri" found)"
        same "$1: what nbdcopy copied of 1,000,003 bytes" wanted found
        dd if=sectors of=wanted conv=notrunc 2>/dev/null
        is "$1: nbdcopy of 1,954 sectors" 0 "$(quiet nbdcopy --sparse=512 --connections=4 --flush sectors "$uri")"
        is "$1: nbdcopy out after the sectors" 0 "$(quiet nbdcopy "$uri" found)"
        same "$1: what nbdcopy copied of sectors" wanted found
    fi
    if has qemu-img; then
        is "$1: qemu-img convert before the sectors" 0 "$(quiet qemu-img convert -n -f raw -O raw source_a "$uri")"
        cp source_a wanted
        dd if=sectors of=wanted conv=notrunc 2>/dev/null
        is "$1: qemu-img convert of 1,954 sectors" 0 "$(quiet qemu-img convert -n -S 512 -f raw -O raw sectors "$uri")"
        is "$1: qemu-img compare after the sectors" 0 "$(quiet qemu-img compare -f raw -F raw wanted "$uri")"
        is "$1: qemu-img dd of 100 sectors" 0 "$(quiet qemu-img dd -f raw -O raw bs=512 skip=1900 count=2000 if="$uri" of=found)"
        tail -c +$((1900 * 512 + 1)) wanted | head -c 51200 >found_wanted
        same "$1: the 100 sectors" found_wanted found
    fi
}

# Single requests of QEMU, also of sectors and of any bytes; dd makes what the image has to hold.
pokes() {
    has qemu-io || return
    head -c 131072 bytes_b >piece
    head -c 3000 bytes_a | tail -c 1000 >crumb
    is "$1: qemu-io" 0 "$(quiet qemu-io -f raw -c 'write -s piece 1M 128k' -c 'write -f -s piece 5M 128k' -c 'write -z 1092k 8k' -c 'write -z -u 1104k 8k' \
        -c 'discard 5M 64k' -c "write -s crumb $((1048576 + 1500)) 1000" -c 'write -z 5308416 1000' -c flush -c 'write -P 0x5a 40000k 64k' -c 'read -P 0x5a 40000k 64k' \
        -c 'read -P 0 5M 64k' -c 'write -P 0x5b 40001k 512' -c 'write -f -P 0x5c 40007680 512' -c 'write -z 41000448 512' -c 'discard 41004032 512' \
        -c 'read -P 0x5b 40001k 512' -c 'read -P 0 41000448 512' -c 'read -P 0x5a 41000960 3584' "$uri")"
    timeout 30 qemu-io -f raw -c 'read -P 0x5b 40000k 64k' "$uri" >output 2>&1
    is "$1: qemu-io finds another pattern" '1|1' "$?|$(grep -c 'verification failed' output)"
    cp source_a wanted
    {
        dd if=piece of=wanted bs=4096 seek=256 conv=notrunc
        dd if=piece of=wanted bs=4096 seek=1280 conv=notrunc
        dd if=/dev/zero of=wanted bs=4096 seek=273 count=2 conv=notrunc
        dd if=/dev/zero of=wanted bs=4096 seek=276 count=2 conv=notrunc
        dd if=/dev/zero of=wanted bs=4096 seek=1280 count=16 conv=notrunc
        dd if=crumb of=wanted bs=1 seek=$((1048576 + 1500)) conv=notrunc
        dd if=/dev/zero of=wanted bs=1 seek=5308416 count=1000 conv=notrunc
        filled 65536 Z | dd of=wanted bs=4096 seek=10000 conv=notrunc
        filled 512 '[' | dd of=wanted bs=512 seek=80002 conv=notrunc
        filled 512 '\\' | dd of=wanted bs=512 seek=78140 conv=notrunc
        dd if=/dev/zero of=wanted bs=512 seek=80079 count=1 conv=notrunc
    } 2>/dev/null
    is "$1: the image after qemu-io" 0 "$(quiet qemu-img convert -f raw -O raw "$uri" found)"
    same "$1: what qemu-io wrote" wanted found
}

# All commands and flags, with structured replies and with simple ones.
asks() {
    if [ -z "$python" ]; then
        skipped "$1: libnbd in Python" 'python3-libnbd is not installed'
        return
    fi
    for kind in structured simple; do
        is "$1: commands with $kind replies" ok "$(client 60 commands "$uri" $kind)"
    done
    is "$1: refusals" ok "$(client 30 refusals "$uri")"
    is "$1: a client that doesn't ask for sizes" ok "$(client 30 unasked "$uri")"
}

# proxied NAME: nbdkit between a client and the server, which passes block sizes on
proxied() {
    has nbdkit && has nbdcopy || return
    is "$1: nbdkit as a proxy: nbdinfo" '1|4096|1048576' "$(timeout 60 nbdkit -U - nbd uri="$uri" --run 'nbdinfo --no-content "$uri"' 2>&1 |
        sed -n 's/^.*block_size_[a-z]*: //p' | paste -s -d '|')"
    is "$1: nbdkit as a proxy: nbdcopy in" 0 "$(quiet nbdkit -U - nbd uri="$uri" --run 'nbdcopy --flush source_b "$uri"')"
    is "$1: nbdkit as a proxy: nbdcopy of 1,000,003 bytes" 0 "$(quiet nbdkit -U - nbd uri="$uri" --run 'nbdcopy --flush odd "$uri"')"
    is "$1: nbdkit as a proxy: nbdcopy out" 0 "$(quiet nbdkit -U - nbd uri="$uri" --run 'nbdcopy "$uri" found')"
    cp source_b wanted
    dd if=odd of=wanted conv=notrunc 2>/dev/null
    same "$1: what went through nbdkit" wanted found
    if has qemu-io; then
        is "$1: nbdkit as a proxy: qemu-io" 0 "$(quiet nbdkit -U - nbd uri="$uri" --run 'qemu-io -f raw -c "write -P 0x61 1536 512" -c "read -P 0x61 1536 512" "$uri"')"
        filled 512 a | dd of=wanted bs=512 seek=3 conv=notrunc 2>/dev/null
        is "$1: nbdkit as a proxy: nbdcopy out again" 0 "$(quiet nbdcopy "$uri" found)"
        same "$1: what went through nbdkit by sectors" wanted found
    fi
}

# kernel NAME: nbd-client, which never asks for block sizes: its list; its handshake by GO and by EXPORT_NAME, after which the kernel refuses to
# use a file as a device; and the kernel's device, if there is one.
kernel() {
    has nbd-client || return
    is "$1: nbd-client -l" '0|Negotiation: ..|' "$(quiet nbd-client -l $where)|$(paste -s -d '|' output)"
    : >no_device
    for word in '' -g; do
        quiet nbd-client -L $word $where no_device >said
        is "$1: the handshake of nbd-client $word" '1|Negotiation: ..size = 64MB' "$(head -n 1 said)|$(grep -o 'Negotiation: ..size = [0-9]*MB' output)"
    done
    if [ ! -b /dev/nbd0 ]; then
        skipped "$1: the kernel's device" 'there is no /dev/nbd0'
        return
    fi
    is "$1: nbd-client attaches" 0 "$(quiet nbd-client -L $where /dev/nbd0)"
    attached=/dev/nbd0
    echo 1024 >/sys/block/nbd0/queue/max_sectors_kb
    is "$1: the size of the kernel's device" "$SIZE" "$(blockdev --getsize64 /dev/nbd0)"
    is "$1: an image into the kernel's device" 0 "$(quiet dd if=source_a of=/dev/nbd0 bs=4M conv=fsync)"
    is "$1: sectors into the kernel's device" 0 "$(quiet dd if=sectors of=/dev/nbd0 bs=512 oflag=direct conv=fsync)"
    cp source_a wanted
    dd if=sectors of=wanted conv=notrunc 2>/dev/null
    same "$1: what the kernel's device holds" wanted /dev/nbd0
    is "$1: nbd-client releases it" 0 "$(quiet nbd-client -d /dev/nbd0)"
    attached=''
}

for transport in tcp unix; do
    image
    serves $transport
    informs $transport
    shell $transport
    copies $transport
    pokes $transport
    asks $transport
    odd_copies $transport
    proxied $transport
    kernel $transport
    if has nbdcopy; then
        # (the FLUSH of nbdcopy comes last, so the kill may lose nothing)
        is "$transport: nbdcopy in before a kill" 0 "$(quiet nbdcopy --flush source_b "$uri")"
        killed "$transport: after nbdcopy"
        held "$transport: after nbdcopy"
        same "$transport: the image after the kill" source_b found
    else
        killed "$transport: the end"
    fi
done

# counted NAME BYTES COMMAND WORD..: a client reads and writes no more bytes than it has to, as the server counts them in one session. URI
# stands for that of the server.
counted() {
    name=$1 wanted=$2
    shift 2
    image
    serves unix --verbose --sessions 1
    for word; do
        shift
        case $word in *URI) word=${word%URI}$uri ;; esac
        set -- "$@" "$word"
    done
    is "$name" 0 "$(quiet "$@")"
    wait "$server" 2>wait
    server=''
    is "$name: what the server counts" "$wanted" "$(sed -n 's/^.* left after [0-9]* requests, //p' serve_errors)"
}
if has qemu-io; then
    counted 'sectors of qemu-io' '1024 bytes read and 1536 written' qemu-io -f raw -c 'write -P 0x51 512 512' -c 'write -P 0x52 7680 1024' \
        -c 'read -P 0x51 512 512' -c 'read -P 0x52 8192 512' URI
    counted 'bytes of qemu-io' '5 bytes read and 4 written' qemu-io -f raw -c 'write -P 0x51 4095 3' -c 'write -P 0x52 4094 1' -c 'read -P 0x51 4095 3' \
        -c 'read -P 0 4093 1' -c 'read -P 0x52 4094 1' URI
    # (it splits what is longer than 1 MiB)
    counted '8 MiB of qemu-io at byte 3' '8388608 bytes read and 8388608 written' qemu-io -f raw -c 'write -P 7 3 8M' -c 'read -P 7 3 8M' URI
fi
if has qemu-img; then
    counted 'sectors that qemu-img bench writes' '0 bytes read and 1024000 written' qemu-img bench -f raw -w -c 2000 -d 8 -s 512 -S 1536 URI
    counted 'sectors that qemu-img bench reads' '1024000 bytes read and 0 written' qemu-img bench -f raw -c 2000 -d 8 -s 512 -S 1536 URI
    counted 'sectors that qemu-img dd reads' '51200 bytes read and 0 written' qemu-img dd -f raw -O raw bs=512 skip=1900 count=2000 if=URI of=found
fi
if has nbdcopy; then
    counted 'bytes of nbdcopy' '0 bytes read and 1000003 written' nbdcopy --connections=1 odd URI
fi

# In writethrough answered writes are there without a FLUSH.
if has nbdcopy; then
    image
    serves unix --cache writethrough
    is 'writethrough: nbdcopy in' 0 "$(quiet nbdcopy source_a "$uri")"
    killed 'writethrough'
    held 'writethrough'
    same 'writethrough: the image after the kill' source_a found
fi

# Unflushed writes are stored once their session is over, whatever signal comes then.
if has nbdcopy; then
    head -c 3145728 bytes_a >three
    for signal in TERM KILL; do
        image
        serves tcp
        is "$signal: nbdcopy of 3 MiB, without a flush" 0 "$(quiet nbdcopy three "$uri")"
        sleep 6
        kill -$signal "$(cat server_pid)"
        wait "$server" 2>wait
        server=''
        recovered "$signal after a copy"
        is "$signal: there are commands" yes "$([ "$(cut -d ' ' -f 2 output)" -gt 0 ] && echo yes)"
        held "$signal after a copy"
        head -c 3145728 found >found_three
        same "$signal: the 3 MiB" three found_three
    done
fi

# A full disk: with --on-full stop the server says why, and ends; with space it starts again. Otherwise the copy waits until there is space.
full_disk() {
    small=$folder/small
    mkdir "$small"
    if ! mount -t tmpfs -o size=12m tmpfs "$small" 2>/dev/null; then
        skipped 'a full disk' 'nothing can be mounted here'
        return
    fi
    "$NBDJ" format "$small/d.img" --size 64M --area 2M >/dev/null
    rm -f d.img
    ln -s "$small/d.img" d.img
    serves tcp --on-full stop
    head -c 1048576 bytes_b >one
    is 'a full disk: a copy that has room' 0 "$(quiet nbdcopy --flush one "$uri")"
    is 'a full disk: a copy that has none' 1 "$(quiet nbdcopy --flush half_a "$uri" | head -n 1)"
    wait "$server" 2>wait
    is 'a full disk: the end' '1|nbdj: d.img: write of N bytes at K: No space left on device (os error 28)|nbdj: no space left on device: free some and start again; nothing durable is lost|nbdj: device fault (1)' \
        "$?|$(sed 's/of [0-9]* bytes at [0-9]*/of N bytes at K/' serve_errors | paste -sd '|')"
    server=''
    "$NBDJ" recover d.img >output 2>errors
    is 'a full disk: a recovery without room' '1|nbdj: device fault (1)' "$?|$(cat errors)"
    mount -o remount,size=96m tmpfs "$small"
    recovered 'a full disk with room'
    serves tcp
    is 'a full disk with room: the copy' 0 "$(quiet nbdcopy --flush half_a "$uri")"
    is 'a full disk with room: the copy back' 0 "$(quiet nbdcopy "$uri" found)"
    head -c "$HALF" found >found_half
    same 'a full disk with room: what was copied' half_a found_half
    killed 'a full disk with room'
    rm "$small/d.img"
    mount -o remount,size=12m tmpfs "$small"
    "$NBDJ" format "$small/d.img" --size 64M --area 2M >/dev/null
    serves tcp
    timeout 120 nbdcopy --flush half_a "$uri" 2>/dev/null &
    copy=$!
    wait_for 60 grep -q 'what is copied waits' serve_errors
    is 'a full disk that gets room: it waits' 1 "$(grep -c 'what is copied waits' serve_errors)"
    mount -o remount,size=96m tmpfs "$small"
    wait $copy 2>wait
    is 'a full disk that gets room: the copy' 0 $?
    is 'a full disk that gets room: the copy back' 0 "$(quiet nbdcopy "$uri" found)"
    head -c "$HALF" found >found_half
    same 'a full disk that gets room: what was copied' half_a found_half
    is 'a full disk that gets room: what is told' 'nbdj: d.img: no space left on device: what is copied waits until some is freed; nothing durable is lost|nbdj: d.img: goes on after T s without space' \
        "$(sed 's/after [0-9.]* s/after T s/' serve_errors | paste -sd '|')"
    : >serve_errors
    killed 'a full disk that gets room'
    umount "$small"
    rm -f d.img
}
if has nbdcopy; then full_disk; fi

# A block device: a loop device.
block_device() {
    truncate -s 160M disk
    loop=$(losetup -f --show disk 2>/dev/null)
    if [ -z "$loop" ]; then
        skipped 'a block device' 'there is no loop device here'
        return
    fi
    "$NBDJ" format "$loop" --size 1G >output 2>errors
    is 'a block device that is too short' "1||nbdj: cannot open $loop" "$?|$(cat output)|$(cat errors)"
    differing 8388608 9 | dd of="$loop" bs=1M conv=notrunc 2>/dev/null
    is 'a block device is formatted' 'formatted 83902464' "$("$NBDJ" format "$loop" --size 64M --area 8M 2>&1)"
    is 'a block device is checked' 'layout 2 blocks 16384' "$("$NBDJ" check "$loop" 2>&1 | head -n 2 | paste -s -d ' ')"
    rm -f d.img
    ln -s "$loop" d.img
    serves unix
    is 'a block device: nbdcopy in' 0 "$(quiet nbdcopy --flush source_a "$uri")"
    killed 'a block device'
    held 'a block device'
    same 'what a block device holds' source_a found
    is 'the length of a block device' 167772160 "$(wc -c <disk | tr -d ' ')"
    losetup -d "$loop"
    loop=''
    rm -f d.img disk
}
if has nbdcopy && has losetup; then block_device; fi

# After the last session the server stores everything and ends with status 0.
if has qemu-io; then
    image
    serves unix --sessions 2
    head -c 131072 bytes_a >piece
    for at in 1M 3M; do
        is "a session of two at $at" 0 "$(quiet qemu-io -f raw -t unsafe -c "write -s piece $at 128k" "$uri")"
    done
    wait_for 20 is_gone "$server"
    kill "$server" 2>/dev/null
    wait "$server" 2>wait
    is 'the end after two sessions' '0||no' "$?|$(cat serve_errors)|$([ -e socket ] && echo yes || echo no)"
    server=''
    recovered 'after two sessions'
    held 'after two sessions'
    rm -f wanted
    truncate -s "$SIZE" wanted
    dd if=piece of=wanted bs=1M seek=1 conv=notrunc 2>/dev/null
    dd if=piece of=wanted bs=1M seek=3 conv=notrunc 2>/dev/null
    same 'the image after two sessions' wanted found
fi

# Addresses that can't be listened on, and an image in use: the server that has them is not disturbed.
image
"$NBDJ" format other.img --size 64K --area 2M >/dev/null
# refused NAME STATUS ERRORS WORD..: a second server is refused
refused() {
    name=$1 wanted="$2||$3"
    shift 3
    timeout 20 "$NBDJ" serve "$@" >output 2>errors
    is "$name" "$wanted" "$?|$(cat output)|$(paste -s -d '|' errors)"
}
serves tcp
port=${uri##*:}
refused 'a port in use' 1 "nbdj: 127.0.0.1:$port: Address already in use (os error 98)|nbdj: stream fault (21)" other.img --listen "127.0.0.1:$port"
timeout 20 "$NBDJ" serve other.img --listen 127.0.0.1: >output 2>errors
is 'no port' "2||error: invalid value '127.0.0.1:' for '--listen <ADDR>': it is a host or an IP address, and maybe a port from 0 to 65535 after a colon" \
    "$?|$(cat output)|$(head -n 1 errors)"
refused 'an image in use' 4 'nbdj: d.img: another process has locked it|nbdj: d.img is in use' d.img --listen 127.0.0.1:0
killed 'after a port in use'
serves unix
refused 'a socket in use' 1 'nbdj: socket: Address already in use (os error 98)|nbdj: stream fault (21)' other.img --unix socket
: >file
refused 'a file in place of the socket' 1 'nbdj: file: Address already in use (os error 98)|nbdj: stream fault (21)' other.img --unix file
is 'the file in place of the socket' yes "$([ -f file ] && echo yes)"
refused 'a socket in no folder' 1 'nbdj: none/socket: No such file or directory (os error 2)|nbdj: stream fault (21)' other.img --unix none/socket
if has nbdinfo; then
    is 'the server of the socket in use' 67108864 "$(timeout 20 nbdinfo --size "$uri" 2>&1)"
fi
killed 'after a socket in use'

# fio checks what it wrote: four jobs, each over its own connection.
fio_job() {
    timeout 60 fio --name=job --ioengine=nbd --uri="$uri" --bs=4k --size=8m --numjobs=4 --offset_increment=8m --iodepth=16 --group_reporting "$@" >output 2>&1
}
has_fio() {
    has fio || return 1
    fio --enghelp 2>/dev/null | grep -qw nbd && return 0
    skipped fio 'it was built without its engine nbd'
    return 1
}
if has_fio; then
    image
    serves tcp --workers 8
    fio_job --rw=randwrite --verify=crc32c --do_verify=1 --verify_fatal=1 --end_fsync=1
    is 'fio writes and verifies' '0|0' "$?|$(grep -c 'verify: bad' output)"
    # fio finds what it had flushed before a kill, and notices a changed block.
    killed 'after fio'
    serves tcp --workers 8
    fio_job --rw=randwrite --verify=crc32c --verify_only --verify_fatal=1
    is 'fio verifies after the kill' '0|0' "$?|$(grep -c 'verify: bad' output)"
    if has qemu-io; then
        is 'a byte of what fio wrote changes' 0 "$(quiet qemu-io -f raw -c 'write -P 0x11 1000 1' "$uri")"
        fio_job --rw=randwrite --verify=crc32c --verify_only --verify_fatal=1
        is 'fio finds the byte' yes "$([ $? -ne 0 ] && grep -q 'verify: bad\|crc32c: verify failed' output && echo yes)"
    fi
    killed 'after the second fio'
    # The same by sectors: requests of 512 bytes to 8 KiB, at any sector.
    image
    serves tcp --workers 8
    fio_job --bsrange=512-8k --rw=randwrite --verify=crc32c --do_verify=1 --verify_fatal=1 --end_fsync=1
    is 'fio writes sectors and verifies' '0|0' "$?|$(grep -c 'verify: bad' output)"
    killed 'after fio by sectors'
    serves tcp --workers 8
    fio_job --bsrange=512-8k --rw=randwrite --verify=crc32c --verify_only --verify_fatal=1
    is 'fio verifies sectors after the kill' '0|0' "$?|$(grep -c 'verify: bad' output)"
    fio_job --bsrange=512-8k --rw=randrw --rwmixread=50 --verify=crc32c --do_verify=1 --verify_fatal=1
    is 'fio reads and writes sectors' '0|0' "$?|$(grep -c 'verify: bad' output)"
    killed 'after the second fio by sectors'
fi

# What each client repeats until the kill: it writes the first half of the image from one source, then from the other.
nbdcopy_half() { timeout 30 nbdcopy --connections=4 --flush "half_$1" "$uri"; }
qemu_img_half() { timeout 30 qemu-img convert -n -f raw -O raw "half_$1" "$uri"; }
qemu_io_half() { timeout 30 qemu-io -f raw -c "write -s half_$1 0 32M" -c flush "$uri"; }
fio_half() { timeout 30 fio --name=job --ioengine=nbd --uri="$uri" --rw=write --bs=64k --size=8m --numjobs=4 --offset_increment=8m --buffer_pattern="'half_$1'" --iodepth=8; }

# kill_under NAME TRANSPORT CLIENT: kills the server while the client writes one half of the image, and libnbd's library the other half over
# four connections. In that half everything confirmed has to be there; each block of the first half is from one of the two sources.
kill_under() {
    name="a kill during $1"
    image
    serves "$2" --workers 12
    is "$name: the first copy" 0 "$(quiet nbdcopy --flush half_a "$uri")"
    rm -f early
    (
        while "$3" b && "$3" a; do :; done
        # (the client failed if it ended while the server lived; a killed server is a zombie until it is waited for)
        sleep 0.5
        if kill -0 "$(cat server_pid)" 2>/dev/null; then echo early >early; fi
    ) >writer_output 2>&1 &
    writer=$!
    flooded=$(client 60 flood "$uri" log 8192 4096 "$(cat server_pid)" 400)
    is "$name: writes over four connections" ok "$(echo "$flooded" | sed 's/^\(ok\) .*/\1/')"
    wait $writer
    is "$name: it went on up to the kill" '' "$([ ! -e early ] || cat writer_output)"
    killed "$name"
    serves "$2" --workers 12
    verified=$(client 60 verify "$uri" log)
    is "$name: what was confirmed" ok "$(echo "$verified" | sed 's/^\(ok\) .*/\1/')"
    echo "$name: ${flooded#ok }; ${verified#ok }"
    # (fio's blocks aren't those of a file)
    if [ "$3" != fio_half ]; then
        is "$name: the copy" 0 "$(quiet nbdcopy "$uri" found)"
        is "$name: the blocks of the first half" 'ok 8192 blocks' "$(client 30 mixed found half_a half_b)"
    fi
    killed "$name, again"
}
if [ -n "$python" ] && has nbdcopy; then
    kill_under nbdcopy tcp nbdcopy_half
    if has qemu-img; then kill_under 'qemu-img convert' unix qemu_img_half; fi
    if has qemu-io; then kill_under qemu-io tcp qemu_io_half; fi
    if has_fio; then kill_under fio unix fio_half; fi
else
    skipped 'a kill during each client' 'nbdcopy or python3-libnbd is not installed'
fi

# A file system with blocks of 1,024 bytes, over a loop device over nbdfuse. The server is killed after some files were synced, while more are
# written.
file_of() {
    timeout 120 nbdfuse -P fuse_pid export "$uri" >fuse_output 2>&1 &
    fuser=$!
    fuse=$folder/export
    wait_for 10 is_exported_or_gone
    [ -e export/nbd ]
}
is_exported_or_gone() { [ -e export/nbd ] || is_gone $fuser; }
# released: unmounts the file system and the export
released() {
    [ -z "$mounted" ] || timeout 30 umount "$mounted" 2>/dev/null
    # (its loop device is released a moment later)
    wait_for 10 umount "$fuse" 2>/dev/null
    wait $fuser 2>wait
    mounted='' fuse=''
}
file_system() {
    mkdir export mount tree tree/below
    for k in 1 2 3 4 5 6 7 8; do differing $((k * 77777)) $((k * 1000003)) >tree/below/file_$k; done
    image
    serves unix
    if ! file_of; then
        skipped 'ext4 over nbdfuse' "there is no FUSE here: $(tail -n 1 fuse_output)"
        released
        killed 'without a file system'
        return
    fi
    is 'mke2fs with files' 0 "$(quiet mke2fs -q -F -t ext4 -b 1024 -d tree export/nbd)"
    is 'e2fsck of the file' 0 "$(quiet e2fsck -fn export/nbd)"
    if mount -t ext4 -o loop export/nbd mount 2>/dev/null; then
        mounted=$folder/mount
        # (a loop device keeps this when it gets another file: with `write through` the kernel would send no flushes)
        echo 'write back' >"/sys/block/$(basename "$(findmnt -n -o SOURCE "$mounted")")/queue/write_cache"
        for k in 1 2 3 4; do
            cp tree/below/file_$k mount/synced_$k
            sync mount/synced_$k mount
        done
        # The kill comes while files are written and synced one after another; `synced` lists those synced before it.
        : >synced
        (
            k=100
            while cp tree/below/file_8 mount/late_$k && sync mount/late_$k mount; do
                echo late_$k
                k=$((k + 1))
            done
        ) >>synced 2>/dev/null &
        writer=$!
        wait_for 20 has_lines synced 10
        kill -9 "$(cat server_pid)"
        wait $writer
        released
        killed 'a file system'
        held 'a file system'
        # The first run of e2fsck replays ext4's journal (status 1: it changed something); the second finds nothing wrong.
        timeout 30 e2fsck -p found >output 2>&1
        is 'e2fsck replays the journal' yes "$([ $? -le 1 ] && echo yes)"
        is 'e2fsck after the kill' 0 "$(quiet e2fsck -fn found)"
        for k in 1 2 3 4; do
            debugfs -R "dump synced_$k out" found >output 2>&1
            same "the synced file $k" tree/below/file_$k out
        done
        is 'files were synced up to the kill' yes "$(has_lines synced 10 && echo yes)"
        differ=''
        for k in $(cat synced); do
            rm -f out
            debugfs -R "dump $k out" found >output 2>&1
            cmp -s tree/below/file_8 out || differ="$differ $k"
        done
        is 'the files that were synced before the kill' '' "$differ"
        echo "a kill during writes to ext4: $(wc -l <synced) files were synced before it"
    else
        skipped 'ext4 mounted' 'this system lets nobody mount, or has no loop device'
        released
        killed 'a file system'
        held 'a file system'
        is 'e2fsck after the kill' 0 "$(quiet e2fsck -fn found)"
    fi
    for k in 1 5 8; do
        debugfs -R "dump below/file_$k out" found >output 2>&1
        same "the file $k of the tree" tree/below/file_$k out
    done
}
handed
if has nbdfuse && has mke2fs && has debugfs; then
    if [ -w /dev/fuse ]; then
        file_system
    else
        skipped 'ext4 over nbdfuse' 'there is no /dev/fuse that may be used'
    fi
fi

the_end
