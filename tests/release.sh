#!/bin/sh
# Checks of dist/: that it was made from these sources, that the archive has the tree's files and can be made again byte for byte, and that a
# changed byte of a source, of the archive or of PROVENANCE is noticed before the program runs. The last line is 'N passed, M failed'.
#
# usage: tests/release.sh [--program PROGRAM]          (with a program: only checks that dist/ has the same one)
set -u
here=$(CDPATH='' cd "$(dirname "$0")/.." && pwd)
. "$here/tests/checks.sh"
. "$here/tools/provenance.sh"

if [ "${1:-}" = --program ]; then
    read_provenance
    is 'dist/PROVENANCE is whole' 0 $?
    if [ "$kit" != "$(rt version)" ]; then
        echo "not compared: dist's program was proved with $kit, and the kit here is $(rt version)"
    else
        mkdir out
        tar -C out -xJf "$here/dist/$(archive_name)"
        same 'the program of dist, and the one that was proved here' "out/nbdj-$version/bin/nbdj" "$2"
    fi
    the_end
    exit
fi

# A copy of what the demo and its tools read, where a build only says that it was called.
mkdir copy
(cd "$here" && tar -cf - --exclude=out crates.txt crates dist tools demo examples docs/nbdj.1 docs/nbdj-server.1 docs/nbdj-standby.8 packaging CHANGELOG.md LICENSE) | tar -C copy -xf -
top=$here
here=$folder/copy
printf '#!/bin/sh\necho "a build began"\nexit 1\n' >copy/tools/build-program
chmod +x copy/tools/build-program
unset NBDJ

# got: the status, output and errors of tools/get-program in the copy
got() {
    copy/tools/get-program >output 2>errors
    echo "$?|$(cat output)|$(cat errors)"
}

read_provenance
is 'dist/PROVENANCE is whole' 0 $?
is 'dist is of these sources' "$(sources_digest)" "$sources"
program_path=$folder/copy/out/nbdj-$version/bin/nbdj
whole="0|$program_path|nbdj $version, proved from these sources"
is 'the program of dist' "$whole" "$(got)"
is 'the version of the program' "nbdj $version" "$("$program_path" --version)"
is 'the digest of the program' "$program" "$(digest "$program_path")"

# The archive has the tree's files and that program, and nothing else. (Another release of xz may compress to other bytes.)
mkdir first second
made=$(basename "$("$top/tools/make-archive" "$program_path" first)")
"$top/tools/make-archive" "$program_path" second >/dev/null
same 'the archive, made twice' "first/$made" "second/$made"
xz -dc "first/$made" >first.tar
xz -dc "$top/dist/$(archive_name)" >dist.tar
same "the archive of dist, and one of the tree's files" first.tar dist.tar
is 'what dist has' "PROVENANCE $(archive_name)" "$(cd "$top/dist" && echo *)"

# The demo runs in a fresh clone within five seconds, with the tools of a bare system and without a build.
rm -rf copy/out bare
mkdir bare
for tool in sh tar xz cat cut dirname head tail mktemp mv od rm mkdir sha256sum sleep sort tr; do
    ln -s "$(command -v "$tool")" "bare/$tool"
done
began=$(date +%s)
PATH=$folder/bare copy/demo >output 2>errors
is 'the demo on a bare system' "0|The demo passed.|nbdj $version, proved from these sources" "$?|$(tail -n 1 output)|$(cat errors)"
took=$(($(date +%s) - began))
is 'the demo takes at most five seconds' yes "$([ "$took" -le 5 ] && echo yes || echo "$took s")"

# changed FILE OFFSET: changes one byte of a file of the copy
changed() {
    cp "copy/$1" saved
    byte=$(part "saved" "$2" 1)
    bytes "$(printf %02x $((0x$byte ^ 1)))" | dd of="copy/$1" bs=1 seek="$2" conv=notrunc 2>/dev/null
}
# noticed NAME WHY: the copy's program isn't used, and this is why
noticed() {
    is "$1" "1||$2: building the program
a build began" "$(got)"
    rm -rf copy/out
}
restored() { cp saved "copy/$1"; }

other="these are not the sources of dist's program"
for file in crates.txt crates/nbdj/src/main.rt crates/disk_model/specs/Disk.antt crates/checkpoint/proofs/Lib.antt; do
    changed "$file" 0
    noticed "a changed byte of $file" "$other"
    restored "$file"
done
echo >copy/crates/journal/specs/Added.antt
noticed 'an added source' "$other"
rm copy/crates/journal/specs/Added.antt
mv copy/crates/journal/src/lib.rt copy/crates/journal/src/other.rt
noticed 'a renamed source' "$other"
mv copy/crates/journal/src/other.rt copy/crates/journal/src/lib.rt

archive_path=dist/$(archive_name)
size=$(wc -c <"copy/$archive_path")
for offset in 0 $((size / 2)) $((size - 1)); do
    changed "$archive_path" "$offset"
    noticed "a changed byte of the archive, at $offset" "$archive_path is missing or damaged"
    restored "$archive_path"
done
mv "copy/$archive_path" saved
noticed 'no archive' "$archive_path is missing or damaged"
mv saved "copy/$archive_path"

size=$(wc -c <copy/dist/PROVENANCE)
for offset in 0 8 $((size / 4)) $((size / 2)) $((size * 3 / 4)) $((size - 2)) $((size - 1)); do
    changed dist/PROVENANCE "$offset"
    noticed "a changed byte of PROVENANCE, at $offset" 'dist/PROVENANCE is damaged'
    restored dist/PROVENANCE
done
cp copy/dist/PROVENANCE saved
echo 'more' >>copy/dist/PROVENANCE
noticed 'a line more in PROVENANCE' 'dist/PROVENANCE is damaged'
rm copy/dist/PROVENANCE
noticed 'no PROVENANCE' 'there is no dist/PROVENANCE'
restored dist/PROVENANCE

is 'a build that is asked for' "1||a build was asked for: building the program
a build began" "$(copy/tools/get-program --build >output 2>errors; echo "$?|$(cat output)|$(cat errors)")"

# A changed program in out/ is unpacked again.
got >/dev/null
changed "out/nbdj-$version/bin/nbdj" 5000
is 'a changed program in out' "$whole" "$(got)"
is 'the digest of the program in out' "$program" "$(digest "$program_path")"
is 'the whole copy' "$whole" "$(got)"

# A release needs a program that was proved from exactly these sources.
mkdir -p copy/crates/nbdj/out
cp "$program_path" copy/crates/nbdj/out/nbdj
refusal="tools/release: $folder/copy/crates/nbdj/out/nbdj isn't noted as proved from these sources; tools/build-program or ./prove makes one that is"
released() {
    copy/tools/release >output 2>errors
    echo "$?|$(cat errors)"
}
is 'a release of a program that nothing notes' "1|$refusal" "$(released)"
is 'a note of other sources' 1 "$(copy/tools/note-proved 0 2>/dev/null; echo $?)"
copy/tools/note-proved "$(sources_digest)"
changed crates/nbdj/src/main.rt 0
is 'a release of a program of other sources' "1|$refusal" "$(released)"
restored crates/nbdj/src/main.rt
changed crates/nbdj/out/nbdj 5000
is 'a release of another program' "1|$refusal" "$(released)"
same 'dist is as it was' "copy/$archive_path" "$top/$archive_path"
the_end
