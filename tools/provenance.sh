# The sources that the program's proof rests on, and what dist/PROVENANCE records of them. To be read by '.', with the top of the repository
# in `here`. It uses only the shell and coreutils, so that ./demo needs nothing else.

# program_crates: the program's crate, and the crates of crates.txt that it depends on
program_crates() {
    listed=' '
    while read -r name below; do
        name=${name%:}
        case $name in
        '' | *[!a-z0-9_]*) continue ;;
        esac
        listed="$listed$name "
        eval "below_$name=\${below%%#*}"
    done <"$here/crates.txt"
    found=' '
    left=nbdj
    while [ -n "$left" ]; do
        next=
        for name in $left; do
            case $listed in *" $name "*) ;; *) continue ;; esac
            case $found in *" $name "*) continue ;; esac
            found="$found$name "
            eval "next=\"\$next \$below_$name\""
        done
        left=$next
    done
    printf '%s\n' $found
}

# source_files FOLDER: the .rt and .antt files in a folder and its subfolders
source_files() {
    for entry in "$1"/*; do
        if [ -d "$entry" ]; then
            source_files "$entry"
        else
            case $entry in *.rt | *.antt) printf '%s\n' "$entry" ;; esac
        fi
    done
}

# sources_digest: one digest of the names and contents of crates.txt and of each source that the program's proof rests on
sources_digest() {
    (
        cd "$here" || exit 1
        set -- crates.txt
        for crate in $(program_crates); do
            for part in src specs proofs; do
                set -- "$@" $(source_files "crates/$crate/$part")
            done
        done
        sha256sum "$@" | LC_ALL=C sort | digest
    )
}

# digest [FILE]: the SHA-256 of a file, or of standard input
digest() { sha256sum -- "${1:--}" | cut -d ' ' -f 1; }

# provenance: the text of a PROVENANCE with the values of version, sources, kit, program and archive. Its last line has the digest of the
# others, so that every changed byte is noticed.
provenance() {
    lines=$(printf 'version %s\nsources %s\nkit %s\nprogram %s\narchive %s' "$version" "$sources" "$kit" "$program" "$archive")
    printf '%s\nrecord %s\n' "$lines" "$(printf '%s\n' "$lines" | digest)"
}

# read_provenance: sets these five from dist/PROVENANCE; fails if there is none, or if it has other lines
read_provenance() {
    version='' sources='' kit='' program='' archive=''
    [ -f "$here/dist/PROVENANCE" ] || return 1
    {
        read -r _ version
        read -r _ sources
        read -r _ kit
        read -r _ program
        read -r _ archive
    } <"$here/dist/PROVENANCE"
    [ "$(cat "$here/dist/PROVENANCE" && echo .)" = "$(provenance && echo .)" ]
}

# archive_name: the name of the archive of this version
archive_name() { echo "nbdj-$version-x86_64-linux.tar.xz"; }

# A line `PROGRAM SOURCES KIT` of out/proved says that the program with the first digest was proved from the sources with the second, by that kit.

# note_proved SOURCES: notes that the program in crates/nbdj/out was proved from sources with this digest; fails if they have changed since
note_proved() {
    [ "$1" = "$(sources_digest)" ] || return 1
    mkdir -p "$here/out"
    echo "$(digest "$here/crates/nbdj/out/nbdj") $1 $(rt version 2>/dev/null || echo 'kit unknown')" >"$here/out/proved"
}

# is_proved: whether the program in crates/nbdj/out was proved from the present sources
is_proved() {
    [ -f "$here/out/proved" ] && [ -x "$here/crates/nbdj/out/nbdj" ] &&
        [ "$(cut -d ' ' -f 1,2 "$here/out/proved")" = "$(digest "$here/crates/nbdj/out/nbdj") $(sources_digest)" ]
}
