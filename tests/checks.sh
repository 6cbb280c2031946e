# What the checks in shell of the built program NBDJ share. To be read by '.', with the top of the repository in `here`. It changes to a
# temporary folder, which is removed at the end.
. "$here/tools/bytes.sh"
folder=$(mktemp -d) || exit 1
trap 'rm -rf "$folder"' EXIT
# (dash runs no trap for EXIT when a signal ends it)
trap 'exit 1' INT TERM HUP
cd "$folder" || exit 1
passed=0
failed=0

# is NAME WANTED GOT
is() {
    if [ "$2" = "$3" ]; then
        passed=$((passed + 1))
    else
        failed=$((failed + 1))
        printf 'FAILED %s\n  wanted: %s\n  got:    %s\n' "$1" "$2" "$3"
    fi
}

# same NAME WANTED GOT: compares two files
same() { is "$1" '' "$(cmp "$2" "$3" 2>&1)"; }

# skipped NAME WHY
skipped() { echo "skipped: $1, because $2"; }

# need PROGRAM..: ends the script, as skipped, unless it runs as root and has these programs
need() {
    lacks=''
    [ "$(id -u)" -eq 0 ] || lacks='not root'
    for program; do
        command -v "$program" >/dev/null 2>&1 || lacks="there is no $program"
    done
    skip_if "$lacks"
}

# skip_if WHY: ends the script, as skipped, unless the text is empty
skip_if() {
    [ -n "$1" ] || return 0
    echo "skipped: $1"
    exit 0
}

# told: keeps the messages of a run, for the check of the documents
told() { [ -z "${NBDJ_TOLD:-}" ] || cat errors >>"$NBDJ_TOLD"; }

# run WORD..: runs the program on the file `input`, and sets status, output (in hex) and errors
run() {
    "$NBDJ" "$@" <input >output 2>errors
    status=$?
    output=$(hex <output)
    errors=$(cat errors)
    told
}

# ends NAME STATUS OUTPUT ERRORS WORD..: how a run ends, its output in hex
ends() {
    name=$1
    wanted="$2|$3|$4"
    shift 4
    run "$@"
    is "$name" "$wanted" "$status|$output|$errors"
}

# quiet WORD..: runs a command for at most `quiet_seconds`; prints its status and, if that isn't 0, the end of what it said
quiet_seconds=60
quiet() {
    timeout "$quiet_seconds" "$@" >output 2>&1 </dev/null
    status=$?
    echo "$status"
    [ $status -eq 0 ] || tail -n 3 output
}

# wait_for SECONDS COMMAND WORD..: waits until the command succeeds; its status is 1 if that takes longer
wait_for() {
    late=$(($(date +%s) + $1))
    shift
    until "$@"; do
        [ "$(date +%s)" -le "$late" ] || return 1
        sleep 0.05
    done
}

# is_gone PID: whether a process has ended
is_gone() { ! kill -0 "$1" 2>/dev/null; }

# has_lines FILE COUNT: whether a file has at least COUNT lines
has_lines() { [ "$(wc -l <"$1")" -ge "$2" ]; }

# await_listening SECONDS: waits until the server `server` says in the file `heard` where it listens, or has ended; sets `at` and `uri`
await_listening() {
    wait_for "$1" listens_or_is_gone
    at=$(sed -n 's/^listening //p' heard)
    case $at in
    /*) uri="nbd+unix:///?socket=$at" ;;
    *[!0-9]*) uri="nbd+unix:///?socket=$folder/$at" ;;
    *) uri=nbd://127.0.0.1:$at ;;
    esac
}
listens_or_is_gone() { grep -q '^listening ' heard || is_gone "$server"; }

# preload NAME: makes NAME.so of tests/preloads/NAME.c, to be preloaded
preload() { ${CC:-cc} -Wall -Werror -shared -fPIC -O2 -pthread -o "$1.so" "$here/tests/preloads/$1.c" -ldl || exit 1; }

# text TEXT: a line as hex
text() { printf '%s\n' "$1" | hex; }

# fresh BLOCKS AREA: a new d.img
fresh() { "$NBDJ" format d.img --blocks "$1" --area "$2" >/dev/null; }

# differing COUNT SEED: COUNT bytes that differ from place to place
differing() { seq "$2" 7 100000000 | head -c "$1"; }

# the_end: prints the last line of a script; the status says whether a check failed
the_end() {
    echo "$passed passed, $failed failed"
    [ "$failed" -eq 0 ]
}
