# Runs checks one after another, shows progress, and counts. To be read by '.', at the top of the repository.
mkdir -p out
counting=$(mktemp -d) || exit 1
trap 'rm -rf "$counting"' EXIT
passed=0
failed=0
memory_refused=0

# count LINE: adds a line 'N passed, M failed'; any other line is one failure
count() {
    if printf '%s\n' "$1" | grep -Eqx '[0-9]+ passed, [0-9]+ failed'; then
        passed=$((passed + ${1%% passed*}))
        rest=${1#* passed, }
        failed=$((failed + ${rest% failed}))
    else
        echo "FAILED: it ended with the line: $1"
        failed=$((failed + 1))
    fi
}

# outcome LINE STATUS: what to count for a run with this last line; one without failures whose status isn't 0 died at its end
outcome() {
    case $1 in
    *' passed, 0 failed') [ "$2" -eq 0 ] && echo "$1" || echo "$1, but status $2" ;;
    *) echo "$1" ;;
    esac
}

# run_check NAME WORD..: runs a check whose last line is 'N passed, M failed'; a demo counts as one check
run_check() {
    name=$1
    shift
    echo "== $name"
    began=$(date +%s)
    "$@" >"$counting/said" 2>&1
    status=$?
    last=$(tail -n 1 "$counting/said")
    if [ "$name" = demo ]; then
        [ "$status" -eq 0 ] && last='1 passed, 0 failed' || last="status $status"
    fi
    last=$(outcome "$last" "$status")
    # Of a check that passes, only these lines are shown.
    if [ "$status" -eq 0 ]; then grep -E '^(skipped: |not compared: |only with --long: |of the refusals |[0-9]+ (runs|of) )' "$counting/said"; else cat "$counting/said"; fi
    forbidden=$(skips_forbidden)
    [ -z "$forbidden" ] || printf 'FAILED: skipped, which CI does not allow:\n%s\n' "$forbidden"
    [ -z "$forbidden" ] || failed=$((failed + $(printf '%s\n' "$forbidden" | wc -l)))
    memory_refused=$((memory_refused + $(sed -n 's/^\([0-9]*\) runs with memory refused$/\1/p' "$counting/said" | grep . || echo 0)))
    count "$last"
    echo "   $name: $last, $(($(date +%s) - began)) s"
}

# skips_forbidden: what the last check skipped and must not with CI=true
skips_forbidden() {
    [ "${CI:-}" != true ] || grep '^skipped: ' "$counting/said" | grep -v "the kernel's device"
}

# the_sum: prints what was counted; the status says whether a check failed
the_sum() {
    echo "$memory_refused runs with memory refused"
    echo "$passed passed, $failed failed"
    [ "$failed" -eq 0 ]
}
