#!/bin/sh
# Checks of the built program NBDJ with standard streams that are closed, or that go into its image. Prints a line for each check
# that fails, and last 'N passed, M failed'.
set -u
here=$(CDPATH='' cd "$(dirname "$0")/.." && pwd)
. "$here/tests/checks.sh"

# An image with a stored group, the requests of a client, and a script.
fresh 16 2097152
bytes '01 0000000d 0000000000000001 00000001 02 0000000000000000 00000004 00' | dd of=d.img bs=1 seek=8192 conv=notrunc 2>/dev/null
cp d.img stored.img
{ request 0001 1 1 4096 4096; filled 4096 A; request 0000 2 2 0 0; } >requests
cp "$here/examples/crash-before-the-flush.script" script

# ran COMMAND STREAMS: the status of a command over a copy of the image with these redirections, and the checksum of the image after it
ran() {
    cp stored.img d.img
    case $1 in
    pipe*) input=requests ;;
    rehearse) input=script ;;
    *) input=/dev/null ;;
    esac
    case $1 in
    serve*)
        sh -c "exec timeout 60 \"\$NBDJ\" $1 $2" <"$input" >said 2>&1 &
        serving=$!
        wait_for 10 test -S d.sock
        "$here/tools/copy-export" d.sock copy >/dev/null
        wait "$serving"
        ;;
    *) sh -c "exec timeout 60 \"\$NBDJ\" $1 $2" <"$input" >said 2>&1 ;;
    esac
    echo "$? $(cksum <d.img)"
    rm -f d.sock
}

# With closed streams each command does the same to the image as with /dev/null, and ends with the same status.
while read -r closed nowhere; do
    closed=$(echo "$closed" | tr , ' ')
    nowhere=$(echo "$nowhere" | tr , ' ')
    while IFS='|' read -r command status without_input; do
        case $closed in *'<&-'*) status=$without_input ;; esac
        wanted=$(ran "$command" "$nowhere")
        is "$command $nowhere" "$status" "${wanted%% *}"
        is "$command $closed" "$wanted" "$(ran "$command" "$closed")"
    done <<'COMMANDS'
format d.img --blocks 16 --area 2097152|0|0
pipe d.img|0|1
serve d.img --unix d.sock --sessions 1|0|0
recover d.img|0|0
check d.img|0|0
rehearse|0|2
COMMANDS
done <<'STREAMS'
<&- </dev/null
>&- >/dev/null
2>&- 2>/dev/null
<&-,>&- </dev/null,>/dev/null
>&-,2>&- >/dev/null,2>/dev/null
<&-,>&-,2>&- </dev/null,>/dev/null,2>/dev/null
STREAMS

# A command whose output or errors would go into the image is refused, and the image stays as it is.
while read -r command; do
    for stream in '>>' '1<>' '2>>' '2<>'; do
        cp stored.img d.img
        sh -c "exec timeout 60 \"\$NBDJ\" $command ${stream}d.img" <requests >said 2>&1
        is "$command ${stream}d.img" 1 $?
        case $stream in
        2*) is "what $command ${stream}d.img says" '' "$(cat said)" ;;
        *) is "what $command ${stream}d.img says" 'nbdj: d.img is standard output' "$(cat said)" ;;
        esac
        same "the image after $command ${stream}d.img" stored.img d.img
    done
done <<'COMMANDS'
format d.img --blocks 16 --area 2097152
pipe d.img
serve d.img --unix d.sock --sessions 1
recover d.img
check d.img
COMMANDS
the_end
