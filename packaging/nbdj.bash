# The completion of nbdj and nbdj-server for bash: commands, and of each its options as its help tells them.
_nbdj() {
    local word=${COMP_WORDS[COMP_CWORD]} command=${COMP_WORDS[1]}
    if [ "$COMP_CWORD" -eq 1 ] || { [ "$COMP_CWORD" -eq 2 ] && [ "$command" = help ]; }; then
        mapfile -t COMPREPLY < <(compgen -W 'format serve status pipe recover upgrade check rehearse import export help --help --version' -- "$word")
        return
    fi
    case ${COMP_WORDS[COMP_CWORD - 1]} in
    --cache) mapfile -t COMPREPLY < <(compgen -W 'writeback writethrough ordered' -- "$word") ;;
    --layout) mapfile -t COMPREPLY < <(compgen -W '1 2' -- "$word") ;;
    --when-full) mapfile -t COMPREPLY < <(compgen -W 'wait refuse' -- "$word") ;;
    --on-fault) mapfile -t COMPREPLY < <(compgen -W 'exit stay' -- "$word") ;;
    --on-full) mapfile -t COMPREPLY < <(compgen -W 'wait stop' -- "$word") ;;
    *)
        case $word in
        -*) mapfile -t COMPREPLY < <(compgen -W "$(_nbdj_options "${COMP_WORDS[0]}" "$command")" -- "$word") ;;
        *) mapfile -t COMPREPLY < <(compgen -f -- "$word") ;;
        esac
        ;;
    esac
}
# The options of a command: the lines of its help that begin with one.
_nbdj_options() {
    "$1" "$2" --help 2>/dev/null | sed -n 's/^ *\(-[A-Za-z], \)\{0,1\}\(--[a-z-]*\).*/\2/p' | sort -u
}
# nbdj-server takes the options of `nbdj serve`, and gives --until-eof itself.
_nbdj_server() {
    local program=${COMP_WORDS[0]%-server} word=${COMP_WORDS[COMP_CWORD]}
    COMP_WORDS=("$program" serve "${COMP_WORDS[@]:1}")
    COMP_CWORD=$((COMP_CWORD + 1))
    if [ "$COMP_CWORD" -eq 2 ] && [[ $word != -* ]]; then
        mapfile -t COMPREPLY < <(compgen -f -- "$word")
        return
    fi
    _nbdj
    local at
    for at in "${!COMPREPLY[@]}"; do
        case ${COMPREPLY[at]} in
        --until-eof | --help | --version) unset "COMPREPLY[at]" ;;
        esac
    done
    COMPREPLY=("${COMPREPLY[@]}")
}
complete -o filenames -F _nbdj nbdj
complete -o filenames -F _nbdj_server nbdj-server
