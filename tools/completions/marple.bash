# Completes the words of marple and of the commands that are installed with it in bash.

# The options of the command $1.
_marple_options() {
    case $1 in
    run) echo --buckets --ways --pipe --lag --refresh --every ;;
    net) echo --buckets --ways --pipe --lag ;;
    enclose | run-plan | trial) echo --buckets --ways --pipe --lag --refresh ;;
    plan) echo --ways ;;
    esac
}

# Fills COMPREPLY with those of the words $2 .. that begin with $1.
_marple_words() {
    local typed=$1 word
    shift
    COMPREPLY=()
    for word in "$@"; do
        [[ $word == "$typed"* ]] && COMPREPLY+=("$word")
    done
}

# Fills COMPREPLY with files.
_marple_files() {
    compopt -o filenames 2>/dev/null
    mapfile -t COMPREPLY < <(compgen -f -- "$1")
}

_marple() {
    local typed=${COMP_WORDS[COMP_CWORD]} command=${COMP_WORDS[1]} operands=2
    if ((COMP_CWORD == 1)); then
        _marple_words "$typed" run net enclose plan compile run-plan gen trial
        return
    fi
    case $command in
    plan | compile) operands=1 ;;
    esac
    if ((COMP_CWORD <= 1 + operands)); then
        case $command in
        run | net | enclose | plan | compile | run-plan) _marple_files "$typed" ;;
        *) COMPREPLY=() ;;
        esac
    elif (((COMP_CWORD - operands) % 2 == 0)); then
        # shellcheck disable=SC2046
        _marple_words "$typed" $(_marple_options "$command")
    elif [[ ${COMP_WORDS[COMP_CWORD - 1]} == --ways ]]; then
        _marple_words "$typed" 1 2 4 8 16 32
    else
        COMPREPLY=()
    fi
}

_marple_explain() {
    local typed=${COMP_WORDS[COMP_CWORD]}
    if ((COMP_CWORD == 1)); then
        _marple_files "$typed"
        return
    fi
    case ${COMP_WORDS[COMP_CWORD - 1]} in
    --for) _marple_words "$typed" run net enclose compile run-plan ;;
    --trace) _marple_files "$typed" ;;
    --ways) _marple_words "$typed" 1 2 4 8 16 32 ;;
    *) _marple_words "$typed" --for --trace --ways ;;
    esac
}

# Fills COMPREPLY with those of the options $2 .. that begin with $1, if it begins an option, and else with files.
_marple_files_or() {
    local typed=$1
    shift
    if [[ $typed == -* ]]; then
        _marple_words "$typed" "$@"
    else
        _marple_files "$typed"
    fi
}

_marple_trace_from_captures() {
    case ${COMP_WORDS[COMP_CWORD - 1]} in
    --switch | --queue | --origin | --shift | --direction | --split) COMPREPLY=() ;;
    *)
        _marple_files_or "${COMP_WORDS[COMP_CWORD]}" --switch --queue --origin --shift --direction --both-directions \
            --split --no-split --force
        ;;
    esac
}

_marple_trace_from_capture() {
    case ${COMP_WORDS[COMP_CWORD - 1]} in
    --switch | --queue | --origin) COMPREPLY=() ;;
    *) _marple_files_or "${COMP_WORDS[COMP_CWORD]}" --switch --queue --origin ;;
    esac
}

_marple_tools() {
    case ${COMP_WORDS[COMP_CWORD - 1]} in
    marple-tools) _marple_words "${COMP_WORDS[COMP_CWORD]}" facts split ;;
    --parts | --salt | --range) COMPREPLY=() ;;
    *) _marple_files_or "${COMP_WORDS[COMP_CWORD]}" --parts --into --salt --range ;;
    esac
}

_marple_quads() {
    _marple_words "${COMP_WORDS[COMP_CWORD]}" --add
}

_marple_sql() {
    COMPREPLY=()
}

_marple_draw() {
    _marple_files_or "${COMP_WORDS[COMP_CWORD]}" --to
}

_marple_parts() {
    case ${COMP_WORDS[COMP_CWORD - 1]} in
    --by | --parts | --scheduler | --workers | --buckets | --pipe | --lag) COMPREPLY=() ;;
    --ways) _marple_words "${COMP_WORDS[COMP_CWORD]}" 1 2 4 8 16 32 ;;
    *)
        _marple_files_or "${COMP_WORDS[COMP_CWORD]}" --by --parts --scheduler --workers --work --buckets --ways --pipe --lag \
            --version
        ;;
    esac
}

_marple_report() {
    _marple_files_or "${COMP_WORDS[COMP_CWORD]}" --output --version
}

complete -F _marple marple
complete -F _marple_tools marple-tools
complete -F _marple_explain marple-explain
complete -F _marple_trace_from_captures marple-trace-from-captures
complete -F _marple_trace_from_capture marple-trace-from-capture
complete -F _marple_quads marple-quads
complete -F _marple_sql marple-sql
complete -F _marple_draw marple-draw
complete -F _marple_parts marple-parts
complete -F _marple_report marple-report
