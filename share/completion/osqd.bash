# shellcheck shell=bash
# Completion of osqd's words for bash: source it, or put it at /usr/share/bash-completion/completions/osqd.

# The options of a command.
_osqd_options() {
    local sources='--audit --changes --tables' clock='--start --step --ticks --records'
    local session="--config --host --platform --agent $sources --store $clock --frames-out --answers-in"
    case $1 in
        replay) echo "$session" ;;
        daemon) echo "$session --workers" ;;
        query) echo "--text --config $sources --store $clock --explain" ;;
        check) echo '--config --host --platform --agent' ;;
        collect) echo '--frames --ledger --ticks' ;;
        report) echo '--store' ;;
        generate | selftest) echo '--from --count' ;;
    esac
}

_osqd() {
    local cur=${COMP_WORDS[COMP_CWORD]} before=${COMP_WORDS[COMP_CWORD - 1]} words='' word
    COMPREPLY=()
    if [ "$COMP_CWORD" = 1 ]; then
        mapfile -t COMPREPLY < <(compgen -W 'replay daemon query check collect generate selftest report' -- "$cur")
        return
    fi
    case $before in
        --explain) ;;
        --platform) mapfile -t COMPREPLY < <(compgen -W 'linux darwin freebsd windows' -- "$cur"); return ;;
        --host) mapfile -t COMPREPLY < <(compgen -W "$HOSTNAME" -- "$cur"); return ;;
        --config | --audit | --changes | --tables | --store | --frames | --ledger | --frames-out | --answers-in)
            compopt -o filenames
            mapfile -t COMPREPLY < <(compgen -f -- "$cur")
            return ;;
        --*) return ;;
    esac
    for word in $(_osqd_options "${COMP_WORDS[1]}"); do
        case $word:" ${COMP_WORDS[*]:0:COMP_CWORD} " in
            --audit:* | --changes:* | --tables:*) words+=" $word" ;;    # these may repeat
            *" $word "*) ;;
            *) words+=" $word" ;;
        esac
    done
    mapfile -t COMPREPLY < <(compgen -W "$words" -- "$cur")
}
complete -F _osqd osqd
