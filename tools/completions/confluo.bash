# Bash completion for confluo. Source this file, or put it where bash-completion looks for one of this name.

_confluo() {
    local word=${COMP_WORDS[COMP_CWORD]} before=${COMP_WORDS[COMP_CWORD-1]} options
    COMPREPLY=()
    if [ "$COMP_CWORD" -eq 1 ]; then
        mapfile -t COMPREPLY < <(compgen -W "run synth dump snapshot watch" -- "$word")
        return
    fi
    case ${COMP_WORDS[1]} in
        run) options="--setup --long --writers --capacity --segments --nodes --live --truncated" ;;
        synth) options="--setup --seed --count --writers --capacity --segments --nodes" ;;
        snapshot) options="--setup --after --turn --capacity --nodes --truncated" ;;
        dump) options="--schema --truncated" ;;
        watch) options="--setup --capacity --segments --nodes --every --beat --truncated" ;;
        *) options="" ;;
    esac
    case $before in
        --writers) mapfile -t COMPREPLY < <(compgen -W "1 2 4 8 15" -- "$word"); return ;;
        --nodes) mapfile -t COMPREPLY < <(compgen -W "1024 8192 65536" -- "$word"); return ;;
        --segments) mapfile -t COMPREPLY < <(compgen -W "1 2 4 16" -- "$word"); return ;;
        --every | --beat) mapfile -t COMPREPLY < <(compgen -W "0 1 4096" -- "$word"); return ;;
        --schema) mapfile -t COMPREPLY < <(compgen -W "packet packet6" -- "$word"); return ;;
        --capacity | --live | --seed | --count | --after | --turn) return ;;
    esac
    if [ "$before" != --setup ] && [ "${word:0:1}" = - ]; then
        mapfile -t COMPREPLY < <(compgen -W "$options" -- "$word")
    elif [ "$before" = --setup ] || [ "${COMP_WORDS[1]}" != synth ]; then
        mapfile -t COMPREPLY < <(compgen -f -- "$word")
    fi
}

complete -o filenames -F _confluo confluo
