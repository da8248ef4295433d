# Bash completion for confluo-report. Source this file, or put it where bash-completion looks for one of this name.

_confluo_report() {
    local word=${COMP_WORDS[COMP_CWORD]} before=${COMP_WORDS[COMP_CWORD-1]} options
    COMPREPLY=()
    if [ "$COMP_CWORD" -eq 1 ]; then
        mapfile -t COMPREPLY < <(compgen -W "run show explain json csv prometheus stream merge plot packets ask over check --version --help" -- "$word")
        return
    fi
    case ${COMP_WORDS[1]} in
        run) options="--long --setup --writers --capacity --segments --nodes --live --truncated" ;;
        show) options="--setup --capture --most" ;;
        explain) options="--setup --capture --command --status" ;;
        json) options="--setup --capture --indent" ;;
        csv) options="--setup --capture --raw" ;;
        prometheus) options="--setup --label --lists --textfile" ;;
        stream) options="--setup --json --quiet --most --prometheus --label --exec --exec-limit --exec-seconds --again --silence --beats --tcpdump" ;;
        merge) options="--setup --tagged" ;;
        plot) options="--setup --capture --tagged --out --width --dotted --most" ;;
        packets) options="--ask --out --into" ;;
        ask) options="--setup-only --report --json --csv --most --schema --truncated --as-one --out" ;;
        over) options="--setup --jobs --scheduler --format --keep-going --truncated --split --most" ;;
        check) options="--capture" ;;
        *) options="" ;;
    esac
    case $before in
        --status) mapfile -t COMPREPLY < <(compgen -W "1 2 3 4 5 6 7 8 9" -- "$word"); return ;;
        --into) mapfile -t COMPREPLY < <(compgen -d -- "$word"); return ;;
        --exec) mapfile -t COMPREPLY < <(compgen -c -- "$word"); return ;;
        --most | --indent | --width | --label | --command | --ask | --exec-limit | --exec-seconds | --again | --silence | --capacity | --live | --jobs | --scheduler) return ;;
        --writers) mapfile -t COMPREPLY < <(compgen -W "1 2 4 8 15" -- "$word"); return ;;
        --segments) mapfile -t COMPREPLY < <(compgen -W "1 2 4 16" -- "$word"); return ;;
        --nodes) mapfile -t COMPREPLY < <(compgen -W "1024 8192 65536" -- "$word"); return ;;
        --format) mapfile -t COMPREPLY < <(compgen -W "show json csv prometheus report" -- "$word"); return ;;
        --schema) mapfile -t COMPREPLY < <(compgen -W "packet6 packet" -- "$word"); return ;;
        --setup | --capture | --out | --textfile | --prometheus | --tcpdump) mapfile -t COMPREPLY < <(compgen -f -- "$word"); return ;;
    esac
    if [ "${word:0:1}" = - ]; then
        mapfile -t COMPREPLY < <(compgen -W "$options --help" -- "$word")
    else
        mapfile -t COMPREPLY < <(compgen -f -- "$word")
    fi
}

complete -o filenames -F _confluo_report confluo-report
