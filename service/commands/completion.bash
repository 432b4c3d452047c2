# Completion of vlm for bash.

_vlm() {
    local current=${COMP_WORDS[COMP_CWORD]} previous=${COMP_WORDS[COMP_CWORD - 1]} sessions
    COMPREPLY=()
    if [ "$COMP_CWORD" = 1 ]; then
        mapfile -t COMPREPLY < <(compgen -W 'play cluster watch lock who metrics kill --help --version --proof' \
            -- "$current")
        return
    fi
    case "${COMP_WORDS[1]},$previous" in
        lock,-m | lock,--mode) mapfile -t COMPREPLY < <(compgen -W 'NL CR CW PR PW EX' -- "$current") ;;
        lock,--on-blocking)
            # (without those of real time, and without what bash only traps)
            mapfile -t COMPREPLY < <(compgen -A signal -- "$current" | sed -n '/^SIGRT/d; /^SIG[A-Z0-9]*$/p')
            ;;
        lock,*)
            if [[ $current == -* ]]; then
                mapfile -t COMPREPLY < <(compgen -W '--connect -m -n -w -E --value --on-blocking --help' -- "$current")
            else
                compopt -o filenames 2>/dev/null
                mapfile -t COMPREPLY < <(compgen -A command -A file -- "$current")
            fi
            ;;
        kill,*)
            [[ $current == -* ]] && mapfile -t COMPREPLY < <(compgen -W '--connect --help' -- "$current") && return
            sessions=$(timeout 2 vlm who 2>/dev/null | awk 'NR > 1 {print $5}' | sort -u)
            mapfile -t COMPREPLY < <(compgen -W "$sessions" -- "$current")
            ;;
        metrics,*) mapfile -t COMPREPLY < <(compgen -W '--connect --help' -- "$current") ;;
        who,*) mapfile -t COMPREPLY < <(compgen -W '--connect -w --json --help' -- "$current") ;;
    esac
}
complete -F _vlm vlm
