# Completion of the words of release-gate for bash 4 and later. Source it from ~/.bashrc, or copy it to the folder of bash-completion
# under the name release-gate.

_release_gate() {
    local current=${COMP_WORDS[COMP_CWORD]}
    COMPREPLY=()
    case ${COMP_WORDS[COMP_CWORD - 1]} in
        --old | --new)
            compopt -o filenames 2>/dev/null
            mapfile -t COMPREPLY < <(compgen -W "$(git tag 2>/dev/null)" -- "$current"; compgen -d -- "$current")
            ;;
        --version | --release) mapfile -t COMPREPLY < <(compgen -W "$(git tag 2>/dev/null)" -- "$current") ;;
        --api | --except)
            compopt -o filenames 2>/dev/null
            mapfile -t COMPREPLY < <(compgen -f -- "$current")
            ;;
        --clients)
            compopt -o filenames 2>/dev/null
            mapfile -t COMPREPLY < <(compgen -d -- "$current")
            ;;
        --platforms | --seconds | --megabytes | --workers) ;;
        --format) mapfile -t COMPREPLY < <(compgen -W "text github json sarif junit" -- "$current") ;;
        *)
            if [[ $current == -* ]]; then
                mapfile -t COMPREPLY < <(compgen -W "--old --new --version --release --platforms --api --except --write-api --update-except --clients --places --format --seconds --megabytes --workers --help" -- "$current")
            else
                compopt -o filenames 2>/dev/null
                mapfile -t COMPREPLY < <(compgen -d -- "$current")
            fi
            ;;
    esac
}

complete -F _release_gate release-gate
