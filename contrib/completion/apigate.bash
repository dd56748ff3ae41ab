# Completion of apigate's words for bash 4 and later. Source it from ~/.bashrc, or copy it to the folder of bash-completion
# under the name apigate.

# Prints the options that are read in a mode, those first that have to be given.
_apigate_options() {
    local common="--std --platforms --workers"
    case $1 in
        features) echo "--new $common" ;;
        frozen) echo "--new --api --except $common" ;;
        judge) echo "--old --new $common" ;;
        advise) echo "--old --new --version $common" ;;
        gate) echo "--old --new --api --version --except $common" ;;
        skipped) echo "--new $common" ;;
        vet) echo "--new --client $common" ;;
        make) echo "--seed --size --workers" ;;
    esac
}

# Offers what can follow the last comma of a value: the words of $2, or files where there are none.
_apigate_list() {
    local before="" last=$1 word
    if [[ $1 == *,* ]]; then
        before=${1%,*},
        last=${1##*,}
    fi
    while IFS= read -r word; do
        # a platform stands once
        [[ $2 && ,$before == *,"$word",* ]] || COMPREPLY+=("$before$word")
    done < <(if [[ $2 ]]; then compgen -W "$2" -- "$last"; else compgen -f -- "$last"; fi)
    compopt -o nospace 2>/dev/null
}

_apigate() {
    local modes="features frozen judge advise gate skipped vet make"
    local platforms="linux-386 linux-arm windows-386 linux-amd64 linux-arm64 linux-riscv64 linux-s390x android-arm64 darwin-amd64
        darwin-arm64 ios-arm64 freebsd-amd64 illumos-amd64 windows-amd64"
    local current=${COMP_WORDS[COMP_CWORD]} option at left=""
    COMPREPLY=()
    if ((COMP_CWORD == 1)); then
        mapfile -t COMPREPLY < <(compgen -W "$modes" -- "$current")
    elif ((COMP_CWORD % 2)); then
        case ${COMP_WORDS[COMP_CWORD - 1]} in
            --old | --new | --std | --client)
                compopt -o filenames 2>/dev/null
                mapfile -t COMPREPLY < <(compgen -d -- "$current")
                ;;
            --except)
                compopt -o filenames 2>/dev/null
                mapfile -t COMPREPLY < <(compgen -f -- "$current")
                ;;
            --api) _apigate_list "$current" "" ;;
            --platforms) _apigate_list "$current" "$platforms" ;;
            --workers) mapfile -t COMPREPLY < <(compgen -W "1 2 4 8 16 32 64" -- "$current") ;;
        esac
    else
        for option in $(_apigate_options "${COMP_WORDS[1]}"); do
            for ((at = 2; at < COMP_CWORD; at += 2)); do
                [[ ${COMP_WORDS[at]} == "$option" ]] && continue 2
            done
            left+=" $option"
        done
        mapfile -t COMPREPLY < <(compgen -W "$left" -- "$current")
    fi
}

complete -F _apigate apigate
