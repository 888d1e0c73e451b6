# Completion for bash: the commands of b67, and after one the options that it still wants. To switch it on for good, copy it:
#
#     mkdir -p ~/.local/share/bash-completion/completions
#     cp scripts/b67.bash ~/.local/share/bash-completion/completions/b67
#
# or, for one shell: . scripts/b67.bash
_b67() {
    local word=${COMP_WORDS[COMP_CWORD]} before=${COMP_WORDS[COMP_CWORD - 1]} options='' words='' option
    COMPREPLY=()
    if [ "$COMP_CWORD" -eq 1 ]; then
        words='run image resume dump check asm convert bind exercise'
    else
        case $before in
        --core) words='4096 65536 1048575' ;;
        --backing | '<' | '>')
            mapfile -t COMPREPLY < <(compgen -f -- "$word")
            return
            ;;
        *)
            case ${COMP_WORDS[1]} in
            run | image) options='--core --backing' ;;
            resume) options='--backing' ;;
            exercise) [ "$COMP_CWORD" -lt 4 ] || options='--core' ;;
            esac
            for option in $options; do
                case " ${COMP_WORDS[*]} " in *" $option "*) ;; *) words="$words $option" ;; esac
            done
            ;;
        esac
    fi
    mapfile -t COMPREPLY < <(compgen -W "$words" -- "$word")
}
complete -o default -F _b67 b67
