# Completion of tsumego, tsumego-show, tsumego-ask, tsumego-book, tsumego-gtp and tsumego-serve for bash. Source this file, or copy it to
# /usr/share/bash-completion/completions under each of these names.
_tsumego() {
    local word=${COMP_WORDS[COMP_CWORD]} words=''
    case $COMP_CWORD,${COMP_WORDS[1]},$word in
        1,*) words='solve score check' ;;
        *,check,-*) words='--parts' ;;
        # tools/options begins
        *,solve,-*) words='--budget --depth --total --dfpn --workers --cert --parts --turns --progress' ;;
        # tools/options ends
    esac
    mapfile -t COMPREPLY < <(compgen -W "$words" -- "$word")
}
complete -o default -F _tsumego tsumego
complete -o default -W '--mark --close --svg --sgf --depth --help --version' tsumego-show
complete -o default -W '-o --html --json --seconds --help --version' tsumego-ask
complete -o default -W '--seconds --jobs --machines --certificates --help --version' tsumego-book
complete -W '--seconds --help --version' tsumego-gtp
complete -o default -W '--pipe --program --show --address --port --at-once --seconds --memory --bytes --total --dfpn --help --version' tsumego-serve
