# bash completion for luksrd-audit
_luksrd_audit() {
    local word=${COMP_WORDS[COMP_CWORD]} before=${COMP_WORDS[COMP_CWORD - 1]}
    if [ "$before" = --min-iterations ]; then
        COMPREPLY=()
    elif [ "$before" = --fail-on ]; then
        mapfile -t COMPREPLY < <(compgen -W 'low high' -- "$word")
    elif [[ $word == -* ]]; then
        mapfile -t COMPREPLY < <(compgen -W '--min-iterations --fail-on --search --tsv --help --version' -- "$word")
    else
        compopt -o filenames
        mapfile -t COMPREPLY < <(compgen -f -- "$word")
    fi
}
complete -F _luksrd_audit luksrd-audit
