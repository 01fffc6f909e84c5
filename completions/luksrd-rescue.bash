# shellcheck shell=bash
# Completes the arguments of luksrd-rescue in bash: commands, the options of each, and files. Files
# are left to readline, which knows how to quote them.
_luksrd_rescue() {
    local current=${COMP_WORDS[COMP_CWORD]} before=${COMP_WORDS[COMP_CWORD - 1]} offers='' IFS=$' \t\n'
    local choice='--image-map --partition --offset --length --header' key='--key-file --volume-key-file --key-slot
        --cipher --payload-offset --sector-size'
    COMPREPLY=()
    if [ "$COMP_CWORD" = 1 ]; then
        offers='look decrypt try serve'
        [[ $current == -* ]] && offers='--help --version'
        mapfile -t COMPREPLY < <(compgen -W "$offers" -- "$current")
        return
    fi
    # (readline makes = a word of its own)
    if [ "$current" = = ]; then
        current=''
    elif [ "$before" = = ]; then
        before=${COMP_WORDS[COMP_CWORD - 2]}
    fi
    case $before in
    --cipher) offers='aes-xts-plain64 aes-xts-plain aes-cbc-essiv:sha256 aes-cbc-plain64' ;;
    --sector-size) offers='512 1024 2048 4096' ;;
    --partition | --offset | --length | --key-slot | --payload-offset | --lv | --range | --jobs | --max-iterations)
        return ;;
    *)
        if [[ $current != -* ]]; then
            compopt -o default
            return
        fi
        case ${COMP_WORDS[1]} in
        look) offers='--json --search' ;;
        decrypt) offers="--output --lv --range --map --resume --retry --force --quiet $choice $key" ;;
        try) offers="--candidates --state --jobs --key-slot --max-iterations --quiet $choice" ;;
        serve) offers="--quiet $choice $key" ;;
        *) return ;;
        esac
        offers+=' --help' ;;
    esac
    mapfile -t COMPREPLY < <(compgen -W "$offers" -- "$current")
}
complete -F _luksrd_rescue luksrd-rescue
