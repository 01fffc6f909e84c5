# shellcheck shell=bash
# Completes the arguments of luksrd in bash: commands, the options of each that are not there yet,
# hash names, and files. Files are left to readline, which knows how to quote them.
_luksrd() {
    local current=${COMP_WORDS[COMP_CWORD]} before=${COMP_WORDS[COMP_CWORD - 1]}
    local options='' awaited='' ended='' inputs=0 offers='' at word IFS=$' \t\n'
    COMPREPLY=()
    case ${COMP_WORDS[1]} in
    isLuks | luksUUID | luksDump | luksCheck) options=' --header ' ;;
    testPassphrase | luksCat) options=' --key-file --key-slot --max-iterations --header ' ;;
    afSplit) options=' --hash --stripes --random ' ;;
    afMerge) options=' --hash --stripes --key-bytes ' ;;
    esac

    # which option awaits its value, which ones are not there yet, and how many inputs are named;
    # readline makes = and : words of their own
    for ((at = 2; at < COMP_CWORD; at++)); do
        word=${COMP_WORDS[at]}
        if [ "$word" = = ] && [ -n "$awaited" ] && [ "${COMP_WORDS[at - 1]}" = "$awaited" ]; then
            continue
        elif [ -n "$awaited" ]; then
            awaited=
        elif [[ $word == [:=]* ]]; then
            at=$((at + 1))
        elif [ -n "$ended" ] || [[ $word != --* ]]; then
            inputs=$((inputs + 1))
        elif [ "$word" = -- ]; then
            ended=yes
        else
            awaited=$word
            options=${options/ $word / }
        fi
    done
    [ "$current" = = ] && [ -n "$awaited" ] && [ "$before" = "$awaited" ] && current=

    if [ "$COMP_CWORD" = 1 ]; then
        offers='isLuks luksUUID luksDump luksCheck testPassphrase luksCat afSplit afMerge'
    elif [ -z "$options" ]; then
        return
    elif [ -n "$awaited" ]; then
        case $awaited in
        --hash) offers='sha1 sha224 sha256 sha384 sha512' ;;
        --key-file | --header | --random) compopt -o default ;;
        esac
    elif [ -z "$ended" ] && { [[ $current == -* ]] || [ "$inputs" -gt 0 ]; }; then
        offers=$options
    elif [ "$inputs" = 0 ]; then
        compopt -o default
    fi
    mapfile -t COMPREPLY < <(compgen -W "$offers" -- "$current")
}
complete -F _luksrd luksrd
