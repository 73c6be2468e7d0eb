# Completion of dfu for bash: source this file, or put it as `dfu` into a folder of bash-completion.

# Names of files are left to readline, which knows how each has to be quoted.
_dfu() {
    local word=${COMP_WORDS[COMP_CWORD]} command at=1 place=0 options='--explain -h --help' option is_value=
    COMPREPLY=()
    # The command may stand behind an option.
    [ "$COMP_CWORD" -eq 1 ] || [ "${COMP_WORDS[1]}" != --explain ] || at=2
    command=${COMP_WORDS[at]}
    if [ "$COMP_CWORD" -eq "$at" ]; then
        case $word in
        -*) COMPREPLY=($(compgen -W "$options -V --version" -- "$word")) ;;
        *) COMPREPLY=($(compgen -W 'check add extract set show run judge plan help' -- "$word")) ;;
        esac
        return
    fi
    [ "$command" != add ] || options='--vid --pid --did --format --fill --explain -h --help'
    [ "$command" != set ] || options='--vid --pid --did --explain -h --help'
    [ "$command" != run ] || options='--trace --file --explain -h --help'
    [ "$command" != judge ] || options='--interface --device --dfuse --json --explain -h --help'
    [ "$command" != plan ] || options='--part --boot --areas --parts --json --explain -h --help'
    case $command in check | show) options='--json --explain -h --help' ;; esac
    at=$((at + 1))
    # How many words that are no options stand before this one. In `--vid=1209` readline takes the `=`
    # for a word.
    while [ "$at" -lt "$COMP_CWORD" ]; do
        case ${COMP_WORDS[at]} in
        --vid | --pid | --did | --format | --fill | --interface | --device | --file | --part | --boot | --areas | --parts)
            option=${COMP_WORDS[at]}
            at=$((at + 1))
            [ "${COMP_WORDS[at]}" != = ] || [ "$at" -eq "$COMP_CWORD" ] || at=$((at + 1))
            [ "$at" -lt "$COMP_CWORD" ] || is_value=$option
            ;;
        -?*) ;;
        *) place=$((place + 1)) ;;
        esac
        at=$((at + 1))
    done
    case $is_value in --file | --parts) compopt -o default ;; esac
    [ "$is_value" != --areas ] || COMPREPLY=($(compgen -W '2 3' -- "${word#=}"))
    [ "$is_value" != --format ] || COMPREPLY=($(compgen -W 'raw auto ihex srec uf2 elf' -- "${word#=}"))
    [ -z "$is_value" ] || return
    case $command:$place:$word in
    help:*:-*) ;;
    *:-?* | *:-) COMPREPLY=($(compgen -W "$options" -- "$word")) ;;
    check:*:* | run:0:* | judge:*:* | add:[01]:* | extract:[01]:* | set:0:*) compopt -o default ;;
    show:0:*) COMPREPLY=($(compgen -W 'functional status state setup configuration' -- "$word")) ;;
    help:0:*) COMPREPLY=($(compgen -W 'check add extract set show run judge plan help' -- "$word")) ;;
    esac
}
complete -F _dfu dfu
