# Completion of dfu-gadget for bash: source this file, or put it as `dfu-gadget` into a folder of bash-completion.

# Names of files are left to readline, which knows how each has to be quoted.
_dfu_gadget() {
    local word=${COMP_WORDS[COMP_CWORD]} command= at=1 place=0 value= options='-h --help -V --version'
    COMPREPLY=()
    # How many words that are no options stand before this one, and the option whose value it is. In `--most=8M` readline takes the `=`
    # for a word.
    while [ "$at" -lt "$COMP_CWORD" ]; do
        case ${COMP_WORDS[at]} in
        --most | --controller | --config | --application | --upgrade | --check | --tries | --on-installed | --detach-timeout | \
            --transfer-size | --attributes | --busy | --manifest | --erase | --program | --least | \
            --root)
            value=${COMP_WORDS[at]}
            at=$((at + 1))
            [ "${COMP_WORDS[at]}" != = ] || [ "$at" -eq "$COMP_CWORD" ] || at=$((at + 1))
            [ "$at" -ge "$COMP_CWORD" ] || value=
            ;;
        -?*) ;;
        *)
            [ "$place" -ne 0 ] || command=${COMP_WORDS[at]}
            place=$((place + 1))
            ;;
        esac
        at=$((at + 1))
    done
    [ "$word" != = ] || word=
    case $value in
    --config | --check | --on-installed | --root) compopt -o default ;;
    --controller) COMPREPLY=($(compgen -W "$(ls /sys/class/udc 2> /dev/null)" -- "$word")) ;;
    --attributes) COMPREPLY=($(compgen -W 'download upload tolerant detach' -- "$word")) ;;
    esac
    [ -z "$value" ] || return
    case $command in
    format) options='--most --tries --force -h --help' ;;
    image) options='-h --help' ;;
    run)
        options='--controller --config --application --upgrade --check --tries --on-installed --dfu-mode --detach-timeout --transfer-size
            --attributes --busy --manifest --erase --program --least --dry-run --verbose --root -h --help'
        ;;
    start | confirm | end) options='--tries -h --help' ;;
    esac
    case $command:$place:$word in
    *:*:-*) COMPREPLY=($(compgen -W "$options" -- "$word")) ;;
    :0:*) COMPREPLY=($(compgen -W 'format image run start confirm end' -- "$word")) ;;
    format:[12]:* | image:1:* | run:1:* | start:1:* | confirm:1:* | end:1:*) compopt -o default ;;
    esac
}
complete -F _dfu_gadget dfu-gadget
