# Completion of dfu-flash for bash: source this file, or put it as `dfu-flash` into a folder of bash-completion.

# What --list has of the boards that are there: identifiers, paths, serial numbers or alternate settings. One with a byte that can't be typed
# is escaped there, and left out.
_dfu_flash_cut() {
    case $1 in
    device) sed -n 's/^\([^ ]*\) path .*/\1/p' ;;
    path) sed -n 's/^[^ ]* path \([^ ]*\) .*/\1/p' ;;
    serial) sed -n 's/^[^ ]* path [^ ]* serial \([^\\]*\) interface [0-9]* alt .*/\1/p' ;;
    alt) sed -n 's/^[^ ]* path .* interface [0-9]* alt \([0-9]*\) .*/\1/p' ;;
    esac
}

# readline takes a word apart at each colon and each =, so that what stands before the last of these isn't offered.
_dfu_flash_there() {
    local line=${COMP_LINE:0:COMP_POINT} typed one
    typed=${line##*[[:blank:]=]}
    COMPREPLY=()
    while IFS= read -r one; do
        [[ $one != "$typed"* ]] || COMPREPLY+=("$(printf %q "$one")")
    done < <("$1" --list 2> /dev/null | _dfu_flash_cut "$2" | sort -u)
    case $typed in
    *:*) COMPREPLY=("${COMPREPLY[@]#"${typed%"${typed##*:}"}"}") ;;
    esac
}

# Names of files are left to readline, which knows how each has to be quoted.
_dfu_flash() {
    local word=${COMP_WORDS[COMP_CWORD]} line=${COMP_LINE:0:COMP_POINT}
    # The words of the line, as blanks and = take it apart; the last one is what is typed.
    local -a words
    IFS=$' \t=' read -ra words <<< "$line."
    local before=
    [ "${#words[@]}" -lt 2 ] || before=${words[${#words[@]} - 2]}
    COMPREPLY=()
    case $before in
    --device | -d)
        _dfu_flash_there "${1:-dfu-flash}" device
        return
        ;;
    --path | -p)
        _dfu_flash_there "${1:-dfu-flash}" path
        return
        ;;
    --serial | -S)
        _dfu_flash_there "${1:-dfu-flash}" serial
        return
        ;;
    --alt | -a)
        _dfu_flash_there "${1:-dfu-flash}" alt
        return
        ;;
    --log)
        compopt -o filenames
        COMPREPLY=($(compgen -d -- "$word"))
        return
        ;;
    --upload | --report | --ports | --stamp | -U | -D)
        compopt -o default
        return
        ;;
    --interface | --retry | --count | --stamp-at | --timeout | --limits | --transfer-size | --address | --length | -i | -t | -s) return ;;
    esac
    case $word in
    -*)
        COMPREPLY=($(compgen -W '--device --path --serial --interface --alt --no-verify --raw --upload --force --detach
            --wait --timeout --limits --transfer-size --address --length --no-leave --dry-run --quiet --verbose --json --all
            --log --report --ports --retry --count --stamp --stamp-at --list --demo -h --help -V --version' -- "$word"))
        ;;
    *) compopt -o default ;;
    esac
}
complete -F _dfu_flash dfu-flash
