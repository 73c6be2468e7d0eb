# What the rows of --all share: boards on one bus, and what becomes of each. It has read rows.sh.
# shellcheck shell=sh disable=SC2034,SC2154

# board PATH SETTING..: one more board; its image is in saved-PATH, and what was sent to it in log-PATH.
board() {
    path=$1
    shift
    printf 'USB_PATH=%s\tUSB_SAVE=%s/saved-%s\tUSB_LOG=%s/log-%s' "$path" "$work" "$path" "$work" "$path" >> boards
    for setting in "$@"; do
        printf '\t%s' "$setting" >> boards
    done
    printf '\n' >> boards
}
no_boards() {
    rm -f boards saved-* log-*
}
# all WORDS..: runs it over the boards. How long it took is in $took.
all() {
    code=0
    began=$(date +%s)
    # shellcheck disable=SC2086
    env LD_LIBRARY_PATH="$work" USB_IMAGE="$work/old" USB_BOARDS="$work/boards" timeout -k 5 60 $as ./dfu-flash --all "$@" > out 2> err \
        || code=$?
    took=$(($(date +%s) - began))
}
# ended PATH REPORT IMAGE: the record of the board at this path, and the image that it has; - is one that was not worked with.
ended() {
    expect "$1: $2" test "$(sed -n "s/^$1 \(serial [^ ]* \)*[0-9.]* s \([^:]*\): .*/\2/p" out)" = "$2"
    if [ "$3" = - ]; then
        expect "$1: it was not worked with" test ! -e "saved-$1"
    else
        expect "$1: the $3 image" cmp "saved-$1" "$3"
    fi
}
