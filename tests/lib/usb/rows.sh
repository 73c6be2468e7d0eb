# What tests/apps/flash runs dfu-flash over the stand-in with: both are put into a folder of their own, $work, and run there. `top` is
# the folder of the repository.

# shellcheck disable=SC2154
# shellcheck source=tests/lib/support/counting.sh
. "$top/tests/lib/support/counting.sh"
# shellcheck source=tests/lib/support/flash.sh
. "$top/tests/lib/support/flash.sh"
chmod 755 "$work"
# LEFT_OUT: a file with what rows begin with, or have in them, that the system can't do; they are named, and not counted. NO_ALL: it has no
# --all.
if [ -n "${LEFT_OUT-}" ]; then
    wrong() {
        if printf '%s\n' "$*" | head -n 1 | grep -q -f "$LEFT_OUT"; then
            echo "left out: $(printf '%s' "$*" | head -n 1)"
        else
            echo "$*"
            failed=$((failed + 1))
        fi
    }
fi
cp "$build/dfu-flash" "$work"
"$top/tests/lib/usb/build" "$work"
cd "$work" || exit
printf 'the old image' > old
printf 'a new image of 26 bytes .\1' > new
"$dfu" add new new.dfu --vid 1209 --pid 0001 > /dev/null
"$dfu" add new any.dfu > /dev/null
"$dfu" add new other.dfu --vid 1209 --pid 0002 > /dev/null

# soon COMMAND..: waits until the command succeeds, half a minute at most.
soon() {
    for _ in $(seq 300); do
        "$@" && return
        sleep 0.1
    done
}

# is_taken NUMBER: the process has taken each signal that was sent to it, or has ended. A second one that comes before that is none.
is_taken() {
    ! grep -qs '^...Pnd:.*[1-9a-f]' "/proc/$1/status"
}

# flash SETTINGS WORDS..: runs it over a device that is set up so, as the user $as, with the fate of a transfer in $fate.
# Its status is in $code, its texts in out and err, what was sent in log, and the image that the device has then in saved.
flash() {
    settings=$1
    shift
    code=0
    rm -f saved log
    # shellcheck disable=SC2086
    env LD_LIBRARY_PATH="$work" USB_IMAGE="$work/old" USB_SAVE="$work/saved" USB_LOG="$work/log" USB_FATE="$fate" $settings \
        timeout -k 5 60 $as ./dfu-flash "$@" > out 2> err || code=$?
}
fate=
as=
# stopped SIGNAL TEXT SETTINGS WORDS..: as `flash`, with the signal 0.2 seconds after the text stands in what was said or sent, which is
# when it waits. How many seconds the program took from the signal on is in $took.
stopped() {
    signal=$1 text=$2 settings=$3
    shift 3
    code=0
    rm -f saved log number
    : > err
    # shellcheck disable=SC2016,SC2086
    env LD_LIBRARY_PATH="$work" USB_IMAGE="$work/old" USB_SAVE="$work/saved" USB_LOG="$work/log" USB_FATE="$fate" $settings \
        timeout -k 5 60 sh -c 'echo $$ > number && exec ./dfu-flash "$@"' sh "$@" > out 2> err &
    soon grep -qs -e "$text" err log || wrong "$*: '$text' isn't in: $(cat err)"
    sleep 0.2
    began=$(date +%s)
    kill "-$signal" "$(cat number)" || :
    wait "$!" || code=$?
    took=$(($(date +%s) - began))
}
# row STATUS IMAGE TEXT SETTINGS WORDS..: the status, the image (old, new, or - for any), and how the last line of
# standard output begins.
row() {
    status=$1 image=$2 text=$3
    shift 3
    flash "$@"
    if [ "$code" -ne "$status" ]; then
        wrong "$*: wanted $status, found $code: $(cat out err)"
    elif [ "$image" != - ] && ! cmp -s saved "$image"; then
        wrong "$*: the image isn't the $image one"
    else
        case $(tail -n 1 out) in
        "$text"*) right ;;
        *) wrong "$*: wanted '$text', found: $(cat out)" ;;
        esac
    fi
}
# says TEXT: it stands in what the last run printed on standard error.
says() {
    if grep -qF -- "$1" err; then right; else wrong "'$1' isn't in: $(cat err)"; fi
}
# expect WHAT COMMAND..
expect() {
    what=$1
    shift
    if "$@" > said 2>&1; then right; else wrong "$what: $(cat said)"; fi
}
# Whether nothing was sent in the last run.
is_silent() {
    [ ! -e log ] || [ "$(grep -c -v '^end' log)" -eq 0 ]
}
