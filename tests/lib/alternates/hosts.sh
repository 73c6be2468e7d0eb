# Rows of tests/apps/alternates: dfu-flash and dfu-util, each as it is installed, over the device of examples/alternates.
# shellcheck shell=sh disable=SC2034,SC2154

cp "$build/dfu-flash" "$work"
"$top/tests/lib/usb/build" "$work" -DUSB_DFUSE_MODEL=alternates_model -I "$example" -I "$parts" "$parts/device.c" "$parts/part.c" \
    "$example/raw.c" "$example/table.c"
cd "$work" || exit
head -c 3000 /dev/urandom > new
head -c 2500 /dev/urandom > old
head -c 1800 /dev/urandom > radio
head -c 8192 /dev/urandom > whole
head -c 8192 /dev/zero > zeros
head -c 40000 /dev/urandom > long
export LD_LIBRARY_PATH="$work" USB_DEVICE=dfuse USB_VERSION=0110 USB_ATTRIBUTES=07 USB_TRANSFER=1024 USB_DETACH=1000 \
    USB_STATE="$work/state" USB_LOG="$work/log" USB_SAVE="$work/saved" USB_IMAGE="$work/old" ALTERNATES_RADIO="$work/radio" USB_FATE=
USB_MAPS=$(sed -n 's/^    {"\(.*\)", &.*/\1/p' "$example/table.c" | paste -s -d '|' -)
export USB_MAPS

# expect WHAT COMMAND..
expect() {
    what=$1
    shift
    if "$@" > said 2>&1; then right; else wrong "$what: $(cat said)"; fi
}
# flash WORD..: its status is in $code. row STATUS TEXT WORD..: the status, and how its last line begins.
flash() {
    code=0
    timeout 60 ./dfu-flash --device 1209:0001 "$@" > out 2> err || code=$?
}
row() {
    wanted=$1 text=$2
    shift 2
    flash "$@"
    case $code:$(tail -n 1 out) in
    "$wanted:$text"*) right ;;
    *) wrong "$*: wanted $wanted '$text', found $code: $(cat out err)" ;;
    esac
}
# gives SETTING FILE: the bytes that the setting has.
gives() {
    row 0 'uploaded: ' --alt "$1" --force --upload given
    expect "the setting $1 has $2" cmp "$2" given
}
# A new board, with an image in each setting, in DFU mode. (Each session ends with a reset, so the next one begins in run-time mode.)
board() {
    rm -f state
    row 0 'verified: ' --alt 2 whole
    row 0 'detached: ' --detach
    cp state fresh
}
# kept FROM COUNT: so many KiB of the part from there on are as on the board before.
kept() {
    for file in fresh state; do
        tail -c +$(($1 * 1024 + 1)) "$file" | head -c $(($2 * 1024)) > "$file.part"
    done
    cmp fresh.part state.part
}
radio_at=$(sed -n 's/.*RADIO_AT = \([0-9]*\) \* KIB.*/\1/p' "$example/table.c")
scratch_at=$(sed -n 's/.*SCRATCH_AT = \([0-9]*\) \* KIB.*/\1/p' "$example/table.c")

# The settings are listed; of several none is taken unasked.
board
row 0 '1209:0001 path 1-1 serial F1 interface 0 alt 2 "scratch, no promise" DFU mode, blocks of 1024, download, upload, tolerant' --list
equal 'a line each' 3 "$(wc -l < out)"
row 12 '' new
row 4 '' --alt 3 new
row 4 '' --alt scratch new

# Each setting takes a file of its own, by number or name, from run-time mode too, and gives it back.
row 0 'verified: ' --alt 0 new
row 0 'verified: ' --alt 1 old
gives 0 new
gives 1 old
gives 2 whole
row 0 'verified: ' --alt radio new
row 0 'verified: ' --alt firmware old
row 0 'verified: ' --alt 'scratch, no promise' zeros
gives firmware old
gives radio new
gives 2 zeros
# A raw area has no length: a shorter file is in place, and is not verified.
row 9 'different: ' --alt 2 new
row 0 'installed: ' --alt 2 --no-verify new
row 0 'uploaded: ' --alt 2 --force --upload given
expect 'a shorter file is in place' cmp -n 3000 new given

# Refusals by name, and each other setting keeps its bytes.
board
row 6 'refused errADDRESS: ' --alt 0 long
row 6 'refused errADDRESS: ' --alt 1 long
expect 'a file that is too long: the stores keep their bytes' gives 0 old
row 6 'refused errADDRESS: ' --alt 2 long
head -c 4 new > short
row 6 'refused errNOTDONE: ' --alt 0 short
gives 0 old
gives 1 radio
for setting in 0 1 2; do
    ALTERNATES_FAIL=3
    export ALTERNATES_FAIL
    row 6 'refused ' --alt $setting new
    unset ALTERNATES_FAIL
done
gives 0 old
gives 1 radio

# A download that is broken off, in one setting, and one in another: it is whole, and the first one can be offered anew.
for number in 1 2 4 6 9 11; do
    board
    USB_FATE="kill $number"
    flash --alt 0 new
    USB_FATE=
    equal "killed before transfer $number" 137 "$code"
    row 0 'verified: ' --alt 1 new
    equal 'setting 1 begins in dfuIDLE' '0 GETSTATUS 0 6 -> 000000000200, dfuIDLE' "$(sed -n 2p log)"
    gives 0 old
    gives 2 whole
    row 0 'verified: ' --alt 0 new
    gives 1 new
done

# The power goes at each operation. A store has the old image or the new one, and the others their bytes.
lost() {
    operation=1
    while :; do
        cp fresh state
        flash --alt "$1" --limits 1000 0 "$2"
        [ "$code" -ne 0 ] || break
        equal "setting $1, operation $operation" 7 "$code"
        "$3"
        operation=$((operation + 1))
        export ALTERNATES_CUT=$operation
    done
    unset ALTERNATES_CUT
    expect "setting $1: $operation operations" test "$operation" -gt 10
}
in_firmware() {
    expect "the firmware, operation $operation" eval 'cmp saved old || cmp saved new'
    expect "the others, operation $operation" kept "$radio_at" $((128 - radio_at))
}
halves=0
in_scratch() {
    expect "the stores, operation $operation" kept 0 "$scratch_at"
    tail -c +$((scratch_at * 1024 + 1)) state | head -c 8192 > bytes
    cmp -s bytes whole || cmp -s bytes zeros || halves=$((halves + 1))
}
board
export ALTERNATES_CUT=1
lost 0 new in_firmware
export ALTERNATES_CUT=1
lost 2 zeros in_scratch
expect "half of a file is left in the raw area, $halves times" test "$halves" -gt 10
cp fresh state
ALTERNATES_CUT=9
export ALTERNATES_CUT
row 0 'verified: ' --alt 2 zeros
row 7 'restarts-spent: the device restarted too often; it may have the old image, the new one or neither' --alt 2 --limits 1000 0 whole
unset ALTERNATES_CUT

# dfu-util, as it is installed.
if ! command -v dfu-util > /dev/null; then
    echo 'dfu-util is left out: it is not here'
    return
fi
# util STATUS WORD..
util() {
    wanted=$1
    shift
    code=0
    timeout 60 dfu-util "$@" > out 2> err || code=$?
    if [ "$code" -eq "$wanted" ]; then right; else wrong "dfu-util $*: wanted $wanted, found $code: $(cat out err)"; fi
}
board
util 0 -l
equal 'dfu-util lists them' 3 "$(grep -c 'alt=[012], name="[a-z, ]*"' out)"
for words in '0 new' '1 old' 'radio new' 'firmware old' '2 zeros'; do
    util 0 -a "${words% *}" -D "${words#* }"
    rm -f up
    util 0 -a "${words% *}" -U up
    expect "dfu-util, $words" cmp up "${words#* }"
done
gives 0 old
gives 1 new
gives 2 zeros
util 74 -a 2 -D long
grep -q 'state(10) = dfuERROR\|LIBUSB_ERROR_PIPE' out err || wrong "dfu-util, a file that is too long: $(cat out err)"
for number in 1 7 13 19; do
    cp fresh state
    ALTERNATES_CUT=$number
    export ALTERNATES_CUT
    util 74 -a 0 -D new
    unset ALTERNATES_CUT
    expect "dfu-util, operation $number: the firmware" eval 'cmp saved old || cmp saved new'
    expect "dfu-util, operation $number: the others" kept "$radio_at" $((128 - radio_at))
    util 0 -a 0 -D new
    gives 0 new
done
