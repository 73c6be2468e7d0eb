# Rows of tests/apps/flash: --all with --address, over several boards that speak DfuSe. It has read all_boards.sh.
# shellcheck shell=sh disable=SC2154

# What the boards have, 16 pages of 1,024 bytes, and what they have then to have: the image from the second page on, with the rest of its
# pages erased.
random 16384 > pages
random 3000 > image
{
    head -c 1024 pages
    cat image
    head -c 72 /dev/zero | tr '\0' '\377'
    tail -c +4097 pages
} > written
# page_board PATH SETTING..: one of these.
page_board() {
    path=$1
    shift
    board "$path" USB_DEVICE=dfuse "USB_IMAGE=$work/pages" "$@"
}
# unfinished PATH REPORT: the record, and a memory that lacks the image's first bytes, whose other pages are as before.
unfinished() {
    expect "$1: $2" grep -q "^$1 .* s $2: " out
    {
        head -c 1024 pages
        head -c 32 /dev/zero | tr '\0' '\377'
        tail -c +1057 "saved-$1" | head -c 3040
        tail -c +4097 pages
    } > lacking
    expect "$1: the image lacks its front" cmp "saved-$1" lacking
}
# unsent PATH: whether nothing was sent to it.
unsent() {
    ! grep -q '^[0-9]' "log-$1" 2> never-read
}
flash_map='@Internal Flash  /0x08000000/16*001Kg'
raw='--device 1209:0001 --address 0x08000400 image'
# asked LOG: its requests, without when and with what they were answered.
asked() {
    sed -n 's/^[0-9]* \([A-Z]* [0-9]* [0-9]*\) .*/\1/p' "$1" 2> never-read || :
}

# Each board has the image at the address, or its own refusal or fault, as one by itself has it.
no_boards
page_board 1-1 USB_SERIAL=F1
page_board 1-2 "USB_MAPS=$flash_map|@Option Bytes  /0x1FFFC000/01*016 e"
page_board 1-3 'USB_FATE=lost-back 9'
page_board 1-4 'USB_FATE=leave 2' USB_AWAY=100000
page_board 1-5 'USB_FATE=leave 30' USB_AWAY=100000
page_board 1-6 'USB_MAPS=@Internal Flash  /0x08000000/2*001Kg' "USB_PAGES=$flash_map"
page_board 1-7 USB_PROTECTED=1
page_board 1-8 USB_LIES=08000500
page_board 1-9 USB_START=app
page_board 1-10 USB_DENIED=3
board 1-11
page_board 1-12 USB_IDS=1209:0002:0100
# shellcheck disable=SC2086
all $raw
expect 'addresses: the highest status' test "$code" -eq 10
expect 'addresses: a line each' test "$(wc -l < out)" -eq 11
expect 'addresses: a note for all' test "$(grep -c 'there is no suffix: all 3000 bytes are written, from 08000400 on' err)" -eq 1
ended 1-1 verified written
ended 1-2 verified written
ended 1-3 verified written
ended 1-4 gone pages
unfinished 1-5 gone
ended 1-6 OutsideTheMap -
ended 1-7 read-protected pages
unfinished 1-8 different
ended 1-9 RunTimeMode -
ended 1-10 no-access -
ended 1-11 NotDfuSe -
expect '1-12: not meant' test ! -e saved-1-12
says 'dfu-flash: 3 flashed, 8 not'
expect 'it is started at the address' grep -q '^started 08000400' log-1-1
for path in 1-6 1-9 1-11; do
    expect "$path: nothing is sent" unsent "$path"
done
asked log-1-1 > wanted
# shellcheck disable=SC2086
row 0 written 'verified: ' "USB_DEVICE=dfuse USB_IMAGE=$work/pages" $raw
asked log > requests
expect 'the requests of one by itself' cmp requests wanted

# The words of one: a file with a suffix names the device, -s of dfu-util is taken, and a device may stay in DFU mode.
"$dfu" add image image.dfu --vid 1209 --pid 0001 > /dev/null
for words in '--address 0x08000400 image.dfu' '-s 0x08000400:leave image.dfu' '--alt 0 -d 1209:0001 -s 0x08000400 -D image' \
    "--no-leave --json $raw"; do
    no_boards
    page_board 1-1
    page_board 1-2 USB_IDS=1209:0002:0100
    # shellcheck disable=SC2086
    all --quiet $words
    expect "--all $words" test "$code" -eq 0
    expect "--all $words: the image" cmp saved-1-1 written
    expect "--all $words: not meant" test ! -e saved-1-2
    case $words in
    *leave\ image.dfu | --address*) starts=1 ;;
    *) starts=0 ;;
    esac
    expect "--all $words: $starts starts" test "$(grep -c '^started' log-1-1)" -eq "$starts"
done
expect 'a record has the address' grep -q '"path":"1-1".*"address":"08000400","bytes":3000,' out

# With --wait, in one place one after the other.
no_boards
page_board 1-1 USB_SERIAL=F1 USB_PULLED=800
page_board 1-1 USB_SERIAL=F2 USB_PLUGGED=1 USB_PAUSE=3000 "USB_SAVE=$work/saved-second"
# shellcheck disable=SC2086
all --wait=5 $raw
expect 'addresses: those that come' test "$code-$(grep -c ' verified: ' out)" = 0-2
expect 'addresses: the first' cmp saved-1-1 written
expect 'addresses: the second' cmp saved-second written

# What is refused before anything is sent.
printf 'DfuSe file' > dfuse
no_boards
page_board 1-1
for words in 'ForAny image' 'ForAny --device 1209:ffff image' 'OwnAddress --device 1209:0001 dfuse' \
    'EmptyPayload --device 1209:0001 empty' 'NoSignature --device 1209:0001 it.ihex'; do
    # shellcheck disable=SC2086
    all --address 0x08000400 ${words#* }
    expect "--all, ${words%% *}" test "$code-$(sed -n 's/^\(1-1 .* s \)*\([A-Za-z]*\): .*/\2/p' out)" = "1-${words%% *}"
    expect "--all, ${words%% *}: nothing is sent" unsent 1-1
done
for words in '--no-verify image' '--transfer-size 64 image' '--length 5 image' '--path 1-1 image' '--serial F1 image' '--dry-run image' \
    '--verbose image' '--list' '--detach' '--length 5 --upload never'; do
    # shellcheck disable=SC2086
    all --device 1209:0001 --address 0x08000400 $words
    expect "--all --address $words" test "$code" -eq 2
done

# Without serial numbers: a board that comes after its bay was empty for three seconds is another one. One that comes sooner counts as the
# one before, and is named.
no_boards
page_board 1-1 USB_SERIAL= USB_PULLED=900
page_board 1-1 USB_SERIAL= USB_PLUGGED=1 USB_PAUSE=3000 "USB_SAVE=$work/saved-next"
page_board 1-2 USB_SERIAL= USB_PULLED=900
page_board 1-2 USB_SERIAL= USB_PLUGGED=3 USB_PAUSE=500 "USB_SAVE=$work/saved-soon"
rm -f saved-next saved-soon
# shellcheck disable=SC2086
all --wait=5 $raw
expect "swapped without serial numbers: $code, $(cat out)" test "$code-$(grep -c '^1-1 .* verified: ' out)-$(wc -l < out)" = 0-2-3
expect 'the next one has the image' cmp saved-next written
expect 'one that came too soon has not' test ! -e saved-soon
says '1-2: a device without a serial number came soon after, and counts as the one that was flashed here; if it is another one'
