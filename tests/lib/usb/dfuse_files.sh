# The rows of tests/apps/dfuse that flash DfuSe files: what is written, and what is refused before anything is sent; and dfu-util over the
# same device. tests/apps/dfuse has read tests/lib/usb/dfuse.sh, has the old memory in `old`, and dfuse_pack beside dfu-flash.
# shellcheck shell=sh disable=SC2034,SC2154
maps=$pages
fate=
random 3000 > a
random 2500 > b
random 700 > c
printf '\1\2\3\4' > few
printf '\5' > byte

# file_row START ELEMENT..: the file with these elements is verified, the memory has them and else what it had, and the application is
# started at that address, the lowest.
file_row() {
    start=$1
    shift
    elements_here "$@"
    dfuse_row 0 expected 'verified: ' '' --quiet some.dfu
    is "$*: where it is started" grep -q "^started $start" log
}
file_row 08000000 0x0=a
file_row 08000c1d 0xc1d=a
file_row 08003ffc 0x3ffc=few
file_row 08000000 0x0=few 0x1000=b
file_row 08000000 0x1000=b 0x0=few
# Elements that share a page, and that meet.
file_row 08000000 0x0=a 0x2000=b 0xc00=c
file_row 08000000 0xbb8=c 0x0=a
file_row 08000010 0x10=few 0x20=few 0x3fc=few 0x400=few 0x3f8=few
elements_here 0x0=few 0x800=c 0x100=few
dfuse_row 0 expected 'verified: ' 'USB_ERASE=7 USB_BUSY=1' --quiet some.dfu
equal 'each page is erased once' 2 "$(grep -c ' GETSTATUS .* 000700000400,' log)"
dfuse_row 0 expected 'verified: ' '' --no-leave some.dfu
is 'it is not started' test "$(grep -c '^started' log)" -eq 0
started='dfu-flash: the application is started at the end; --no-leave keeps the board in DFU mode, as for the next of several files'
dfuse_row 0 expected 'verified: ' '' -D some.dfu
is '-D says that it is started' grep -qxF -e "$started" err
for words in '-a 0 -s :leave -D some.dfu' '--no-leave -D some.dfu' '--quiet -D some.dfu' some.dfu; do
    # shellcheck disable=SC2086
    dfuse_row 0 expected 'verified: ' '' $words
    is "$words: no such line" test "$(grep -c 'the application is started' err)" -eq 0
done
dfuse_row 0 expected 'verified: ' 'USB_TRANSFER=100 USB_CELLS=fail' --quiet some.dfu
dfuse_row 0 old 'dry-run: download and compare 708 bytes at 08000000 ' '' --dry-run some.dfu
dfuse_silent 'a dry run'
equal 'the elements' '08000000 4 bytes, 08000100 4 bytes, 08000800 700 bytes' "$(sed -n 's/^    //p' out | paste -sd , | sed 's/,/, /g')"
dfuse_row 0 old '{"status":0,"report":"dry-run",' '' --json --dry-run some.dfu
is 'the elements in JSON' grep -q '"elements":\[{"address":"08000000","place":293,"bytes":4},{"address":"08000100","place":1013,' out
dfuse_row 0 expected '{"status":0,"report":"verified",' '' --json --quiet some.dfu
is 'the bytes in JSON' grep -q '"address":"08000000","bytes":708,' out
dfuse_row 0 expected 'verified: ' '' --quiet --device 1209:0001 some.dfu
code=0
env LD_LIBRARY_PATH="$work" USB_DEVICE=dfuse USB_SAVE="$work/saved" USB_IMAGE="$work/old" timeout 60 ./dfu-flash --quiet - < some.dfu \
    > out || code=$?
is 'standard input' test "$code" -eq 0
is 'what came by standard input' cmp saved expected
# Identifiers of any device; and the size in the prefix as dfu-util's tools have it.
for words in '-i ffff:ffff' '-t' '-t -i 1209:ffff'; do
    # shellcheck disable=SC2086
    ./dfuse_pack $words $packed > same.dfu
    dfuse_row 0 expected 'verified: ' '' --quiet same.dfu
done
# The second target is for the same setting.
./dfuse_pack 0:08000800=c - 0:08000000=few 0:08000100=few > same.dfu
dfuse_row 0 expected 'verified: ' '' --quiet same.dfu
# Several settings: one of them is asked for, and the device is told so.
maps='@Internal Flash  /0x08000000/16*001Kg|@Bank 2 /0x08000000/16*001Kg|@Option Bytes  /0x1FFFC000/01*016 e|@Secret /0x08000000/16*001Kf'
./dfuse_pack 1:08000000=few 1:08000100=few 1:08000800=c - 0:08003000=a > mixed.dfu
./dfuse_pack 1:08000000=few 1:08000100=few 1:08000800=c > second.dfu
dfuse_row 0 expected 'verified: ' USB_SETTING=1 --quiet second.dfu
dfuse_row 0 expected 'verified: ' USB_SETTING=1 --quiet --alt 1 mixed.dfu
dfuse_row 0 expected 'verified: ' USB_SETTING=1 --quiet --alt 'Bank 2' mixed.dfu
refused 'Mixed: ' '' mixed.dfu
refused 'NoSuchSetting: ' '' --alt 1 some.dfu
refused 'NoSuchSetting: ' '' --alt 'Option Bytes' mixed.dfu
./dfuse_pack 2:1fffc000=few > option.dfu
refused 'NotErasable: ' '' option.dfu
./dfuse_pack 3:08000000=few > secret.dfu
refused 'NotReadable: ' '' secret.dfu
maps=$pages
# A device of DFU 1.1 has no addresses; but a file for it may have any image.
dfuse_row 1 - 'NotDfuSe: ' 'USB_DEVICE=small' some.dfu
dfuse_silent 'a DfuSe file for a device of DFU 1.1'
{
    printf 'DfuSe'
    cat few
} > image
"$dfu" add image odd.dfu --vid 1209 --pid 0001 > /dev/null
dfuse_row 8 image 'unconfirmed: ' 'USB_DEVICE=small' --no-verify --quiet odd.dfu
refused 'OwnAddress: ' '' --address 0x08000000 odd.dfu
refused 'NoAddress: ' '' odd.dfu

# What is refused before anything is sent.
for words in '--no-verify' '--transfer-size 64'; do
    # shellcheck disable=SC2086
    dfuse_row 2 - '' '' $words some.dfu
done
refused 'OwnAddress: ' '' --address 0x08000000 some.dfu
# packed_row REFUSAL WORDS-OF-DFUSE_PACK..
packed_row() {
    name=$1
    shift
    ./dfuse_pack "$@" > bad.dfu
    refused "$name: " '' --device 1209:0001 bad.dfu
}
packed_row WrongTarget -i 1209:0002 0:08000000=few
packed_row WrongTarget -i 1208:0001 0:08000000=few
packed_row OutsideTheMap 0:08003ffd=few
packed_row OutsideTheMap 0:07ffffff=few
packed_row OutsideTheMap 0:08000000=few 0:1fffc000=few
packed_row Overlapping 0:08000000=few 0:08000003=few
packed_row Overlapping 0:08000001=byte 0:08000000=few
packed_row Overlapping 0:08000000=few - 0:08000000=few
packed_row EmptyImage 0:
packed_row EmptyElement 0:08000000=few 0:08001000=/dev/null
# The CRC is looked at first, and a file with a wrong one is never a raw one.
packed_row BadCrc -c 0:08000000=few
packed_row BadCrc -c -p 5=02 0:08000000=few
refused 'OwnAddress: ' '' --device 1209:0001 --address 0x08000000 bad.dfu
packed_row BadVersion -p 5=02 0:08000000=few
packed_row BadImageSize -p 6=00 0:08000000=few
packed_row NoTargets -p a=00 0:08000000=few
packed_row NoTarget -p a=02 0:08000000=few
packed_row TrailingBytes -p a=01 0:08000000=few - 0:08001000=few
packed_row NoTarget -p b=74 0:08000000=few
packed_row BadTargetSize -p 115=0d 0:08000000=few
packed_row BadTargetSize -p 119=01 0:08000000=few 0:08001000=few
packed_row ElementPastTheTarget -p 119=03 0:08000000=few 0:08001000=few
packed_row ElementPastTheTarget -p 121=05 0:08000000=few
packed_row EmptyElement -p 121=00 0:08000000=few
packed_row AddressPastTheEnd 0:fffffffd=few
packed_row NoPrefix -p 0=64 0:08000000=few
# With an address too: its suffix alone is DfuSe's, so that --address is no mistake.
refused 'NoPrefix: ' '' --device 1209:0001 --address 0x08000000 bad.dfu
is 'the step' grep -q '^next: get the file anew; or take the suffix off a raw image by `dfu-suffix -D`, and say where by --address$' err
# The check sum of a file in its record: without its own sum, with which each file has the same.
for element in few byte; do
    ./dfuse_pack "0:08000000=$element" > sum.dfu
    sum=$(head -c -4 sum.dfu | gzip -c | tail -c 8 | od -An -tx4 -N4 | tr -d ' ')
    dfuse_row 0 - '{"status":0,"report":"verified",' '' --json --report sums.csv sum.dfu
    is "$element: the check sum" grep -q "\"crc32\":\"$sum\"" out
    is "$element: that of the report" grep -q "\"sum.dfu\",\"$sum\"," sums.csv
done
# bcdDFU is that of DFU 1.1; then there is no signature; and bLength is 15.
packed_row NotDfuSeFile -p 12f=00 -p 130=01 -c 0:08000000=few
packed_row NoSignature -p 131=00 0:08000000=few
packed_row BadLength -p 134=0f 0:08000000=few
# Cut anywhere it is none, with no suffix, and never a raw image.
for most in 5 6 a b c 10 1f 11c 11d 124 128; do
    ./dfuse_pack -n "$most" 0:08000000=few > bad.dfu
    dfuse '' --device 1209:0001 bad.dfu
    case "$code $(cat out)" in
    '1 TooShort: '* | '1 NoSignature: '*) right ;;
    *) wrong "the first $most bytes: $code, $(cat out err)" ;;
    esac
    dfuse_silent "the first $most bytes"
    refused 'OwnAddress: ' '' --address 0x08000000 bad.dfu
done
: > empty
refused 'TooShort: ' '' empty
# 256 elements are taken, and no more.
many=
number=0
while [ "$number" -lt 256 ]; do
    many="$many 0:$(printf '%08x' $((0x08000000 + 2 * number)))=byte"
    number=$((number + 1))
done
# shellcheck disable=SC2086
./dfuse_pack $many > many.dfu
dfuse_row 0 - 'verified: ' '' --quiet many.dfu
# shellcheck disable=SC2086
packed_row TooManyElements $many 0:08003000=byte

# The device's part: faults of the link at each transfer, and of its own.
elements_here 0x400=few 0x7e0=c 0x410=few
dfuse_row 9 - 'different: ' USB_LIES=08000411 --quiet some.dfu
dfuse_row 6 old 'read-protected: ' USB_PROTECTED=1 --quiet some.dfu
dfuse_fates 'USB_ERASE=1 USB_BUSY=1' 'lost-out %u' 'lost-back %u' 'twice %u' 'leave %u' 'cut %u' 'short %u 3'
fate='swap 9'
dfuse_row 13 - 'other: ' USB_SWAP_NAME=other --quiet some.dfu
fate=

# Several devices, each with the file.
printf 'USB_PATH=1-1\tUSB_SERIAL=A\tUSB_SAVE=%s/one\nUSB_PATH=1-2\tUSB_SERIAL=B\tUSB_SAVE=%s/two\n' "$work" "$work" > boards
code=0
env LD_LIBRARY_PATH="$work" USB_BOARDS="$work/boards" USB_DEVICE=dfuse USB_IMAGE="$work/old" timeout 60 ./dfu-flash --all --quiet some.dfu \
    > out 2> err || code=$?
equal '--all' '0 2' "$code $(grep -c ' verified: ' out)"
is 'the first of two' cmp one expected
is 'the second of two' cmp two expected

# dfu-util writes the same file, and dfu-flash reads that; and the other way round.
if command -v dfu-util > /dev/null; then
    elements_here 0x0=a 0x1400=c
    rm -f state
    env LD_LIBRARY_PATH="$work" USB_DEVICE=dfuse USB_STATE="$work/state" USB_IMAGE="$work/old" timeout 60 dfu-util -a 0 -D some.dfu \
        > out 2>&1 || :
    dfuse "USB_STATE=$work/state" --quiet --address 0x08000000 --length 16384 --upload ours
    is 'dfu-flash reads what dfu-util wrote of a file' cmp ours expected
    rm -f state ours
    dfuse "USB_STATE=$work/state" --quiet --no-leave some.dfu
    rm -f theirs
    env LD_LIBRARY_PATH="$work" USB_DEVICE=dfuse USB_STATE="$work/state" timeout 60 dfu-util -a 0 -s 0x08000000:16384 -U theirs \
        > out 2>&1 || :
    is 'dfu-util reads what dfu-flash wrote of a file' cmp theirs expected
    rm -f state ours theirs
fi
