# Rows of tests/apps/flash: the line `next:` behind each end that isn't what was meant, the same in a record, and that the manual's steps
# are those of apps/flash/next.c.
# shellcheck shell=sh disable=SC2016,SC2034,SC2154

# next TEXT: the last line of standard error is this step.
next() {
    if [ "$(tail -n 1 err)" = "next: $1" ]; then right; else wrong "wanted 'next: $1', found: $(cat err)"; fi
}
# steps STATUS SETTINGS STEP WORDS..: the step behind a run in text, in a record, and not with --quiet.
steps() {
    status=$1 settings=$2 step=$3
    shift 3
    row "$status" - '' "$settings" "$@"
    next "$step"
    flash "$settings" --json "$@"
    case $(sed 's/ --json / /' out) in
    *",\"next\":\"$step\""*) right ;;
    *) wrong "--json $*: '$step' isn't in: $(cat out)" ;;
    esac
    expect "--json $*: not on standard error" test "$(grep -c '^next: ' err)" -eq 0
    flash "$settings" --quiet "$@"
    expect "--quiet $*" test "$(grep -c '^next: ' err)" -eq 0
}
plug='plug it in with a cable that has data lines, bring it to DFU mode by its button, and run it again; --wait waits for it'
# Without any USB, as in a container, there is nothing to plug it in. Builds without --all are of the folders unix and windows, which don't
# look.
if [ -z "${NO_ALL-}" ] && [ "$(uname)" = Linux ] && [ ! -e /dev/bus/usb ] && [ ! -e /sys/bus/usb ]; then
    plug='run it on the computer that the device is plugged into, or give the container its /dev/bus/usb and /sys/bus/usb'
    row 0 - '' USB_DEVICES=0 --list
    says 'dfu-flash: this system has no USB: neither /dev/bus/usb nor /sys/bus/usb is there'
fi
steps 4 USB_DEVICES=0 "$plug" new.dfu
row 4 - '' USB_DEVICES=0 --wait=1 new.dfu
says 'dfu-flash: none came within 1 s'
next "$plug"
row 0 - '' USB_DEVICES=0 --list
next "$plug"
steps 4 '' 'choose one of those that are there, or plug in the one that is meant' other.dfu
steps 12 USB_DEVICES=2 'choose one of those that are listed, by --path, --serial, --interface or --alt; --all takes each' new.dfu
chosen='choose one of those that are listed, by --path, --serial, --interface or --alt'
steps 12 USB_DEVICES=2 "$chosen" --upload never
for path in '' '--path 1-1'; do
    # shellcheck disable=SC2086
    steps 12 USB_ALTERNATES=3 'choose the setting that the file is for, by --alt or --interface' $path new.dfu
done
steps 12 USB_DEVICES=2 "$chosen" --detach
steps 5 USB_DENIED=3 \
    'get the right to open it (see ACCESS in man dfu-flash), plug it in again, or end the program that has it; run it again' new.dfu
steps 5 USB_DENIED=12 \
    'give it a driver that libusb can use, on Windows WinUSB, as by Zadig (see WINDOWS in man dfu-flash), and run it again' new.dfu
steps 5 USB_CLAIMED=6 'end the program that has it, or take the driver away from it, and run it again' new.dfu
steps 3 '' 'check its name, and which folder you are in, and run it again' nowhere.dfu
steps 3 '' 'name a file that is in this folder, and run it again' .
steps 3 '' 'put that right, and run it again' --report /dev/null new.dfu
steps 3 '' 'name another file, or add --force to replace this one, and run it again' --upload new
for reset in '' --no-verify; do
    # shellcheck disable=SC2086
    flash USB_ATTRIBUTES=07 $reset new.dfu
    expect 'a success has no next step' test "$code-$(grep -c '^next: ' err)" = 0-0
    # shellcheck disable=SC2086
    flash USB_ATTRIBUTES=07 --json $reset new.dfu
    expect 'nor in a record' test "$code-$(grep -c '"next"' out)" = 0-0
done
steps 8 USB_ATTRIBUTES=01 'look whether it runs the new image; some boards give no better report (see REPORTS in man dfu-flash)' new.dfu
steps 6 USB_CAPACITY=13 'make the image smaller, or get the file for this board, and run it again' new.dfu
steps 6 'USB_DEVICE=uboot USB_CAPACITY=20' \
    'run it again: U-Boot answers so once after a run that was broken off; if it stays so, get the file for this board' new.dfu
steps 10 'USB_APP=plain' \
    'look whether it runs the new image: if so, --no-verify asks for no comparison; else plug it in, and run it again' new.dfu
# Each code of the standard has a step of its own; with DfuSe the last one is taken for a stall.
expect 'steps of codes' test "$(grep -c '^    \[ERR_[A-Z_]*\] = "' "$top/apps/flash/codes.c")" -eq 15
for code in 1 2 3 4 5 6 7 8 9 10 11 12 13 14; do
    row 6 - '' "USB_DEVICE=dfuse USB_FAILS=0 USB_CODE=$code" --address 0x08000000 new
    expect "code $code: a step" test "$(grep -c '^next: go by the code' err)-$(grep -c '^next: ' err)" = 0-1
done
# A code of an upload isn't about a file.
failing='USB_DEVICE=dfuse USB_FAILS=0 USB_CODE=1'
steps 6 "$failing" 'go by the code (see CODES in man dfu-flash), and ask the maker whether the device gives its image' \
    --address 0x08000000 --length 4 --upload never
row 6 - 'refused errTARGET: ' "$failing" --address 0x08000000 --length 4 --upload never
says 'dfu-flash: errTARGET: the device gives no image: '
row 6 - 'refused errTARGET: ' "$failing" --address 0x08000000 new
says "dfu-flash: errTARGET: the file isn't for this device, as the device says"
fate='leave 3'
row 7 - 'restarts-spent: ' '' --limits 1000 0 new.dfu
next 'check power and cable, and run it again'
fate=
row 7 - 'gave-up: ' '' --limits 3 0 new.dfu
next 'check cable and device, and run it again; if it stays so, allow more actions by --limits'
steps 7 'USB_START=app USB_RESETS=nothing' 'it stays in run-time mode: bring it to DFU mode by its button, and run it again' new.dfu

# A raw image: with one board there is a line to type, which then works; with two, or with --device, there is none.
named='name the device by --device VID:PID, or for a DfuSe device give --address; `dfu add` makes a file that needs neither'
steps 1 '' 'run: dfu-flash --device 1209:0001 new' new
row 0 new 'verified: ' '' --device 1209:0001 new
steps 1 USB_START=app 'run: dfu-flash --device 1209:0001 new' new
steps 1 USB_ALTERNATES=3 'run: dfu-flash --device 1209:0001 new' new
for settings in USB_DEVICES=2 USB_DEVICES=0 USB_DENIED=3; do
    steps 1 "$settings" "$named" new
done
row 1 old 'NoSignature: ' '' --device 1209:ffff new
next "$named"
cp new "it's mine"
row 1 old 'NoSignature: ' '' --limits 1000 3 "it's mine"
next "run: dfu-flash --device 1209:0001 --limits 1000 3 'it'\\''s mine'"
name=$(printf 'a\033b')
cp new "$name"
row 1 old 'NoSignature: ' '' "$name"
next 'run it again with --device 1209:0001 before the other words'
row 1 old 'TooShort: ' '' short
next 'run: dfu-flash --device 1209:0001 short'
# An address is right only for an image that is linked for it.
linked="where this board's memory begins, run: dfu-flash"
steps 1 USB_DEVICE=dfuse "if the image is linked for 0x08000000, $linked --address 0x08000000 new" new
steps 1 USB_DEVICE=dfuse "if the image is linked for 0x08000000, $linked --address 0x08000000 new.dfu" new.dfu
steps 1 USB_DEVICE=dfuse 'run: dfu-flash --address 0x08000000 --length 16384 --upload up' --upload up
steps 1 'USB_DEVICE=dfuse USB_MAPS=@F/0x08000000/1*1Ka,0x1Kg USB_PAGES=@F/0x08000000/2*1Kg' "$named" new
steps 1 'USB_DEVICE=dfuse USB_MAPS=@F/0x08000000/4*1Ka,4*1Kg USB_PAGES=@F/0x08000000/8*1Kg' \
    "if the image is linked for 0x08001000, $linked --address 0x08001000 new" new

# Where something is wrong.
steps 1 'USB_DEVICE=uboot USB_SAID=0' 'run: dfu-flash --transfer-size 8 new.dfu' new.dfu
row 0 new 'verified: ' 'USB_SAID=0' --transfer-size 8 new.dfu
steps 1 USB_DESCRIPTOR=0 'run: dfu-flash --transfer-size 8 new.dfu' new.dfu
row 8 new 'unconfirmed: ' USB_DESCRIPTOR=0 --transfer-size 8 new.dfu
row 0 old 'uploaded: ' USB_DESCRIPTOR=0 --transfer-size 8 --upload lacking
expect 'an upload without a functional descriptor' cmp old lacking
# One in run-time mode has another there, and one with a memory map may speak DfuSe: a block could be its command to erase.
row 1 old 'Short: ' 'USB_START=app USB_APP_PROTOCOL=0 USB_APP_DESCRIPTOR=0' --transfer-size 8 new.dfu
next 'tell the maker of the device'
row 1 - 'Short: ' 'USB_DEVICE=dfuse USB_DESCRIPTOR=0' --transfer-size 8 new.dfu
next 'tell the maker of the device'
expect 'a memory map: nothing is sent' is_silent
row 1 old 'BadCrc: ' '' damaged.dfu
says_sums() {
    grep -q '^next: it says the check sum [0-9a-f]\{8\}, and its bytes have [0-9a-f]\{8\}: get the file anew$' err
}
expect 'both sums' says_sums
row 3 - '{"status":3,' '' --json nowhere.dfu
expect 'a record has the reason' grep -q "\"reason\":\"nowhere.dfu can't be read: No such file or directory\",\"next\":" out
row 3 - '{"status":3,' '' --json --log nowhere --all new.dfu
expect 'so of a folder' grep -q '"reason":"nowhere can.t have the logs: ' out
# Each part of a session with DfuSe is shown up to its end.
head -c 3000 /dev/urandom > parts
row 0 - 'verified: ' USB_DEVICE=dfuse --quiet --address 0x08000000 --raw --device 1209:0001 parts
row 0 - 'verified: ' USB_DEVICE=dfuse --address 0x08000000 --raw --device 1209:0001 parts
for part in 'erasing: 100%, 3000' 'downloading: 90%, 2968' 'comparing: 100%, 3000'; do
    says "$part of 3000 bytes"
done
# shellcheck source=tests/lib/usb/next_map.sh
. "$top/tests/lib/usb/next_map.sh"
again='run it again; if it stays so: see DEVICES in man dfu-flash, or with DfuSe suspect map or memory'
row 9 - 'different: ' 'USB_DEVICE=dfuse USB_LIES=08000002' --address 0x08000000 new
next "at 08000002 is ff, and 6e in the file: $again"
row 9 - '{"status":9,' 'USB_DEVICE=dfuse USB_LIES=08000002' --json --address 0x08000000 new
expect 'a record has the place' grep -q '"place":"08000002","wanted":"6e","found":"ff","next":"at 08000002 is ff' out
{ printf '\1'; head -c 99 /dev/zero | tr '\0' x; } > hundred
"$dfu" add hundred hundred.dfu > /dev/null
row 9 - 'different: ' 'USB_DEVICE=dfuse USB_LIES=08000030' --address 0x08000000 hundred
next "at 08000030 is ff, and 78 in the file: $again"
flash '' new.dfu
fate="short $(sed -n 's/^\([0-9]*\) UPLOAD .*/\1/p' log | head -n 1) 3"
row 9 - 'different: ' '' new.dfu
next "at byte 3 what the device gave ends, and the file has 65: $again"
fate=
flash USB_TRANSFER=16 --transfer-size 8 new.dfu
fate="short $(sed -n 's/^\([0-9]*\) UPLOAD .*/\1/p' log | head -n 1) 3"
row 9 - 'different: ' USB_TRANSFER=16 --transfer-size 8 new.dfu
next 'at byte 3 what the device gave ends, and the file has 65: run it again without --transfer-size: the board may count places by '\
'blocks of its own size'
fate=
row 9 - 'different: ' 'USB_DEVICE=uboot USB_STORE=raw' new.dfu
case $(tail -n 1 err) in
"next: at byte 26 is "*", and the image in the file has ended: all bytes of the file are there, "*"use --no-verify") right ;;
*) wrong "more than the image: $(cat out err)" ;;
esac

# An empty file.
for words in empty '--device 1209:0001 empty' '--address 0x08000000 empty'; do
    # shellcheck disable=SC2086
    row 1 old '' '' $words
    says 'dfu-flash: the file is empty: it has no bytes'
    expect 'no word of a suffix' test "$(grep -c suffix err)" -eq 0
    [ "$words" != empty ] || next 'build it anew: it is empty'
done

# shellcheck source=tests/lib/usb/next_words.sh
. "$top/tests/lib/usb/next_words.sh"

# A step that sends to a section says of which page, and each section is there; help begins with examples, and names the page.
grep -h 'see [A-Z][A-Z]' "$top/apps/flash/next.c" "$top/apps/flash/advise.c" "$top/apps/flash/usage.c" > sections
expect 'sections are named with their page' test "$(grep -vc 'in man dfu-flash' sections)" -eq 0
row 0 - '' '' --help
expect 'two examples' test "$(sed -n 3,4p out | grep -c 'dfu-flash [^O]')" -eq 2
expect 'the manual' grep -q 'man dfu-flash, or uninstalled man share/man/dfu-flash\.1$' out

# The tables, as `NAME STEP`: those of apps/flash/next.c, and those of the manual's NEXT STEPS and REFUSALS.
sed -n 's/^#define \([A-Z_]*\) "\(.*\)"$/\1\t\2/p' "$top/apps/flash/next.c" > texts
sed -n 's/^    {\([A-Z0-9_]*\), "\([A-Za-z]*\)", ".*"},$/\1\t\2/p' "$top/apps/flash/refusals.c" > names
awk -F '\t' -v OFS=' ' '
    FILENAME == "texts" { text[$1] = $2; next }
    FILENAME == "names" { name[$1] = $2; next }
    match($0, /^    \{"[a-z-]*", ".*"\},$/) { split($0, part, "\""); print part[2], part[4] }
    match($0, /^    \{[A-Z0-9_]*, ("[^"]*"|[A-Z_]*)\},$/) {
        number = $0; sub(/^    \{/, "", number); sub(/,.*/, "", number)
        step = $0; sub(/^[^,]*, /, "", step); sub(/\},$/, "", step)
        print name[number], step ~ /^"/ ? substr(step, 2, length(step) - 2) : text[step]
    }' texts names "$top/apps/flash/next.c" | LC_ALL=C sort -u > steps
sed 's/\\-/-/g; s/\\(aq/'\''/g' "$top/share/man/dfu-flash.1" | awk '
    /^\.(SH|TP)/ { if (step) print row, text; step = 0 }
    /^\.SH/ { section = $0 }
    section == ".SH NEXT STEPS" && match($0, /^[a-z-]*@[0-9]*@/) { row = $0; sub(/@.*/, "", row) }
    section == ".SH NEXT STEPS" && /^T\}/ { if ($0 == "T}") print row, text; open = 0 }
    section == ".SH NEXT STEPS" && open { text = text (text == "" ? "" : " ") $0 }
    section == ".SH NEXT STEPS" && /T\{$/ { open = 1; text = "" }
    section == ".SH REFUSALS" && after == ".TP" && /^\.B / { row = $2 }
    section == ".SH REFUSALS" && step { text = text " " $0 }
    section == ".SH REFUSALS" && sub(/^Next: /, "") { step = 1; text = $0 }
    { after = $0 }' | grep -v ' none$' | LC_ALL=C sort -u > told
expect "the manual's next steps are those of apps/flash/next.c" diff steps told
expect 'each has one' test "$(wc -l < steps)" -ge 80
