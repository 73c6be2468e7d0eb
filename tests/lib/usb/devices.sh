# Rows of tests/apps/flash: which device and which alternate setting is taken, what is said of one that can't be opened or that
# another program has, and how a session ends where the device answers no more.

# Whether nothing was sent in the last run, and no setting was set.
is_untouched() {
    [ ! -e log ] || [ "$(grep -c -v '^end' log)" -eq 0 ]
}
# Which settings were set in the last run, each once.
settings_set() {
    sed -n 's/^setting //p' log | sort -u | tr '\n' ' '
}

# Which device: by the file, by words, and never one of two.
row 12 old '' USB_DEVICES=2 new.dfu
says 'serial OTHER'
expect 'two devices: nothing is sent' is_silent
row 0 new 'verified: ' USB_DEVICES=2 --serial F1 new.dfu
row 0 new 'verified: ' USB_DEVICES=2 --path 1-1 new.dfu
row 0 new 'verified: ' USB_PATH=2-1.4 --path 2-1.4 --device 1209:0001 --interface 0 --alt 0 new.dfu
row 12 old '' USB_DEVICES=2 --device 1209:0001 new.dfu
row 4 old '' USB_DEVICES=1 --serial F2 new.dfu
row 4 old '' USB_DEVICES=1 --alt 1 new.dfu
row 4 old '' USB_DEVICES=1 other.dfu
says 'product 0002'
row 1 old 'WrongTarget: ' USB_DEVICES=1 --path 1-1 other.dfu
says 'next: the file is for 1209:0002, and the board is 1209:0001: give the file for this device, or choose'
row 4 - '' USB_DEVICES=0 new.dfu
says 'no device with DFU'
row 5 old '' USB_DENIED=3 new.dfu
says 'ATTR{idVendor}=="1209", ATTR{idProduct}=="0001"'
row 5 old '' USB_DENIED=3 --serial F1 new.dfu
row 12 old '' 'USB_DEVICES=2 USB_OTHER_DENIED=3' new.dfu
row 0 new 'verified: ' 'USB_DEVICES=2 USB_OTHER_DENIED=3' --serial F1 new.dfu
row 5 old '' USB_DENIED=3 --serial F2 new.dfu
row 0 - '1209:0001 path 1-2 serial OTHER' USB_DEVICES=2 --list
expect 'a list: nothing is sent' is_silent
row 0 - '' USB_DEVICES=0 --list

# The interface has another number than 0, which wIndex of each request is; and it is in the second configuration, in which the
# device stands.
for device in proved uboot; do
    row 0 new 'verified: ' "USB_INTERFACE=3 USB_DEVICE=$device" new.dfu
    row 0 new 'verified: ' "USB_INTERFACE=3 USB_DEVICE=$device" --interface 3 new.dfu
    row 0 new 'verified: ' "USB_CONFIGURATIONS=2 USB_DEVICE=$device" new.dfu
done
row 0 new 'verified: ' 'USB_INTERFACE=3 USB_START=app' new.dfu
row 4 old '' USB_INTERFACE=3 --interface 0 new.dfu
row 0 - '1209:0001 path 1-1 serial F1 interface 0 alt 0 "stand-in" DFU mode, ' USB_CONFIGURATIONS=2 --list
expect 'a line' test "$(wc -l < out)" -eq 1

# Another board in its place, seen by its serial number, or by its identifiers where it tells none: nothing of an image goes to it,
# and what it has isn't taken for the device's.
swaps() {
    for number in $1; do
        fate="swap $number"
        for words in new.dfu '--serial F1 new.dfu'; do
            # shellcheck disable=SC2086
            row 13 - 'other: ' "$2" $words
            expect "$2 with $fate: no block" test "$(sed '1,/ swap /d' log | grep -c DNLOAD)" -eq 0
        done
    done
    fate=
}
swaps '0 1 4 9 10 11 12 13 14' USB_SERIAL=F1
swaps '0 1 2 5' 'USB_START=app'
for number in 0 4 12 13; do
    fate="swap $number"
    row 13 - 'other: ' 'USB_SERIAL= USB_SWAP_IDS=1209:0002:0100' new.dfu
done
for number in 0 1 2; do
    fate="swap $number"
    row 13 - 'other: ' 'USB_SERIAL= USB_SWAP_IDS=1200:0001:0100' --upload never
    expect 'another board: no file' test ! -e never
done
for settings in USB_SWAP_INTERFACE=1 USB_SWAP_NAME=other; do
    for fate in 'swap 4' 'swap 13'; do
        row 13 - 'other: ' "USB_SERIAL= $settings" new.dfu
    done
done
# The record is of the one that was left, and the other one is named behind it.
fate='swap 4'
row 13 - '{"status":13,"report":"other",' 'USB_SERIAL=F7 USB_SWAP_IDS=1209:0002:0100' --json --report other.csv new.dfu
expect 'the one that was left' grep -q '"vendor":"1209","product":"0001",.*"serial":"F7",' out
expect 'the one that came' grep -q '"next":"1209:0002 serial OTHER came in its place: plug in only the one that is meant' out
expect 'so in the report' \
    grep -q ',13,"other","another .* (1209:0002 serial OTHER came in its place)",.*,"1209","0001","0100","F7","1-1",' other.csv
row 13 - 'other: ' USB_SERIAL=F7 new.dfu
says 'next: 1209:0001 serial OTHER came in its place: plug in only the one that is meant'
row 0 new 'verified: ' USB_SERIAL=OTHER new.dfu
fate=

# If the system names no ports a path says of no device which it is: it is found again by its serial number alone.
for number in 0 4 12; do
    fate="leave $number"
    row 0 new 'verified: ' 'USB_PATH=1 USB_DEVICES=2 USB_AWAY=4' --serial F1 new.dfu
done
fate='leave 4'
row 4 old '' USB_PATH=1 new.dfu
says 'the system names no ports'
expect 'no ports: nothing is sent' is_untouched
fate=
# And one that was asked for at its path is found nowhere else: the other board has the same serial number here.
for number in 0 4 12; do
    fate="leave $number"
    row 0 new 'verified: ' 'USB_DEVICES=2 USB_SERIAL=OTHER USB_AWAY=4' --path 1-1 --serial OTHER new.dfu
done
fate=

# In DFU mode a device may have another functional descriptor than in run-time mode: the session is begun anew by that one.
row 0 new 'verified: ' 'USB_START=app USB_APP_ATTRIBUTES=05' new.dfu
row 0 new 'installed: ' 'USB_START=app USB_ATTRIBUTES=05 USB_APP_ATTRIBUTES=07' new.dfu
row 0 old 'uploaded: ' 'USB_START=app USB_APP_ATTRIBUTES=06' --upload anew
for words in '05 CannotUpload --upload never' '06 CannotDownload new.dfu'; do
    attributes=${words%% *}
    words=${words#* }
    # shellcheck disable=SC2086
    row 1 old "${words%% *}: " "USB_START=app USB_ATTRIBUTES=$attributes USB_APP_ATTRIBUTES=07" ${words#* }
    expect 'begun anew, and refused: no block, no part' test "$(grep -c 'DNLOAD\|UPLOAD' log)" -eq 0
done
expect 'begun anew, and refused: no file' test ! -e never

# Alternate settings: each is listed with its name; of several none is taken but the one that was chosen, and no request is made
# in another one (USB_SETTING), also where the device stands in setting 0 again: behind a reset, and where it left.
row 0 - '1209:0001 path 1-1 serial F1 interface 0 alt 2 "data" DFU mode, blocks of 8, ' USB_ALTERNATES=3 --list
expect 'a line each' test "$(cut -d ' ' -f 9,10 out | tr '\n' ' ')" = '0 "boot" 1 "kernel" 2 "data" '
row 0 - '1209:0001 path 1-1 serial F1 interface 0 alt 0 "stand-in" run-time mode, ' 'USB_ALTERNATES=3 USB_START=app' --list
for words in new.dfu '--no-verify new.dfu' '--path 1-1 new.dfu' '--interface 0 new.dfu' '--dry-run new.dfu' '--upload up'; do
    # shellcheck disable=SC2086
    row 12 old '' USB_ALTERNATES=2 $words
    says 'or --alt'
    says 'alt 1 "kernel"'
    expect 'no setting is chosen: nothing is sent' is_untouched
done
expect 'no setting is chosen: no file' test ! -e up
row 4 old '' USB_ALTERNATES=3 --alt 3 new.dfu
says 'alt 2 "data"'
expect 'no such setting: nothing is sent' is_untouched
for setting in 0 1 2; do
    row 0 new 'verified: ' "USB_ALTERNATES=3 USB_SETTING=$setting" --alt $setting new.dfu
    row 0 new 'verified: ' "USB_ALTERNATES=3 USB_SETTING=$setting USB_START=app USB_AWAY=4" --alt $setting new.dfu
    row 8 new 'unconfirmed: ' "USB_ALTERNATES=3 USB_SETTING=$setting USB_ATTRIBUTES=01" --alt $setting new.dfu
    expect "setting $setting alone" test "$(settings_set)" = "$setting "
    row 0 new 'verified: ' "USB_ALTERNATES=3 USB_SETTING=$setting USB_DEVICE=uboot" --alt $setting new.dfu
    expect "setting $setting alone" test "$(settings_set)" = "$setting "
    row 0 old 'uploaded: ' "USB_ALTERNATES=3 USB_SETTING=$setting" --alt $setting --upload "up-$setting"
    expect "an upload of setting $setting" cmp old "up-$setting"
done
# By its name, in whole: not by a part of it, with other capitals, or by the name of another interface's setting.
for words in 'boot 0' 'kernel 1' 'data 2'; do
    name=${words% *}
    setting=${words#* }
    row 0 new 'verified: ' "USB_ALTERNATES=3 USB_SETTING=$setting" --alt "$name" new.dfu
    row 0 new 'verified: ' "USB_ALTERNATES=3 USB_SETTING=$setting USB_START=app USB_AWAY=4" --alt "$name" new.dfu
    row 0 old 'uploaded: ' "USB_ALTERNATES=3 USB_SETTING=$setting" --alt "$name" --upload "up-$name"
    row 0 - "1209:0001 path 1-1 serial F1 interface 0 alt $setting \"$name\" DFU mode, " USB_ALTERNATES=3 --alt "$name" --list
    expect "a line for $name" test "$(wc -l < out)" -eq 1
done
for name in kern kernels Kernel 1st; do
    row 4 old '' USB_ALTERNATES=3 --alt "$name" new.dfu
    says 'alt 1 "kernel"'
    expect "no setting $name: nothing is sent" is_untouched
done
row 5 old '' 'USB_ALTERNATES=3 USB_DENIED=3' --alt kernel new.dfu
for number in 0 4 12 17 20; do
    fate="leave $number"
    row 0 new 'verified: ' 'USB_ALTERNATES=2 USB_SETTING=1' --alt 1 new.dfu
    row 0 new 'verified: ' 'USB_ALTERNATES=2 USB_SETTING=1' --alt kernel new.dfu
    row 0 new 'verified: ' 'USB_ALTERNATES=2 USB_SETTING=1 USB_DEVICE=uboot' --alt 1 new.dfu
done
fate=
row 0 new '{"status":0,"report":"verified",' USB_ALTERNATES=2 --alt 1 --json --quiet new.dfu
expect 'a record' grep -q '"interface":0,"alt":1,"name":"kernel",' out
# What stands behind the run-time mode is seen once the device is in DFU mode.
row 12 old 'many: ' 'USB_ALTERNATES=2 USB_START=app' new.dfu

# A device that may not be opened, that another program or a driver has, or that left: nothing is sent, and why is said.
# refused STATUS TEXT SETTINGS
refused() {
    for words in new.dfu '--serial F1 --no-verify new.dfu' '--upload never'; do
        # shellcheck disable=SC2086
        row "$1" old '' "$3" $words
        says "$2"
        expect "$3: nothing is sent" is_untouched
    done
    row "$1" old "{\"status\":$1," "$3" --json new.dfu
    expect "$3: no file" test ! -e never
}
refused 5 'in use: another program or a driver has its interface 0: LIBUSB_ERROR_BUSY' USB_CLAIMED=6
refused 5 'in use: another program or a driver has its interface 0: LIBUSB_ERROR_BUSY' USB_DENIED=6
refused 5 'in use: another program or a driver has its interface 0: LIBUSB_ERROR_BUSY' 'USB_DENIED=6 USB_OPENS=1'
refused 4 'is gone: it left, or there is no file for it below /dev/bus/usb' USB_DENIED=4
refused 4 'is gone: it left, or there is no file for it below /dev/bus/usb' 'USB_DENIED=4 USB_OPENS=1'
refused 4 'is gone: it left, or there is no file for it below /dev/bus/usb' USB_CLAIMED=4
refused 5 'may not be opened: LIBUSB_ERROR_NOT_SUPPORTED' USB_DENIED=12
refused 5 'may not be opened: LIBUSB_ERROR_ACCESS' 'USB_DENIED=3 USB_OPENS=1'
for words in '6 in use' '4 gone' '3 no access'; do
    row 0 - '1209:0001 path 1-1 interface 0 alt 0 DFU mode, ' "USB_DENIED=${words%% *}" --list
    expect 'a list' grep -q ", ${words#* }\$" out
done
# One that left, and is back for another program: the wait for it is broken off here.
fate='leave 3'
stopped INT 'no device' 'USB_DENIED=3 USB_OPENS=2' new.dfu
fate=
expect 'a wait is broken off' test "$code" -eq 11
expect 'a wait is broken off: the old image' cmp old saved
says 'may not be opened: LIBUSB_ERROR_ACCESS'
says 'ATTR{idVendor}=="1209", ATTR{idProduct}=="0001"'
# If the system names no ports, what is said then is of no other board.
env LD_LIBRARY_PATH="$work" USB_PATH=1 USB_DEVICES=2 USB_OTHER_DENIED=3 USB_AWAY=100000 USB_FATE='leave 4' USB_IMAGE="$work/old" \
    timeout --foreground --preserve-status -s INT 1 ./dfu-flash --serial F1 new.dfu > out 2> err || code=$?
expect 'no ports: nothing is said of another board' test "$(grep -c 'may not be opened' err)" -eq 0

# From each transfer on none comes back: lost on its way out (deaf), or its answer lost (mute). 24 in a row are waited for, 5
# seconds each (USB_LOG has a line for each; here no time passes but on the device), and the session ends with `silent`.
silences() {
    fate=
    flash "$@"
    count=$(grep -c '^[0-9]' log)
    rm -f up
    number=0
    while [ "$number" -lt "$count" ]; do
        for fate in "deaf $number" "mute $number"; do
            flash "$@"
            if [ "$code" -ne 10 ] || ! grep -q '^silent: ' out; then
                wrong "$* with $fate: $code, $(cat out err)"
            elif [ "$(grep -c timeout log)" -gt 24 ]; then
                wrong "$* with $fate: $(grep -c timeout log) transfers in vain"
            elif [ -e up ] || { ! cmp -s saved new && ! cmp -s saved old; }; then
                wrong "$* with $fate: another image, or a part of one"
            else
                right
            fi
        done
        number=$((number + 1))
    done
    fate=
}
silences USB_ATTRIBUTES=07 --quiet new.dfu
silences USB_ATTRIBUTES=01 --quiet new.dfu
silences USB_START=app --quiet --no-verify new.dfu
silences USB_DEVICE=uboot --quiet new.dfu
silences USB_START=app --quiet --upload up
