# Rows of tests/apps/flash: bootloaders that don't keep the device table of this repository. A small one (USB_DEVICE=small) starts its
# application by itself; applications may stall GETSTATUS, have other identifiers or another descriptor than the bootloader, no DFU
# or no USB.

# counted WHAT PATTERN COUNT: so many lines of the last run's log match.
counted() {
    expect "$1" test "$(grep -c -- "$2" log)" -eq "$3"
}

# It starts its application by itself: the image is sent once, also where it comes back in DFU mode, or leaves a while after it has
# answered dfuMANIFEST. What it is then is compared, or nobody knows.
once() {
    row "$@"
    counted "$4: the image is sent once" 'DNLOAD 0 8' 1
}
once 8 new 'unconfirmed: ' USB_DEVICE=small new.dfu
counted 'it starts by itself: no reset' '^reset' 0
for more in '' USB_MANIFEST=30 USB_RESTARTS=dfu USB_START=app 'USB_START=app USB_DFU_IDS=1209:00ff:0100' USB_AWAY=4; do
    once 8 new 'unconfirmed: ' "USB_DEVICE=small $more" new.dfu
    for attributes in 03 0b 07 0f; do
        once 0 new 'verified: ' "USB_DEVICE=small USB_ATTRIBUTES=$attributes $more" new.dfu
    done
    once 8 new 'unconfirmed: ' "USB_DEVICE=small USB_ATTRIBUTES=07 $more" --no-verify new.dfu
    once 8 new 'unconfirmed: ' "USB_DEVICE=small USB_ATTRIBUTES=05 $more" --limits 1000 0 new.dfu
done
# The image is compared with what the device gives back: one that keeps only 20 bytes (USB_CAPACITY) is reported as different.
row 9 - 'different: ' 'USB_DEVICE=small USB_ATTRIBUTES=0b USB_CAPACITY=20' new.dfu
# A device that leaves at the end, or behind it, and before it has answered dfuMANIFEST is one that restarted: the image is sent
# anew.
for number in 13 14; do
    fate="leave $number"
    row 8 new 'unconfirmed: ' USB_DEVICE=small new.dfu
    counted "$fate: the image is sent twice" 'DNLOAD 0 8' 2
    row 0 new 'verified: ' 'USB_DEVICE=small USB_ATTRIBUTES=0b' new.dfu
    counted "$fate: the image is sent twice" 'DNLOAD 0 8' 2
done
fate=

# Its run-time interface stalls GETSTATUS: one DETACH leads it to DFU mode, before the download and before the comparison.
for more in '' 'USB_ATTRIBUTES=0f USB_DETACH=5' 'USB_DFU_IDS=1209:00ff:0100 USB_AWAY=4' USB_APP_DESCRIPTOR=0 \
    'USB_DEVICE=small USB_ATTRIBUTES=0b' USB_INTERFACE=3; do
    row 0 new 'verified: ' "USB_START=app USB_APP_STALLS=status $more" new.dfu
    counted "$more: a DETACH before each" DETACH 2
done
# The device takes 700 ms until it leaves for DFU mode.
row 0 new 'verified: ' 'USB_DEVICE=small USB_ATTRIBUTES=03 USB_LEAVES=700 USB_START=app USB_APP_STALLS=status' new.dfu
counted 'it takes its time: a reset before each, and the last one' '^reset' 3
row 8 new 'unconfirmed: ' 'USB_START=app USB_APP_STALLS=status USB_ATTRIBUTES=01' new.dfu
counted 'a reset behind DETACH, and the last one' '^reset' 2
row 0 old 'uploaded: ' 'USB_START=app USB_APP_STALLS=status' --upload stalled
expect 'an upload' cmp old stalled
# An application that stalls DETACH too gets three resets, and no more.
for words in new.dfu '--no-verify new.dfu' '--upload never'; do
    # shellcheck disable=SC2086
    row 15 old 'stalled: in run-time mode it stalls GETSTATUS: bring it to DFU mode by hand' 'USB_START=app USB_APP_STALLS=all' $words
    counted 'it stalls all: three resets' '^reset' 3
    counted 'it stalls all: one DETACH' DETACH 1
done
expect 'it stalls all: no file' test ! -e never
# Its interface doesn't say that it is one of run-time mode: no DETACH.
row 15 old 'stalled: ' 'USB_START=app USB_APP_STALLS=status USB_APP_PROTOCOL=0' new.dfu
counted 'another protocol: no DETACH' DETACH 0
row 15 new 'stalled: the device took the whole image' 'USB_APP_STALLS=all' new.dfu
row 0 new 'installed: ' 'USB_APP_STALLS=all' --no-verify new.dfu

# It has another product in DFU mode, and is stuck there: both are named, and the file's is the first.
stuck='USB_IDS=1209:0001:0100 USB_DFU_IDS=1209:00ff:0100'
row 4 old '' "$stuck" new.dfu
says 'if the one at 1-1 is the board that the file is for: --device 1209:0001,1209:00ff'
row 1 old 'WrongTarget: ' "$stuck" --device 1209:00ff new.dfu
expect 'WrongTarget: what helps' grep -q -- '--device RUN,DFU' out
expect 'WrongTarget: nothing is sent' is_untouched
for more in '' USB_START=app USB_AWAY=4 'USB_DEVICE=small USB_ATTRIBUTES=0b'; do
    row 0 new 'verified: ' "$stuck $more" --device 1209:0001,1209:00ff new.dfu
done
row 0 new 'verified: ' "$stuck" --device 1209:0001,1209:00ff any.dfu
# A file may be for the one of DFU mode.
"$dfu" add new mode.dfu --vid 1209 --pid 00ff > /dev/null
row 0 new 'verified: ' "$stuck" --device 1209:0001,1209:00ff mode.dfu
row 0 new 'verified: ' "$stuck USB_START=app USB_AWAY=4" -d 1209:1,:ff -D mode.dfu
row 1 old 'WrongTarget: ' '' --path 1-1 mode.dfu
row 0 new 'verified: ' "$stuck" --device 1209:0001,ffff:ffff new.dfu
row 1 old 'WrongTarget: ' "$stuck" --device 1209:0001,1209:00ff other.dfu
says 'next: the file is for 1209:0002, and --device names 1209:0001: '
row 1 old 'WrongTarget: ' "$stuck" --device ffff:ffff,1209:00ff new.dfu
row 4 old '' "$stuck" --device 1209:0001,1209:00fe new.dfu
row 0 - '1209:00ff path 1-1 ' "$stuck" --device 1209:0001,1209:00ff --list
for words in 1209:0001,1209:00fff '1209:0001;1209:00ff' 1209:0001,1209:00ff,1209:00ff 1209:00011,209:00ff 1209:0001,1209:00fg; do
    row 2 - '' '' --device "$words" new.dfu
done

# Its functional descriptor is missing in run-time mode, or has a wTransferSize of 0: that of DFU mode counts.
for more in '' USB_ATTRIBUTES=03 USB_DETACH=300; do
    for size in 0 8; do
        row 0 new 'verified: ' "USB_START=app USB_APP_DESCRIPTOR=$size $more" new.dfu
        row 0 old 'dry-run: bring it to DFU mode' "USB_START=app USB_APP_DESCRIPTOR=$size $more" --dry-run new.dfu
        expect 'a dry run: nothing is sent' is_untouched
    done
done
row 0 new 'verified: ' 'USB_START=app USB_APP_TRANSFER=0' new.dfu
row 0 new 'verified: ' 'USB_START=app USB_APP_TRANSFER=0 USB_ATTRIBUTES=0f USB_DETACH=5' new.dfu
row 0 old 'uploaded: ' 'USB_START=app USB_APP_DESCRIPTOR=0' --upload odd
row 1 old 'Short: ' 'USB_START=app USB_APP_DESCRIPTOR=0 USB_APP_PROTOCOL=0' new.dfu
expect 'another protocol: nothing is sent' is_untouched
row 1 old 'CannotUpload: ' 'USB_START=app USB_APP_DESCRIPTOR=0 USB_ATTRIBUTES=05' --upload never
row 1 old 'CannotDownload: ' 'USB_START=app USB_APP_DESCRIPTOR=0 USB_ATTRIBUTES=06' new.dfu
row 0 new 'installed: ' 'USB_START=app USB_APP_DESCRIPTOR=0 USB_ATTRIBUTES=05' new.dfu
for settings in 'USB_DESCRIPTOR=0' 'USB_DESCRIPTOR=8' 'USB_DESCRIPTOR=0 USB_APP_DESCRIPTOR=9'; do
    row 1 old 'Short: ' "USB_START=app $settings" new.dfu
    counted "$settings in DFU mode: no block" DNLOAD 0
    row 1 old 'Short: ' "USB_START=app $settings" --upload never
    counted "$settings in DFU mode: no part" UPLOAD 0
done
row 1 old 'WrongTarget: ' 'USB_START=app USB_APP_DESCRIPTOR=0' --path 1-1 other.dfu
expect 'another target: nothing is sent' is_untouched

# Its application has no DFU, or no USB: what the device said before the last reset is reported, though it does not come back.
for app in plain none; do
    row 0 new 'installed: ' "USB_APP=$app USB_ATTRIBUTES=05" new.dfu
    row 0 new 'installed: ' "USB_APP=$app" --no-verify new.dfu
    row 8 new 'unconfirmed: ' "USB_APP=$app USB_ATTRIBUTES=01" new.dfu
    row 8 new 'unconfirmed: ' "USB_APP=$app USB_DEVICE=small" new.dfu
    row 0 old 'uploaded: ' "USB_APP=$app" --upload "up-$app"
done
for settings in USB_APP=plain 'USB_APP=none USB_DEVICE=small USB_ATTRIBUTES=0b'; do
    row 10 new 'gone: the device took the whole image, left, and did not come back to be compared; ' "$settings" new.dfu
    expect "$settings: what helps" grep -q -- 'see --no-verify and --wait' out
done

# That a device may have neither image is said only where a block was sent.
row 7 old 'gave-up: the limit of actions is spent; no block was sent' USB_START=app --limits 3 0 new.dfu
fate='leave 0'
row 7 old 'restarts-spent: the device restarted too often; no block was sent' USB_START=app --limits 100 0 new.dfu
row 10 old 'gone: the device left and did not come back; no block was sent' 'USB_APP=none' new.dfu
fate='mute 0'
row 10 old 'silent: the device answers no more; no block was sent' '' new.dfu
fate='swap 1'
row 13 old 'other: another device came back; no block was sent' USB_START=app new.dfu
fate='leave 2'
row 10 old 'gone: the device left and did not come back; it may have the old image, the new one or neither' 'USB_APP=none' new.dfu
fate=
