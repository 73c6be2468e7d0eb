# Rows of tests/apps/flash: descriptors that lie. Nothing is read beyond their bytes; where no functional descriptor is found whole, nothing
# is sent; and whatever a descriptor says of the device, a status of 0 comes only where the image is in place.

# Bytes behind the interface descriptor that are no functional descriptor, as a whole: lengths of 0 and 1, too long, cut off, and of none.
good=092107e80308001001
for extra in '' 00 21 0021 0121 0921 092107e803 09210700000800 ff2107e80308001001 082107e803080010 \
    0a2107e8030800100100 0021$good 0121$good \
    ffff$good; do
    row 1 old 'Short: ' "USB_EXTRA=$extra" new.dfu
    expect "$extra: nothing is sent" is_silent
    row 0 old '1209:0001 path 1-1 ' "USB_EXTRA=$extra" --list
done
row 0 new 'verified: ' 'USB_DEVICE=uboot USB_EXTRA=0021' new.dfu

# The first whole one counts, wherever it is among others.
for extra in 0221$good 09240700000000000a$good ${good}092105e80308001001 \
    "$(printf '0200%.0s' 1 2 3 4 5 6 7 8 9)$good" 072107e80308001001; do
    row 0 new 'verified: ' "USB_EXTRA=$extra" new.dfu
done

# Its fields. wTransferSize: 0, one byte, more than the device takes, and all that there is; times and versions that none has.
row 1 old 'BadDescriptor: ' USB_EXTRA=092107e80300001001 new.dfu
expect 'blocks of 0: nothing is sent' is_silent
row 0 new 'verified: ' USB_EXTRA=092107e80301001001 new.dfu
for size in 0900 ff0f 0010 ffff; do
    row 7 old 'gave-up: ' "USB_EXTRA=092107e803${size}1001" --limits 60 1 new.dfu
done
row 0 new 'verified: ' 'USB_TRANSFER=4096 USB_EXTRA=092107e803ffff1001' new.dfu
for extra in 09210700000800ffff 092107e80308000000 092107ffff08001001; do
    row 0 new 'verified: ' "USB_EXTRA=$extra" new.dfu
done

# bmAttributes: what it says, and what the device is.
for is in 01 03 05 07 0f; do
    for said in 00 02 04 06; do
        row 1 old 'CannotDownload: ' "USB_ATTRIBUTES=$is USB_EXTRA=0921${said}e80308001001" new.dfu
    done
    row 8 new 'unconfirmed: ' "USB_ATTRIBUTES=$is USB_EXTRA=092101e80308001001" new.dfu
    for said in 03 05 07 ff; do
        flash "USB_ATTRIBUTES=$is USB_EXTRA=0921${said}e80308001001" --limits 60 1 --timeout 2 new.dfu
        case $code:$(cut -d : -f 1 out) in
        0:verified | 0:installed) expect "$is, and says $said: the new image" cmp new saved ;;
        7:gave-up | 7:timed-out | 7:restarts-spent) right ;;
        *) wrong "$is, and says $said: $code, $(cat out err)" ;;
        esac
    done
done
row 7 old 'timed-out: ' 'USB_START=app USB_ATTRIBUTES=07 USB_EXTRA=09210fe80308001001' --timeout 1 new.dfu
row 1 old 'CannotUpload: ' USB_EXTRA=092105e80308001001 --upload never
expect 'no file' test ! -e never

# Strings: their length is that of the bytes that came, at most, and what is no character is escaped.
for string in '' 00 02 0203 0303 030300 0403 ff03 0001020304 ffff "$(printf 'ff%.0s' 1 2 3 4 5 6 7 8 9)"; do
    row 0 new 'verified: ' "USB_STRING=$string" new.dfu
    row 0 old '1209:0001 path 1-1 ' "USB_STRING=$string" --list
done
for string in ff030904 04030904; do
    row 0 old '1209:0001 path 1-1 serial Љ interface 0 alt 0 "Љ" DFU mode' "USB_STRING=$string" --list
    row 0 new 'verified: ' "USB_STRING=$string" --serial Љ new.dfu
done
row 0 old '1209:0001 path 1-1 serial Љ\x1b] interface 0 ' USB_STRING=fe0309041b005d00 --list
expect 'no control character' test "$(tr -d '[:print:]\n\320\211' < out | wc -c)" -eq 0
