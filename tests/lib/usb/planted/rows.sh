# Rows of tests/apps/flash: numbers that the library never answers. A number that no table of dfu-flash has ends the session as `broken`, or
# is refused, and is an index into nothing; the sanitizers of gcc see one that is.
# shellcheck shell=sh disable=SC2154

headers=${USB_HEADERS-$(pkg-config --cflags libusb-1.0 2> /dev/null || echo -I/usr/include/libusb-1.0)}
find "$top/apps/flash" "$top/apps/flash/posix" "$top/apps/flash/linux" "$top/apps/common" "$top/apps/common/posix" \
    -maxdepth 1 -name '*.c' > sources
wraps=
for call in dfu_watch_before dfu_watch_after dfuse_watch_after dfu_host_next dfuse_next dfu_image_look device_choose; do
    wraps="$wraps -Wl,--wrap=$call"
done
mkdir planted
cp dfu-flash planted/as-built
# shellcheck disable=SC2046,SC2086
gcc -std=c11 -O1 -g -Wall -Wextra -fsanitize=address,undefined -fno-sanitize-recover=all $wraps -I "$top/include" -I "$top/apps/flash" \
    $headers $(cat sources) "$top/tests/lib/usb/planted/planted.c" "$build/libdfu_host.a" "$build/libdfu_device.a" \
    -o planted/dfu-flash "$work/libusb-1.0.so.0"
cp planted/dfu-flash dfu-flash
ASAN_OPTIONS=detect_leaks=0
export ASAN_OPTIONS

# broken PLANTED SETTINGS WORDS..: the session ends as a mistake of the program, in words and in a record.
broken() {
    call=$1 set=$2
    shift 2
    said='the host refused its own record, which is a mistake of this program'
    rm -f made
    PLANTED=$call
    export PLANTED
    row 14 - "broken: $said" "$set" "$@"
    row 14 - "{\"status\":14,\"report\":\"broken\",\"words\":\"$said\"" "$set" --json "$@"
    expect "$call: no file" test ! -e made
    unset PLANTED
}
dfuse="USB_DEVICE=dfuse USB_IDS=1209:0001:0100"
at='--address 0x08000000'
row 0 new 'verified: ' '' new.dfu
# shellcheck disable=SC2086
row 0 - 'verified: ' "$dfuse" $at new.dfu
for number in 8 9 1000 4294967295; do
    broken "dfu_watch_after $number" '' new.dfu
    broken "dfu_watch_before $number" '' new.dfu
    broken "dfu_watch_after $number" '' --upload made
done
for number in 1 6 7 10 1000 4294967295; do
    # shellcheck disable=SC2086
    broken "dfuse_watch_after $number" "$dfuse" $at new.dfu
    # shellcheck disable=SC2086
    broken "dfuse_watch_after $number" "$dfuse" $at --length 26 --upload made
done
# shellcheck disable=SC2086
broken 'dfuse_watch_after 8' "$dfuse" $at --length 26 --upload made
for number in 0 12 1000 4294967295; do
    broken "dfu_host_next $number" '' new.dfu
done
for number in 0 8 100 103 4294967295 '1 3' '1 1000' '1 4294967295'; do
    # shellcheck disable=SC2086
    broken "dfuse_next $number" "$dfuse" $at new.dfu
done
# (no session: the status is none of those that say why)
for number in 6 99 4294967295; do
    broken "device_choose $number" '' new.dfu
    broken "device_choose $number" '' --upload made
done
# What a file looks to be: with a number that is none it isn't raw, and a name of no format is said without one.
for number in 10 1000 4294967295 '9 0' '9 6' '9 4294967295'; do
    PLANTED="dfu_image_look $number"
    export PLANTED
    row 1 old 'NoSignature: ' '' --device 1209:0001 new
    expect "$PLANTED: nothing is sent" is_silent
    unset PLANTED
done
unset ASAN_OPTIONS
cp planted/as-built dfu-flash
