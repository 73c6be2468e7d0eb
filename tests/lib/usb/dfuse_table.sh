# The table of docs/interop on DfuSe: dfu-flash and dfu-util 0.11 beside each other, over the stand-in's device, whose clock passes at
# once. tests/apps/dfuse has read tests/lib/usb/dfuse.sh, and has dfuse_pack beside dfu-flash; with WRITE in the environment the table is
# written.
# shellcheck shell=sh disable=SC2034,SC2154,SC2086
maps=$pages
fate=

# stands: what the memory is in `saved`: new (as it is to be), old, that and another page, or neither.
stands() {
    if [ ! -e saved ]; then
        echo -
    elif cmp -s saved expected; then
        echo new
    elif cmp -s saved old; then
        echo old
    elif outside_is_old; then
        echo neither
    else
        echo 'another page is lost'
    fi
}
# with_flash, with_util SETTINGS WORDS..: a run of the program. How it ended is in $ended, its last line in $said.
with_flash() {
    rm -f up
    dfuse "$1" --quiet ${2-}
    ended=$(sed -n 's/^\([A-Za-z0-9 _-]*\): .*/\1/p' out | tail -n 1)
    said=$(tail -n 1 out)
}
with_util() {
    code=0
    rm -f saved log up
    env LD_LIBRARY_PATH="$work" USB_DEVICE=dfuse USB_MAPS="$maps" USB_IMAGE="$work/old" USB_SAVE="$work/saved" USB_LOG="$work/log" \
        USB_FATE="$fate" $1 timeout 60 dfu-util -a 0 ${2-} > out 2>&1 || code=$?
    ended=$code
    said=$(tr '\r' '\n' < out | sed 's/^dfu-util: //; s/[[:space:]]*$//' | grep . | tail -n 1)
}
# sent: how many transfers the last run made.
sent() {
    grep -c '^[0-9]' log || :
}
# both SESSION SETTINGS WORDS-OF-DFU-FLASH WORDS-OF-DFU-UTIL: a row for each.
both() {
    with_flash "$2" "$3"
    printf '%s\tdfu-flash\t%s\t%s\t%s\t%s\n' "$1" "$ended" "$said" "$(sent)" "$(made)"
    with_util "$2" "$4"
    printf '%s\tdfu-util\t%s\t%s\t%s\t%s\n' "$1" "$ended" "$said" "$(sent)" "$(made)"
}
# made: what stands, or what an upload made.
made() {
    if [ ! -e up ]; then stands; elif cmp -s up old; then echo 'all of it'; else echo 'other bytes'; fi
}
sessions() {
    printf 'session\tprogram\treport or exit\tlast line\ttransfers\tmemory, or what was made\n'
    head -c 16384 large > old
    write_here 3072 3000
    both 'one image' '' "--address $address image" "-s $address:leave -D image"
    both 'an erase or a write fails with errWRITE' USB_FAILS=4 "--address $address image" "-s $address:leave -D image"
    both 'it fails with OK' 'USB_FAILS=4 USB_CODE=0' "--address $address image" "-s $address:leave -D image"
    both 'a byte is never written' USB_LIES=08000d00 "--address $address image" "-s $address:leave -D image"
    both "an earlier run's command isn't started" USB_PENDING=08000000 "--address $address image" "-s $address:leave -D image"
    from=0 to=16384
    elements_here 0x0=image 0x2000=image 0xbf0=few
    both 'a DfuSe file, elements that share a page' '' some.dfu '-s :leave -D some.dfu'
    ./dfuse_pack -c $packed > some.dfu
    both 'a DfuSe file whose CRC is wrong, for an address' '' '--address 0x08000000 some.dfu' '-s 0x08000000:leave -D some.dfu'
    maps=$f4
    cp large old
    cp larger expected
    from=0 to=1048576
    both '1 MiB, pages of 16, 64 and 128 KiB' '' '--address 0x08000000 larger' '-s 0x08000000:leave -D larger'
    maps='@Internal Flash  /0x08000000/512*002Kg'
    both '1 MiB, pages of 2 KiB' '' '--address 0x08000000 larger' '-s 0x08000000:leave -D larger'
    both '1 MiB is read' '' '--address 0x08000000 --length 1048576 --upload up' '-s 0x08000000:1048576 -U up'
    maps=$pages
}
random 1048576 > large
random 1048576 > larger
mkdir made kept
gcc -O2 -shared -fPIC "$top/tests/lib/c/passing_clock.c" -o clock.so
export LD_PRELOAD="$work/clock.so"
sessions > made/dfuse-sessions.tsv
unset LD_PRELOAD
[ -z "${WRITE-}" ] || cp made/* "$top/docs/interop/"
cp "$top"/docs/interop/dfuse-*.tsv kept/ 2> /dev/null || :
equal 'docs/interop has the table on DfuSe' '' "$(diff -r kept made)"
