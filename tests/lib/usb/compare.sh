# The rows of tests/lib/interop/compare: dfu-util and dfu-flash over the same simulated board. They stand in a folder with the stand-in for
# libusb, dfu-flash, dfuse_pack and a clock on which waits pass at once. $util is dfu-util.
# shellcheck shell=sh disable=SC2086,SC2154

# What is on the board, and the files.
printf 'the old image' > old
# (No byte of it is ff or 0 but the second, so that a byte that isn't written shows.)
{ printf 'D\1'; seq 2000 | head -c 2998; } > new
cp new new.dfu
cp new other.dfu
dfu-suffix -v 1209 -p 0001 -d ffff -a new.dfu > said 2>&1
dfu-suffix -v 1209 -p 0002 -d ffff -a other.dfu > said 2>&1
cp new.dfu damaged.dfu
printf '\0\0\0\0' | dd of=damaged.dfu bs=1 seek=100 conv=notrunc status=none
head -c 2900 new.dfu > cut.dfu
printf ':020000040800F2\n:10000000000102030405060708090A0B0C0D0E0F78\n:00000001FF\n' > new.hex
head -c 16384 /dev/zero > blank
{ cat new; head -c 72 /dev/zero | tr '\0' '\377'; tail -c +3073 blank; } > memory

# one PROGRAM WORDS..: a run over the board that `board` sets up, with the fault `fate`. How it ended is in $code and $said, what was sent
# in log, and the board's flash in saved.
one() {
    code=0
    rm -f saved log up
    env LD_PRELOAD="$work/clock.so" LD_LIBRARY_PATH="$work" USB_IMAGE="$work/$before" USB_SAVE="$work/saved" USB_LOG="$work/log" \
        USB_FATE="$fate" USB_TRANSFER=64 $board timeout 60 "$@" > out 2> err < /dev/null || code=$?
    ! grep -q '^stand-in for libusb: ' err || { cat err >&2; exit 1; }
    said=$(sed -n 's/^\([A-Za-z0-9 _-]*\): .*/\1/p' out | tail -n 1)
}
# stands: what is on the board then.
stands() {
    if [ ! -e saved ]; then
        echo 'nothing is known of its flash'
    elif cmp -s saved "$before"; then
        if grep -q '^[0-9].* DNLOAD ' log 2> /dev/null; then echo 'the old image'; else echo 'the old image, no block was sent'; fi
    elif cmp -s saved "$after"; then
        echo 'the new image'
    else
        echo 'neither image'
    fi
}
# rank WANTED: 2 if it ended as it should, 1 if it says that it didn't, 0 if it says that all is well and it isn't. WANTED: image (it is in
# place, and the program ends with 0), none (nothing is sent, because it would harm), fails (it can't be, and the program says so), or read
# (the file has what the board has).
rank() {
    case $1 in
    image) [ "$code" -ne 0 ] || ! cmp -s saved "$after" || { echo 2; return; } ;;
    none) [ "$code" -eq 0 ] || grep -q '^[0-9].* DNLOAD ' log 2> /dev/null || { echo 2; return; } ;;
    fails) [ "$code" -eq 0 ] || { echo 2; return; } ;;
    read) [ "$code" -ne 0 ] || ! cmp -s up "$before" || { echo 2; return; } ;;
    esac
    if [ "$code" -eq 0 ]; then echo 0; else echo 1; fi
}
# row WHAT WANTED WORDS-OF-DFU-UTIL WORDS-OF-DFU-FLASH FATE-OF-DFU-UTIL FATE-OF-DFU-FLASH
row() {
    fate=${5-}
    one "$util" $3
    of_util="$code, $(stands)" rank_of_util=$(rank "$2")
    [ "$2" != read ] || of_util="$code, $(fetched)"
    fate=${6-}
    one ./dfu-flash --quiet $4
    of_flash="$code${said:+ $said}, $(stands)" rank_of_flash=$(rank "$2")
    [ "$2" != read ] || of_flash="$code${said:+ $said}, $(fetched)"
    better='the same'
    [ "$rank_of_flash" -le "$rank_of_util" ] || better=dfu-flash
    [ "$rank_of_flash" -ge "$rank_of_util" ] || better=dfu-util
    printf '%s\t%s\t%s\t%s\n' "$1" "$of_util" "$of_flash" "$better"
}
# fetched: what an upload made.
fetched() {
    if cmp -s up "$before"; then echo 'all of it is read'; elif [ -s up ]; then echo 'other bytes are read'; else echo 'nothing is read'; fi
}
# faults NAME: one fault of the link at the block 5 (the sixth), or at the GETSTATUS that follows it, at the same place of both programs'
# sessions.
faults() {
    fate=
    one "$util" -D new.dfu
    block_of_util=$(number_of_block) status_of_util=$(number_of_status)
    one ./dfu-flash --quiet new.dfu
    block_of_flash=$(number_of_block) status_of_flash=$(number_of_status)
    at_block lost-out "$1: a block is lost on its way"
    at_block lost-back "$1: the answer to a block is lost"
    at_block twice "$1: a block comes twice"
    at_status lost-back "$1: the answer to GETSTATUS is lost"
    at_status stall "$1: GETSTATUS is stalled once"
    at_status short "$1: the answer to GETSTATUS is cut short" 3
    at_status leave "$1: the board loses its power and comes back"
}
number_of_block() {
    sed -n 's/^\([0-9]*\) DNLOAD .*/\1/p' log | sed -n 6p
}
number_of_status() {
    awk -v block="$(number_of_block)" '$2 == "GETSTATUS" && $1 > block { print $1; exit }' log
}
at_block() {
    row "$2" image '-D new.dfu' new.dfu "$1 $block_of_util" "$1 $block_of_flash"
}
at_status() {
    row "$2" image '-D new.dfu' new.dfu "$1 $status_of_util${3:+ $3}" "$1 $status_of_flash${3:+ $3}"
}

# What can't succeed, and where dfu-util is the easier one.
others() {
    board='USB_ATTRIBUTES=07 USB_CAPACITY=100'
    row 'the image is larger than the board has room for' fails '-D new.dfu' new.dfu
    board='USB_ATTRIBUTES=07'
    row 'the board answers no more from a block on' fails '-D new.dfu' new.dfu "deaf $block_of_util" "deaf $block_of_flash"
    row 'a raw image, and no board is named' image '-D new' new
    board='USB_ATTRIBUTES=07 USB_DFU_IDS=1209:00ff:0100'
    row 'the right board, whose product is another in DFU mode' image '-D new.dfu' new.dfu
}
# Boards of ST's variant, with a memory of 16 pages.
dfuse_rows() {
    before=blank after=memory
    board='USB_DEVICE=dfuse USB_TRANSFER=2048'
    row 'DfuSe: nothing goes wrong' image '-a 0 -s 0x08000000:leave -D new' '--address 0x08000000 new'
    board="$board USB_LIES=08000010"
    row "DfuSe: a flash byte doesn't take" fails '-a 0 -s 0x08000000:leave -D new' '--address 0x08000000 new'
    board='USB_DEVICE=dfuse USB_TRANSFER=2048'
    row 'DfuSe: the memory is read, with a length' read '-a 0 -s 0x08000000:16384 -U up' '-s 0x08000000:16384 -U up'
    row 'DfuSe: the memory is read, and no length is given' read '-a 0 -s 0x08000000 -U up' '-s 0x08000000 -U up'
}

rows() {
    printf 'Same board, same fault\tdfu-util\tdfu-flash\tbetter\n'
    before=old after=new
    board='USB_ATTRIBUTES=07'
    row 'two slots: nothing goes wrong' image '-D new.dfu' new.dfu
    faults 'two slots'
    board='USB_ATTRIBUTES=03'
    row 'not manifestation tolerant: nothing goes wrong' image '-D new.dfu' new.dfu
    board='USB_DEVICE=uboot USB_STORE=raw USB_BUFFER=64 USB_CAPACITY=3000'
    row 'model of U-Boot: nothing goes wrong' image '-D new.dfu' new.dfu
    row 'model of U-Boot: nothing goes wrong, with -R' image '-D new.dfu -R' '-D new.dfu -R'
    faults 'model of U-Boot'
    board='USB_ATTRIBUTES=07'
    row 'a damaged file' none '-D damaged.dfu' damaged.dfu
    row 'a file that was cut short' none '-D cut.dfu' cut.dfu
    row 'a file for another product' none '-D other.dfu' other.dfu
    row 'a HEX file' none '-d 1209:0001 -D new.hex' '-d 1209:0001 -D new.hex'
    board='USB_ATTRIBUTES=07 USB_DEVICES=2'
    row 'two boards, and none is named' none '-D new.dfu' new.dfu "" ""
    others
    dfuse_rows
}
