# OUT of `dfu add`: streams, links, what is no file.
# shellcheck shell=sh disable=SC2034,SC2086,SC2154

# OUT was made, and the line could not be printed.
if [ -c /dev/full ]; then
    rm -f kept
    expect 3 '' sh -c "'$dfu' add digits.bin kept $ids > /dev/full"
    same kept digits.dfu
fi

# Standard input as FILE, and never as OUT, which is refused before FILE is opened; `./-` is a file of this name.
rm -f kept
expect 0 'wrote 25' sh -c "'$dfu' add - kept $ids < digits.bin"
same kept digits.dfu
cp ones.dfu kept
expect 1 'refused AlreadySuffixed' sh -c "'$dfu' add - kept < ones.dfu"
expect 3 'fault Read' sh -c "'$dfu' add - kept <&-"
same kept ones.dfu
expect 2 'bad words' "$dfu" add digits.bin -
expect 2 'bad words' "$dfu" add nowhere -
expect 2 'bad words' sh -c "'$dfu' add - - < digits.bin"
equal 'no file -' '' "$(find . -name -)"
add ./-
same ./- digits.dfu
expect 0 'ok payload 9 suffix 16 device 0100 product 0001 vendor 1209 dfu 0100 crc fe701c62' "$dfu" check ./-
rm ./-
printf '123456789' > ./-
expect 0 'wrote 25' "$dfu" add ./- kept $ids
same kept digits.dfu
rm ./-

# A stream that is closed is none of the files that are opened in its place.
rm -f kept
expect 3 '' sh -c "'$dfu' add digits.bin kept $ids >&-"
same kept digits.dfu
expect 3 '' sh -c "'$dfu' check ones.dfu >&-"
expect 3 'fault Read' sh -c "'$dfu' check - <&-"
expect 3 'fault Read' sh -c "'$dfu' run - <&-"
expect 0 "$ok" sh -c "'$dfu' check ones.dfu <&-"

# An OUT with bytes that is no DFU file stays, because it may be an input that was typed for OUT: of `dfu add *.bin`, say. So does a DFU
# file that is damaged, or of DfuSe.
printf 'BBBB' > two.bin
head -c 19 ones.dfu > short.dfu
sed 's/^\o377/\o000/' ones.dfu > damaged.dfu
printf '\377\377\377\377\377\377\377\377\032\001UFD\020\000\000\000\000' > dfuse.dfu
for name in two.bin short.dfu damaged.dfu dfuse.dfu; do
    cp "$name" before
    refuse "$name"
    same "$name" before
    ln -s "$name" "to-$name"
    refuse "to-$name"
    same "$name" before
done
equal 'why' 'dfu: two.bin: it is there, and no DFU file; remove it, or give OUT another name' \
    "$("$dfu" add digits.bin two.bin --explain 2>&1 > said)"
rm two.bin
add two.bin
same two.bin digits.dfu
# An OUT without a byte is replaced, and so is FILE itself by whatever name.
: > empty
add empty
same empty digits.dfu
cp digits.bin itself
ln itself linked
ln -s itself pointing
expect 0 'wrote 25' "$dfu" add itself pointing $ids
same itself digits.dfu
same linked digits.bin
expect 0 'wrote 25' "$dfu" add ./linked linked $ids
same linked digits.dfu

# A link stays, and what it leads to gets the bytes.
mkdir sub
cp ones.dfu target
ln -s target link
add link
same target digits.dfu
equal 'a link' target "$(readlink link)"
cp ones.dfu target
ln -s ../target sub/second
ln -s "$work/sub/second" first
add first
same target digits.dfu
equal 'a link to a link' "$work/sub/second ../target" "$(readlink first) $(readlink sub/second)"
ln -s sub/new dangling
add dangling
same sub/new digits.dfu
equal 'a link to nothing' sub/new "$(readlink dangling)"
ln -s loop loop
refuse loop
equal 'a loop' loop "$(readlink loop)"
ln -s sub folder
refuse folder
equal 'a link to a folder' sub "$(readlink folder)"
ln -s nowhere/out lost
refuse lost

# What is no regular file stays as it is.
mkfifo fifo
refuse fifo
equal 'a FIFO' prw "$(rights fifo | cut -c 1-3)"
refuse sub
equal 'a folder' d "$(rights sub | cut -c 1)"
refuse ''
if command -v python3 > /dev/null; then
    python3 -c "import socket; socket.socket(socket.AF_UNIX).bind('socket')"
    refuse socket
    equal 'a socket' s "$(rights socket | cut -c 1)"
fi
if mknod null c 1 3 2> /dev/null; then
    refuse null
    equal 'a device' c "$(rights null | cut -c 1)"
fi
refuse /dev/stdout
