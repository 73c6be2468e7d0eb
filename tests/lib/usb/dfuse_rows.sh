# The rows of tests/apps/dfuse that were worked out by hand: memory maps as --list prints them (33 ranges don't fit a string descriptor, and
# are a row of tests/lib/c/dfuse.c), a DfuSe file and each of its refusals, a session's
# requests, and how many transfers 1 MiB takes. tests/apps/dfuse has read tests/lib/usb/dfuse.sh, and has dfuse_pack beside dfu-flash.
# shellcheck shell=sh disable=SC2034,SC2154
f4='@Internal Flash  /0x08000000/04*016Kg,01*064Kg,07*128Kg'
fate=
# map_row LINES MAP: what --list prints of a map; the lines have a comma between them.
map_row() {
    maps=$2
    dfuse 'USB_PAGES=@F/0x08000000/16*001Kg' --list
    equal "$2" "$1" "$(sed -n 's/^    //p' out | sed 's/^no memory map: \([A-Za-z]*\): .*/\1/' | paste -sd ,)"
}
map_row "08000000..0800ffff 4 pages of 16384 bytes rew,08010000..0801ffff 1 page of 65536 bytes rew,\
08020000..080fffff 7 pages of 131072 bytes rew" "$f4"
map_row '1fffc000..1fffc00f 1 page of 16 bytes r-w' '@Option Bytes  /0x1FFFC000/01*016 e'
map_row 'ffff0000..ffff0003 1 page of 4 bytes r-w' '@Device Feature/0xFFFF0000/01*004 e'
map_row '1fff7800..1fff7827 1 page of 40 bytes r-w,1ffff800..1ffff827 1 page of 40 bytes r-w' \
    '@Option Bytes   /0x1FFF7800/01*040 e/0x1FFFF800/01*040 e'
map_row '08000000..08001fff 8 pages of 1024 bytes r--,08002000..0800ffff 56 pages of 1024 bytes rew' '@B /0x08000000/8*001Ka,056*001Kg'
map_row '00000000..00000005 2 pages of 3 bytes r--' '@X/0/2*3a'
map_row 'fffffc00..ffffffff 1 page of 1024 bytes rew' '@F/0xFFFFFC00/1*1Kg'
map_row NoMap 'Flash'
map_row NoMap '@F'
map_row BadAddress '@F/0x08000000'
map_row BadAddress '@F/0x123456789/1*1Kg'
map_row BadCount '@F/0x0/*1Kg'
map_row BadCount '@F/0x0/0*1Kg'
map_row BadSize '@F/0x0/1*Kg'
map_row BadSize '@F/0x0/1*0Kg'
map_row BadType '@F/0x0/1*1K'
map_row BadType '@F/0x0/1*1Kh'
map_row BadType '@F/0x0/1*1Gg'
map_row PastTheEnd '@F/0xFFFFFC00/2*1Kg'
map_row Overlaps '@F/0x0/2*1Kg/0x400/1*1Kg'
map_row Trailing '@F/0x0/1*1Kg;'

# The file D: 01020304 for 08000000 and 0506 for 08004000, for 0483:df11; 323 bytes, whose CRC was worked out by hand.
maps=$f4
printf '\1\2\3\4' > first
printf '\5\6' > second
# d_file WORDS-OF-DFUSE_PACK..
d_file() {
    ./dfuse_pack -i 0483:df11 "$@" 0:08000000=first 0:08004000=second > d.dfu
}
# d_row REFUSAL WORDS-OF-DFUSE_PACK..: the file with other bytes is refused, and nothing is sent.
d_row() {
    name=$1
    shift
    d_file "$@"
    dfuse_row 1 - "$name: " USB_IDS=0483:df11:0200 d.dfu
    dfuse_silent "$*"
}
# is_d CRC: the file has this CRC, and is flashed with these requests: 34 transfers.
is_d() {
    equal 'the bytes of D' "323 $1" "$(wc -c < d.dfu) $(tail -c 4 d.dfu | od -An -v -tx1 | tr -d ' ')"
    dfuse_row 0 - 'verified: ' USB_IDS=0483:df11:0200 --quiet d.dfu
    command='DNLOAD 0 5,GETSTATUS 0 6,GETSTATUS 0 6'
    wrote=',GETSTATUS 0 6,GETSTATUS 0 6'
    equal 'the session of D' "ABORT 0 0,GETSTATE 0 1,$command,$command,$command,DNLOAD 2 2$wrote,$command,ABORT 0 0,UPLOAD 2 2,ABORT 0 0,\
$command,DNLOAD 2 4$wrote,$command,ABORT 0 0,UPLOAD 2 4,ABORT 0 0,DNLOAD 2 0,GETSTATUS 0 6" \
        "$(sed -n 's/^[0-9]* \([A-Z]* [0-9]* [0-9]*\) .*/\1/p' log | paste -sd ,)"
    equal 'what D left' '01020304ff 0506ff' \
        "$(head -c 5 saved | od -An -v -tx1 | tr -d ' ') $(tail -c +16385 saved | head -c 3 | od -An -v -tx1 | tr -d ' ')"
}
d_file
is_d 7d8755f9
d_file -t
is_d 4f32b9b4
d_row BadImageSize -p 6=34
d_row NoPrefix -p 0=64
d_row BadVersion -p 5=02
d_row NoTargets -p a=00
d_row NoTarget -p a=02
d_row NoTarget -p b=74
d_row BadTargetSize -p 115=17
d_row ElementPastTheTarget -p 119=03
d_row BadTargetSize -p 119=01
d_row EmptyElement -p 121=00
d_row ElementPastTheTarget -p 121=ff -p 122=ff -p 123=ff -p 124=ff
d_row AddressPastTheEnd -p 11d=fe -p 11e=ff -p 11f=ff -p 120=ff
d_row NoAddress -p 139=00
d_row NotDfuSeFile -c -p 139=00
d_row BadCrc -c -p 121=05
d_row BadLength -p 13e=0f
d_row NoSignature -p 13b=56

# Elements in another order, two of them in a page: two pages are erased, and all three stand.
random 3000 > a
random 2500 > b
random 700 > c
./dfuse_pack 0:08000000=a 0:08010000=b 0:08002000=c > three.dfu
dfuse_row 0 - 'verified: ' 'USB_ERASE=7 USB_BUSY=1' --quiet three.dfu
equal 'the pages that were erased' 2 "$(grep -c ' GETSTATUS .* 000700000400,' log)"
head -c 3000 saved > part
is 'the first of three' cmp part a
tail -c +65537 saved | head -c 2500 > part
is 'the second of three' cmp part b
tail -c +8193 saved | head -c 700 > part
is 'the third of three' cmp part c

# 1 MiB, which is read back: at most 1.2 of the transfers of dfu-util, which doesn't. A device that tells no times costs none by itself.
if command -v dfu-util > /dev/null; then
    random 1048576 > large
    for maps in "$f4" '@Internal Flash  /0x08000000/512*002Kg'; do
        dfuse_row 0 large 'verified: ' '' --quiet --address 0x08000000 large
        ours=$(grep -c '^[0-9]' log)
        env LD_LIBRARY_PATH="$work" USB_DEVICE=dfuse USB_MAPS="$maps" USB_LOG="$work/log" USB_SAVE="$work/saved" timeout 60 dfu-util -a 0 \
            -s 0x08000000:leave -D large > out 2>&1 || :
        is 'dfu-util writes 1 MiB' cmp saved large
        theirs=$(grep -c '^[0-9]' log)
        is "1 MiB: $ours transfers, and $theirs of dfu-util" test $((10 * ours)) -le $((12 * theirs))
    done
fi
maps=$pages
