# Rows of tests/apps/flash: lines for dfu-util 0.11 that people paste. Each works here, or is answered with its new form.
# shellcheck shell=sh disable=SC2034,SC2154

# Long options, with their value behind = or as the next word.
row 0 new 'verified: ' '' --download new.dfu
row 0 new 'verified: ' '' --download=new.dfu --reset
says "dfu-flash: -R of dfu-util isn't needed: a session ends with a reset, and with DfuSe as -s says; U-Boot's \`dfu\` stays in DFU mode"
row 0 new 'verified: ' '' --intf 0 --alt 0 --reset --download new.dfu
row 0 new 'verified: ' USB_ALTERNATES=3 --intf=0 --altsetting=1 --download new.dfu
row 0 new 'verified: ' USB_ALTERNATES=3 --altsetting kernel --download new.dfu
row 0 old 'uploaded: ' '' --upload-size 13 --upload pasted
says 'dfu-flash: -Z of dfu-util isn'\''t needed: an upload ends by itself'
expect 'an upload' cmp old pasted
row 0 new 'verified: ' '' --cfg 1 --detach-delay=5 -D new.dfu
says 'dfu-flash: -c of dfu-util isn'\''t looked at: the active configuration is taken'
says 'dfu-flash: -E of dfu-util isn'\''t needed: a device that left is asked for until it is back'
row 0 new 'verified: ' '' --configuration=1 -D new.dfu
row 0 new 'verified: ' '' -Z 0x1a -c1 -E 5 -D new.dfu --quiet
expect 'quiet' test ! -s err
row 0 new 'verified: ' '' -v -D new.dfu
expect '-v is --verbose' grep -q '^begin ' err
row 0 new 'verified: ' '' -v -v -D new.dfu
# A list has no transfers, so -v adds nothing to it; and -e adds nothing to a download.
row 0 - '1209:0001 path 1-1 serial F1 ' '' -l -v
expect '-l -v lists' test ! -s err
row 0 - '1209:0001 path 1-1 serial F1 ' '' -v --list -v
row 2 - '' '' --list --verbose=trace
row 0 new 'verified: ' USB_START=app -e -D new.dfu
says 'dfu-flash: -e of dfu-util isn'\''t done with -D: a download brings a board to DFU mode by itself; one of DfuSe needs '
# One of DfuSe is refused, and the step is for the same board.
row 1 - 'RunTimeMode: ' 'USB_DEVICE=dfuse USB_START=app' -e -d 1209:0001 -p 1-1 -s 0x08000000 -D new
says 'next: run dfu-flash --detach --device 1209:0001 --path 1-1, and then this again'
row 0 new 'verified: ' '' --detach --download new.dfu --quiet
expect 'quiet' test ! -s err
row 1 old 'BadCrc: ' USB_START=app -e -D damaged.dfu
expect '-e -D of a damaged file: nothing is sent' is_silent
row 2 - '' '' -D new.dfu -e
says 'next: to flash FILE leave out -e or --detach: a download brings the device to DFU mode by itself'
row 2 - '' '' --devnum 5 -D new.dfu
says '--path PATH'
row 2 - '' '' --devnum=5 -D new.dfu
for words in '--download' '--download= new.dfu' '--intf= -D new.dfu' '--intf x -D new.dfu' '--intf 0x0 -D new.dfu' '--reset=1 -D new.dfu' \
    '--upload-size x -U never' '--detach-delay -D' '-Z -1 -U never' '-E 5s -D new.dfu' '-c 0x -D new.dfu' '--dfuse-address=x -D new.dfu' \
    '--downloads new.dfu' '--down new.dfu'; do
    # shellcheck disable=SC2086
    row 2 - '' '' $words
done
expect 'no upload' test ! -e never

# Identifiers: with 0x, with fewer digits, of one mode, with what is left out or any.
for ids in 0x1209:0x0001 1209:1 1209:0x1 0X1209:1 1209 :1 '*:1' '1209:*' ffff:0001 1209:0001,1209:00ff 0x1209:0x0001,:0x00ff 1209:1,ff \
    '1209:0001,' ',1209:0001' ',1209' ',:1' '*,:1' 0x1209:1,0x1209:1; do
    row 0 new 'verified: ' '' -d "$ids" -D new.dfu
done
row 0 new 'verified: ' 'USB_START=app USB_AWAY=4 USB_DFU_IDS=1209:00ff:0100' -d 0x1209:0x1,:0xff -D new.dfu
row 0 new 'verified: ' USB_DFU_IDS=1209:00ff:0100 -d 1209:1,:ff -D new.dfu
row 4 old '' USB_START=app -d ,1209:0001 -D new.dfu
says 'none has them in DFU mode'
# A hyphen is no device: so none in run-time mode.
row 0 new 'verified: ' '' -d -,1209:0001 -D new.dfu
row 4 old '' USB_START=app -d -,1209:0001 -D new.dfu
row 4 old '' USB_START=app -d ,1209:0001 --dry-run -D new.dfu
row 0 new 'verified: ' '' -d 0x1209:0x1 -D new
for ids in 0x1209:0x2 1208:1 :2 1209:2,:3 ,1209:2; do
    row 4 old '' '' -d "$ids" new.dfu
done
for ids in - '-,'; do
    row 2 - '' '' -d "$ids" new.dfu
done
for ids in '' ',' : ',:' x 1209:x 01209:0001 1209:00001 0x:1 1209:1:1 1209:1,2,3 1209-0001 -1209:1 '1209: 1' 1209:0001,1209:0001x '**:1'; do
    row 2 - '' '' -d "$ids" new.dfu
done
# The long options of both programs take them too.
for ids in 0x1209:0x0001 1209:1 :1 '1209:*' 0x1209:0x0001,:0x00ff ,1209:0001; do
    row 0 new 'verified: ' '' "--device=$ids" -D new.dfu
done
row 0 new 'verified: ' 'USB_START=app USB_AWAY=4 USB_DFU_IDS=1209:00ff:0100' --device 0x1209:0x1,:0xff --download new.dfu --reset
for ids in ',' x 1209:x 01209:0001 1209:00001 1209-0001; do
    row 2 - '' '' --device "$ids" new.dfu
    says '--device takes VID:PID or VID:PID,VID:PID, four hexadecimal digits each'
done
row 4 old '' '' --serial F1,F1 new.dfu
says 'none of these has --serial F1,F1'

# A serial number for each mode.
row 0 new 'verified: ' USB_DEVICES=2 -S F1,F1 -D new.dfu
row 0 new 'verified: ' USB_DEVICES=2 -S WRONG,F1 -D new.dfu
row 0 new 'verified: ' 'USB_DEVICES=2 USB_START=app' -p 1-1 -S F1,WRONG -D new.dfu
row 12 old '' 'USB_DEVICES=2' -S F1, -D new.dfu
row 0 new 'verified: ' USB_DEVICES=2 -S ,F1 -D new.dfu
row 4 old '' USB_DEVICES=2 -S F1,WRONG -D new.dfu
says 'none of these has --serial F1, or in DFU mode WRONG'
row 4 old '' 'USB_START=app' -S WRONG,F1 -D new.dfu
row 4 old '' '' --serial F1,F1 -D new.dfu
for serials in '' ','; do
    row 2 - '' '' -S "$serials" -D new.dfu
done

# What -s says, with DfuSe: to the end of the segment; and what nothing here does is refused by its name.
maps='@F/0x08000000/4*1Kg,2*2Kg'
row 0 - 'uploaded: ' "USB_DEVICE=dfuse USB_MAPS=$maps USB_PAGES=$maps" -s 0x08000400 -U segment
expect 'to the end of the segment' test "$(wc -c < segment)" -eq 3072
row 0 - 'uploaded: ' "USB_DEVICE=dfuse USB_MAPS=$maps USB_PAGES=$maps" --dfuse-address=0x08001000:leave --upload second
expect 'the next one' test "$(wc -c < second)" -eq 4096
says ":leave of dfu-util isn't done behind an upload"
row 0 - 'uploaded: ' "USB_DEVICE=dfuse USB_MAPS=$maps USB_PAGES=$maps" -s 0x08001000:leave -U hushed --quiet
says ":leave of dfu-util isn't done behind an upload"
row 0 - 'uploaded: ' "USB_DEVICE=dfuse USB_MAPS=$maps USB_PAGES=$maps" -s 0x08001fff -U last
expect 'its last byte' test "$(wc -c < last)" -eq 1
row 0 - 'uploaded: ' "USB_DEVICE=dfuse USB_MAPS=$maps USB_PAGES=$maps" -s 0x08000000:5 -U five
expect 'a length' test "$(wc -c < five)" -eq 5
row 1 - 'OutsideTheMap: ' "USB_DEVICE=dfuse USB_MAPS=$maps USB_PAGES=$maps" -s 0x08002000 -U never
row 2 - '' '' --address 0x08000000 -U never
row 0 - 'verified: ' USB_DEVICE=dfuse -s 0x08000000:leave -D new
for words in mass-erase unprotect will-reset force mass-erase:force force:unprotect leave:mass-erase; do
    for address in '' 0x08000000; do
        row 2 - '' USB_DEVICE=dfuse -s "$address:$words" -D new
        says "-s of dfu-util has $(echo "$words" | sed 's/leave://; s/:.*//')"
        expect "$address:$words: nothing is sent" is_silent
    done
done
row 2 - '' USB_DEVICE=dfuse -s 0x08000000:unprotect:leave:mass-erase:force -D new
expect 'each word is answered, in one run' test "$(grep -o 'of dfu-util has [a-z-]*' err | cut -d ' ' -f 4 | tr '\n' ' ')" = \
    'unprotect mass-erase force '
for words in 0x08000000:fast 0x08000000:leaves 0x08000000:mass 0x08000000: :x 0x08000000:leave:1x '' 08000000; do
    row 2 - '' USB_DEVICE=dfuse -s "$words" -D new
done
expect 'no upload' test ! -e never

# The same lines go to dfu-util, if it is there, and its list of long options is this one.
if dfu-util --version 2> /dev/null | grep -q '^dfu-util 0\.11$'; then
    dfu-util --help 2>&1 | sed -n 's/^  -\([a-zA-Z]\) --\([a-z-]*\).*/\2/p' > longs
    expect 'long options' test "$(wc -l < longs)" -eq 20
    while read -r long; do
        expect "--$long" grep -q "\"$long\"" "$top/apps/flash/options.c" "$top/apps/flash/dfu_util.c"
    done < longs
fi
