# Rows of tests/apps/flash: files without a suffix that are no image. Nothing of them is sent, whatever the words say about the device,
# unless --raw says that these bytes are wanted as they are.
# shellcheck shell=sh disable=SC2154

has_no_suffix="NoSignature: the file has no DFU suffix; \`dfu add\` gives it one"
of_format="NoSignature: the file is HEX, S-records, UF2 or ELF; \`dfu add --format auto\` makes a DFU file of the image in it"
foreign_elf='NoSignature: the file is an ELF file of 64 bits or of big-endian numbers; `objcopy -O binary` makes an image of it'
damaged='NoSignature: the file is HEX or S-records with a mistake in a line; build it anew'
packed='NoSignature: the file is a zip or gzip archive; unpack it first'
of_text='NoSignature: the file is text and no image; give the file that the build made'
of_name="NoSignature: the file isn't of the format that its name says: it was cut short or changed; build it anew"
cut="NoSignature: the file's name ends in .dfu, and it has no DFU suffix: it was cut short or changed; get it anew"

# refused FILE REFUSAL TEXT: with each way to name the device, and on standard input, nothing is sent; the whole refusal is that, the text
# is on standard error, and no hint leads to sending the file, but for a condition of the step. With --raw and a device all of its bytes are
# sent.
refused() {
    it=$1 refusal=$2 hint=$3
    for words in '' '--device 1209:0001' '--address 0x08000000' '--device 1209:0001 --quiet'; do
        # shellcheck disable=SC2086
        row 1 old "$refusal" '' $words "$it"
        expect "$it $words: the whole refusal" test "$(cat out)" = "$refusal"
        expect "$it $words: nothing is sent" is_silent
        says "$hint"
        found=$(grep -v '^next: .*; if .*, add --raw$' err | grep -c -e --device -e --raw -e 'format raw') || :
        expect "$it $words: no hint leads to sending it" test "$found" -eq 0
    done
    row 1 old "{\"status\":1,\"report\":\"NoSignature\",\"words\":\"${refusal#*: }\",\"next\":\"" '' --json --device 1209:0001 "$it"
    for words in '--raw --device 1209:0001' '--device 1209:0001 --raw --json' '-d 1209:0001 --raw --dry-run'; do
        # shellcheck disable=SC2086
        flash USB_CAPACITY=5000 $words "$it"
        expect "$it $words: taken as it is" test "$code" -eq 0
        case $words in
        *dry-run) expect "$it $words: nothing is sent" is_silent ;;
        *) expect "$it $words: all of its bytes" cmp saved "$it" ;;
        esac
    done
    says "there is no suffix: all $(wc -c < "$it") bytes would be sent, to 1209:0001"
    row 1 old 'NotDfuSe: ' '' --raw --address 0x08000000 "$it"
    expect "$it: --raw says nothing of the device" is_not_for_any "$it"
}
# --raw doesn't say for which device the bytes are.
is_not_for_any() {
    flash '' --raw "$1"
    test "$code" -eq 1 && cmp saved old && grep -q 'with --device VID:PID, both not ffff' err && is_silent
}
# by_format FILE NAME FORMAT: the sentence for a file of which `dfu add` takes the image.
by_format() {
    refused "$1" "$of_format" "dfu-flash: it is $2: \`dfu add --format $3 $1 OUT.dfu\` takes the image out of it"
    flash '' "$1"
    found=$(grep -c 'for a DfuSe device give --address too, .*--format auto' err) || :
    expect "$1: what a DfuSe device needs" test "$found" -eq 1
}

# Files of builds, also behind a byte order mark, empty lines and blanks, and under any name.
printf ':0400000041414141F8\n:00000001FF\n' > it.ihex
printf 'S1070000414141414F4\nS9030000FC\n' > it.srec
{ printf 'UF2\n'; head -c 508 /dev/zero; } > it.uf2
{ printf '\177ELF'; head -c 100 /dev/zero; } > it.elf
{ printf '\177ELF\2\1\1'; head -c 100 /dev/zero; } > it.elf64
{ printf '\177ELF\1\2\1'; head -c 100 /dev/zero; } > it.elfbe
{ printf '\3757zXZ\0'; head -c 100 /dev/zero; } > it.xz
{ printf 'BZh9\1AY&SY'; head -c 100 /dev/zero; } > it.bzip2
{ printf '7z\274\257\47\34\0\4'; head -c 100 /dev/zero; } > it.7z
{ printf '\50\265\57\375\44'; head -c 100 /dev/zero; } > it.zstd
{ printf 'Rar!\32\7\1\0'; head -c 100 /dev/zero; } > it.rar
{ printf 'fw.bin'; head -c 251 /dev/zero; printf 'ustar\0'; head -c 250 /dev/zero; } > it.tar
{ printf '\357\273\277'; cat it.ihex; } > marked.HEX
{ printf '\n\r\n'; cat it.ihex; } > after-lines.bin
{ printf ' \t '; cat it.ihex; } > after-blanks
{ printf '\357\273\277\n'; cat it.srec; } > marked.S19
by_format it.ihex 'Intel HEX' ihex
by_format marked.HEX 'Intel HEX' ihex
by_format after-lines.bin 'Intel HEX' ihex
by_format after-blanks 'Intel HEX' ihex
by_format it.srec 'Motorola S-records' srec
by_format marked.S19 'Motorola S-records' srec
by_format it.uf2 UF2 uf2
by_format it.elf 'an ELF file' elf
# Of the name's characters none is the shell's, or the terminal's, and none makes an option of it.
named() {
    cp -- it.ihex "$1"
    row 1 old "$of_format" '' -- "$1"
    says "\`dfu add --format ihex $2 OUT.dfu\`"
    rm -f -- "$1"
}
named 'my firmware.hex' "'my firmware.hex'"
named "it's.hex" "'it'\\''s.hex'"
named "\$(reboot).hex" "'\$(reboot).hex'"
named '-o.hex' './-o.hex'
[ -n "${NO_ALL-}" ] || named "$(printf 'a\033[2Jb.hex')" FILE
row 1 old "$of_format" '' - < it.ihex
says "\`dfu add --format ihex FILE OUT.dfu\`"

# Records with a mistake: the first byte that no record has there is named by its line and column.
printf ':10O000000102030405060708090A0B0C0D0E0F1068\n:00000001FF\n' > letter.hex
printf ':0400000041414141F8\n:0000x001FF\n' > second.Hex
printf 'S1070000414141414F4\r\nS90\001000FC\r\n' > byte.srec
printf ':0400000041414141F8\nthe end\n' > text.ihx
is_at() {
    refused "$1" "$damaged" "$2"
    found=$(grep -c 'dfu add' err) || :
    expect "$1: no image comes of it" test "$found" -eq 0
}
is_at letter.hex "dfu-flash: it is Intel HEX, and line 1, column 4 is 'O', which is no hexadecimal digit: build it anew"
is_at second.Hex "dfu-flash: it is Intel HEX, and line 2, column 6 is 'x', which is no hexadecimal digit: build it anew"
is_at byte.srec 'dfu-flash: it is Motorola S-records, and line 2, column 4 is the byte 01, which is no hexadecimal digit: build it anew'
is_at text.ihx "dfu-flash: it is Intel HEX, and line 2, column 1 is 't', and a record begins with a colon: build it anew"

# Text, also of a page that a server gave in place of the file, whatever its name; and what is packed.
printf 'Sensible text\n' > notes
printf '<!DOCTYPE html>\n<title>404</title>\n' > page.dfu
printf '\302\265 is UTF-8\n' > utf8.bin
printf 'x' > letter
for it in notes page.dfu utf8.bin letter; do
    refused "$it" "$of_text" 'dfu-flash: it is text and no image: give the file that the build made'
    row 1 old "$of_text" '' "$it"
    says "next: flash the build's .bin, .dfu, .hex or .elf, the last two by \`dfu add --format auto\`; if the board takes text, add --raw"
done
{ printf 'PK\3\4'; head -c 100 /dev/zero; } > it.zip
{ printf '\37\213'; head -c 100 /dev/zero; } > it.dfu.gz
refused it.zip "$packed" 'dfu-flash: it is a zip archive: unpack it first'
refused it.dfu.gz "$packed" 'dfu-flash: it is a gzip archive: unpack it first'
flash '' it.dfu.gz
says 'next: unpack it, and flash the file that is in it; if the board takes the archive, add --raw'

# Names that say another format, in letters of either case. A DFU file that was cut is no image, and needs no device to be one.
{ printf '\1'; head -c 2999 /dev/urandom; } > whole
"$dfu" add whole whole.dfu --vid 1209 --pid 0001 > /dev/null
for name in cut.dfu cut.DFU ./cut.DfU; do
    head -c 2900 whole.dfu > "$name"
    end=.${name##*.}
    refused "$name" "$cut" \
        "dfu-flash: its name ends in $end, but it has no DFU suffix (the last 16 bytes are none): it was cut short or changed; get it anew"
done
if [ -z "${NO_ALL-}" ]; then
    row 1 - "$cut" '' --all --device 1209:0001 cut.dfu
    expect 'a DFU file that was cut, to all: nothing is sent' is_silent
fi
printf '\1\2' > short.dfu
refused short.dfu "$cut" 'but it has no DFU suffix (it has under 16 bytes)'
for row in 'hex Intel HEX' 'IHEX Intel HEX' 'Ihx Intel HEX' 'mcs Intel HEX' 's19 S-records' 'S28 S-records' 's37 S-records' \
    'sRec S-records' 'MOT S-records' 'uf2 UF2' 'UF2 UF2' 'elf ELF file' 'AXF ELF file'; do
    end=${row%% *}
    cp new "named.$end"
    refused "named.$end" "$of_name" "dfu-flash: its name ends in .$end, but it is no ${row#* }: it was cut short or changed; build it anew"
done

# Other bytes are raw: with a device they are sent, and without one it is asked for.
for name in raw raw.bin raw.img dfu hex.bin; do
    cp new "$name"
    row 0 new 'verified: ' '' --device 1209:0001 "$name"
    row 0 new 'verified: ' '' --device 1209:0001 --raw "$name"
    row 1 old "$has_no_suffix" '' "$name"
    says 'with --device VID:PID, both not ffff'
done
for bytes in ':1\1' 'S1\1' 'UF3\n\1' '\177EL\1' 'PK\3\1' '\37\1' 'text\1'; do
    # shellcheck disable=SC2059
    printf "$bytes" > likely
    row 0 likely 'verified: ' '' --device 1209:0001 likely
done

# --raw is for bytes that nothing else is known of. A file that is damaged stays refused.
row 2 old '' '' --raw --device 1209:0001 new.dfu
says 'the file has a suffix, so it says itself where its image ends: leave --raw out'
expect 'a suffix and --raw: nothing is sent' is_silent
{ printf 'DfuSe\1'; head -c 100 /dev/zero; } > st.bin
row 2 old '' '' --raw --device 1209:0001 st.bin
says 'the file is a DfuSe file, so it says itself where its images belong: leave --raw out'
expect 'DfuSe and --raw: nothing is sent' is_silent
row 1 old 'BadCrc: ' '' --raw --device 1209:0001 damaged.dfu
row 1 old 'TooLarge: ' '' --raw --device 1209:0001 large
row 1 old 'EmptyPayload: ' '' --raw --device 1209:0001 empty
for words in '--raw --upload never' '--raw --list' '--raw --detach'; do
    # shellcheck disable=SC2086
    row 2 - '' '' $words
    says '--raw goes with a FILE that is downloaded'
done

# An image in a DFU file is sent, whatever it looks like; one that looks like a file of another format, or is text, gets a warning.
# warns FILE TEXT
warns() {
    "$dfu" add "$1" it.dfu --vid 1209 --pid 0001 > /dev/null
    for quiet in '' --quiet; do
        # shellcheck disable=SC2086
        row 0 "$1" 'verified: ' USB_CAPACITY=1000 $quiet it.dfu
        says "dfu-flash: the image in the file $2"
    done
}
warns it.ihex 'looks like Intel HEX: `dfu add --format ihex` takes out the image that it describes'
warns marked.HEX 'looks like Intel HEX: `dfu add --format ihex` takes out'
warns it.srec 'looks like Motorola S-records: `dfu add --format srec` takes out'
warns it.elf64 'looks like an ELF file: unless the board loads ELF files, add a suffix to what `objcopy -O binary` makes of it'
warns it.uf2 'looks like UF2: `dfu add --format uf2` takes out'
warns it.elf 'looks like an ELF file: unless the board loads ELF files, `dfu add --format elf` takes out the image'
warns it.zip 'looks like a zip archive: unless the board unpacks it, add a suffix to what is in it'
warns it.dfu.gz 'looks like a gzip archive: unless the board unpacks it, add a suffix to what is in it'
for archive in xz bzip2 7z zstd rar tar; do
    warns "it.$archive" "looks like a $archive archive: unless the board unpacks it, add a suffix to what is in it"
    row 0 "it.$archive" 'verified: ' USB_CAPACITY=1000 --device 1209:0001 "it.$archive"
    says "dfu-flash: the file looks like a $archive archive: unless the board unpacks it, unpack it first"
    row 0 "it.$archive" 'verified: ' USB_CAPACITY=1000 --raw --device 1209:0001 "it.$archive"
    expect "it.$archive: --raw means it" test "$(grep -c archive err)" -eq 0
done
warns notes "is text: unless the board takes text, add a suffix to the build's image"
# None of them is an image of a processor, or begins like one of these and is another.
for bytes in '\0\40\0\40\301\1\0\10' '\1\2' '\0' '\377\377\377\377' ':1\1' 'S1\1' 'UF3\n\1' '\177EL\1' 'PK\3\1' '\37\1' 'text\1' 'DfuS\1' \
    '\27\3\1\0o\0\0\0' '\351\2\2\40'; do
    # shellcheck disable=SC2059
    { printf "$bytes"; printf '\2\1'; } > likely
    "$dfu" add likely it.dfu --vid 1209 --pid 0001 > /dev/null
    row 0 likely 'verified: ' '' it.dfu
    expect "$bytes: no warning" test "$(grep -c 'the image in the file' err)" -eq 0
done
# Who follows a hint sends the image, and not its text.
printf AAAA > inside
printf 'S107000041414141F4\nS9030000FC\n' > whole.srec
cp it.ihex whole.ihex
for format in ihex srec; do
    "$dfu" add --format auto "whole.$format" it.dfu > added
    expect "$format: the address is printed" grep -q 'address 0x00000000' added
    row 0 inside 'verified: ' '' it.dfu
    row 0 - 'verified: ' 'USB_DEVICE=dfuse USB_IDS=1209:0001:0100' --address 0x08000000 it.dfu
    expect "$format: the image at the address" test "$(head -c 4 saved)" = AAAA
done
