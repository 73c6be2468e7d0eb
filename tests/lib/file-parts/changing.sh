# `check` of several files, `extract`, `set`, and the formats of `add`.
# shellcheck shell=sh disable=SC2034,SC2086,SC2154

# Several files: a line each with its name, and the worst status; one file has none.
expect 1 "ones.dfu: $ok
big.bin: refused NoSignature
digits.dfu: ok payload 9 suffix 16 device 0100 product 0001 vendor 1209 dfu 0100 crc fe701c62" "$dfu" check ones.dfu big.bin digits.dfu
expect 3 "nowhere: fault Read
ones.dfu: $ok" "$dfu" check nowhere ones.dfu
expect 0 "ones.dfu: $ok
ones.dfu: $ok" "$dfu" check ones.dfu ones.dfu
expect 0 "$(printf 'a?b: %s\na?b: %s' "$ok" "$ok")" \
    sh -c "cp ones.dfu \"\$(printf 'a\\033b')\"; '$dfu' check \"\$(printf 'a\\033b')\" \"\$(printf 'a\\033b')\""

# extract: the payload alone, where FILE is a DFU file.
printf '123456789' > digits.bin
rm -f out
expect 0 'wrote 9' "$dfu" extract digits.dfu out
same out digits.bin
expect 0 'wrote 9' sh -c "'$dfu' extract - out < digits.dfu"
expect 0 'wrote 4' "$dfu" extract ones.dfu out
equal 'a payload' 4 "$(wc -c < out | tr -d ' ')"
cp digits.bin kept
expect 1 'refused TooShort' "$dfu" extract digits.bin kept
expect 3 'fault Read' "$dfu" extract nowhere kept
expect 2 'bad words' "$dfu" extract digits.dfu -
expect 3 'fault Write' "$dfu" extract digits.dfu nowhere/out
expect 3 'fault Write' "$dfu" extract digits.dfu sub
same kept digits.bin
"$dfu" add /dev/null empty.dfu > line
expect 0 'wrote 0' "$dfu" extract empty.dfu nothing
equal 'an empty payload' 0 "$(wc -c < nothing | tr -d ' ')"
cp digits.dfu both
expect 0 'wrote 9' "$dfu" extract both both
same both digits.bin

# set: the identifiers that are given, and all else as it was; back again, it is the same file.
set_to='ok payload 9 suffix 16 device 0100 product 0001 vendor'
cp digits.dfu it
found=$("$dfu" set it --vid ffff)
equal 'set' "$set_to ffff" "${found%% dfu *}"
equal 'what check says of it' "$found" "$("$dfu" check it)"
expect 0 "$set_to 1209 dfu 0100 crc fe701c62" "$dfu" set it --vid 1209
same it digits.dfu
expect 0 "$set_to 1209 dfu 0100 crc fe701c62" "$dfu" set it --pid 0001 --did 0100 --vid 1209
same it digits.dfu
# Extra bytes of a suffix stay.
if command -v python3 > /dev/null; then
    python3 - << 'END'
import binascii, struct
for name, ids in ("long.dfu", (1, 2, 3)), ("wanted.dfu", (1, 0xabcd, 3)):
    front = b"payload" + b"extra" + struct.pack("<4H", *ids, 0x0100) + b"UFD" + bytes((21,))
    open(name, "wb").write(front + struct.pack("<I", binascii.crc32(front) ^ 0xffffffff))
END
    "$dfu" set long.dfu --pid ABCD > line
    same long.dfu wanted.dfu
    equal 'a long suffix' 'ok payload 7 suffix 21 device 0001 product abcd vendor 0003' "$(sed 's/ dfu .*//' line)"
fi
cp digits.bin kept
expect 1 'refused TooShort' "$dfu" set kept --vid 1209
expect 2 'bad words' "$dfu" set it
expect 2 'bad words' "$dfu" set it --vid 12g9
expect 2 'bad words' "$dfu" set - --vid 1209
expect 3 'fault Read' "$dfu" set nowhere --vid 1209
same kept digits.bin
same it digits.dfu
equal 'no file -' '' "$(find . -name -)"
# A link stays, another hard link keeps the old bytes, rights stay, and so does the owner.
cp digits.dfu target
rm -f link hard other
ln -s target link
ln target other
chmod 640 target
before=$(rights target)
"$dfu" set link --vid ffff > line
equal 'a link that was set' "target $before" "$(readlink link) $(rights target)"
same other digits.dfu
equal 'the target' 'ffff' "$("$dfu" check target | sed 's/.* vendor \([0-9a-f]*\).*/\1/')"
# What is no regular file stays as it is.
expect 3 'fault Read' "$dfu" set sub --vid ffff
if [ "$(id -u)" -eq 0 ]; then
    cp digits.dfu owned
    chown 65534:65534 owned
    chmod 660 owned
    "$dfu" set owned --vid ffff > line
    equal 'an owner that stays' '-rw-rw---- 65534 65534' "$(rights owned) $(ls -ln owned | awk '{ print $3, $4 }')"
    if command -v setpriv > /dev/null; then
        cp digits.dfu closed/it
        chmod 666 closed/it
        expect 3 'fault Write' $as_other "$work/program" set closed/it --vid ffff
        expect 3 'fault Write' $as_other "$work/program" extract closed/it closed/new
        same closed/it digits.dfu
    fi
fi
# A write that fails leaves the file as it was, and no part; nor does a signal harm it.
cp big.dfu it
expect 3 'fault Write' sh -c "trap '' XFSZ; ulimit -f 8; '$dfu' set it --vid 1209"
same it big.dfu
expect 3 'fault Write' sh -c "trap '' XFSZ; ulimit -f 8; '$dfu' extract it out"
if [ -c /dev/full ]; then
    expect 3 '' sh -c "'$dfu' set it --vid 1209 > /dev/full"
    expect 3 '' sh -c "'$dfu' extract it made > /dev/full"
    same made big.bin
    "$dfu" set it --vid ffff > line
    same it big.dfu
fi
cp big.dfu changed
"$dfu" set changed --vid 1209 > line
for wait in 0.01 0.02 0.03 0.05; do
    cp big.dfu it
    "$dfu" set it --vid 1209 > line 2>&1 &
    killed=$!
    sleep "$wait"
    kill -9 "$killed" 2> line || true
    wait "$killed" 2> line || true
    if cmp -s it changed; then same it changed; else same it big.dfu; fi
done
rm -f .dfu-part-*

# Files that builds produce: the image, and where it begins.
printf ':020000040800F2\r\n:0900000031323334353637383 91A\r\n' | tr -d ' ' > it.hex
printf ':00000001FF\r\n' >> it.hex
for format in ihex auto; do
    rm -f out
    expect 0 'wrote 25
format ihex address 0x08000000' "$dfu" add it.hex out $ids --format $format
    same out digits.dfu
done
expect 0 'wrote 25
format ihex address 0x08000000' sh -c "'$dfu' add - out $ids --format auto < it.hex"
same out digits.dfu
cp digits.dfu kept
expect 1 'refused NoMark 1' "$dfu" add digits.bin kept --format srec
expect 1 'refused BadSize' "$dfu" add it.hex kept --format uf2
expect 1 'refused NotElf' "$dfu" add it.hex kept --format elf
expect 2 'bad words' "$dfu" add it.hex kept --format hex
expect 2 'bad words' "$dfu" add it.hex kept --format ihex --fill f
expect 2 'bad words' "$dfu" add it.hex kept --fill ff
printf ':0100000001FE\n:0100020001FC\n:00000001FF\n' > gap.hex
expect 1 'refused Gap 00000001 00000002' "$dfu" add gap.hex kept --format auto
same kept digits.dfu
expect 0 'wrote 19
format ihex address 0x00000000' "$dfu" add gap.hex out --format auto --fill A5
"$dfu" extract out it > line
equal 'a gap that is filled' '01a501' "$(od -An -tx1 it | tr -d ' \n')"
# What is no image makes no file; what nothing is known against is taken as it is, and so is text by the word raw.
expect 1 'refused NotAnImage text' "$dfu" add digits.bin kept $ids --format auto
same kept digits.dfu
expect 0 'wrote 25' "$dfu" add digits.bin out $ids --format raw
same out digits.dfu
printf '\001\002\003' > bytes.bin
expect 0 'wrote 19' "$dfu" add bytes.bin out $ids --format auto
"$dfu" extract out it > line
same it bytes.bin
expect 3 'fault Write' "$dfu" add it.hex nowhere/out --format auto
head -c 16777217 /dev/zero > large
expect 1 'refused TooLarge' "$dfu" add large kept --format auto
expect 1 'refused TooLarge' "$dfu" set large --vid 1209
expect 1 'refused TooLarge' "$dfu" extract large kept
same kept digits.dfu
equal 'parts' '' "$(find . -name '*dfu-part*')"
