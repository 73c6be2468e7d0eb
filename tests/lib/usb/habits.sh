# Rows of tests/apps/flash: what people try: dfu-util's short options, raw images, standard input, and words that choose no device.

# dfu-util's options that mean the same.
row 0 new 'verified: ' '' -D new.dfu
row 0 new 'verified: ' USB_DEVICES=2 -S F1 -D new.dfu
row 0 new 'verified: ' USB_DEVICES=2 -p 1-1 -Dnew.dfu -R
row 0 new 'verified: ' USB_ALTERNATES=3 -d 1209:0001 -i 0 -a 1 -t 8 new.dfu
row 0 new 'verified: ' 'USB_ALTERNATES=3 USB_SETTING=1' -a kernel -D new.dfu
row 0 new 'verified: ' 'USB_START=app USB_AWAY=4 USB_DFU_IDS=1209:00ff:0100' -d 1209:0001,1209:00ff -D new.dfu
row 0 new 'verified: ' USB_ABSENT=3 -w -D new.dfu
row 0 old 'uploaded: ' '' -t 5 -R -U habit
expect 'an upload' cmp old habit
row 0 old 'detached: ' USB_START=app -e
row 0 - '1209:0001 path 1-1 serial F1' '' -l
for words in '-D new.dfu new.dfu' '-D new.dfu -D new.dfu' '-D new.dfu -U never' '-U never -D new.dfu' '-l -D new.dfu' '-D new.dfu -l' \
    '-e -D' '-D new.dfu -e' '-D' '-t 4097 -D new.dfu' '-x new.dfu'; do
    # shellcheck disable=SC2086
    row 2 - '' '' $words
done
expect 'no upload' test ! -e never
# answer TEXT WORDS..: what isn't taken, and what is there in its place.
answer() {
    text=$1
    shift
    row 2 - '' '' "$@"
    says "$text"
}
answer '--path PATH' -n 5 -D new.dfu
row 1 old 'NotDfuSe: ' '' -s 0x08000000:leave -D new.dfu
answer 'decimal' -a 010 -D new.dfu
answer 'decimal' -a 0x1 -D new.dfu

# A raw image is taken with --device, which names vendor and product; it is sent whole, and standard error says so.
row 0 new 'verified: ' '' --device 1209:0001 new
says 'dfu-flash: there is no suffix: all 26 bytes are sent, to 1209:0001'
row 0 old 'dry-run: ' '' --dry-run --device 1209:0001 new
says 'dfu-flash: there is no suffix: all 26 bytes would be sent, to 1209:0001'
row 0 new 'verified: ' '' -d 1209:0001 --quiet -D new
expect 'quiet' test ! -s err
row 0 new 'verified: ' 'USB_START=app USB_AWAY=4 USB_DFU_IDS=1209:00ff:0100' --device 1209:0001,1209:00ff new
row 0 new 'verified: ' USB_DFU_IDS=1209:00ff:0100 --device 1209:0001,1209:00ff new
printf 'shor\1' > short
row 0 short 'verified: ' '' --device 1209:0001 short
for words in new '--device ffff:0001 new' '--device 1209:ffff new' '--path 1-1 new'; do
    # shellcheck disable=SC2086
    row 1 old 'NoSignature: ' '' $words
    says 'with --device VID:PID, both not ffff'
    expect 'a raw image: nothing is sent' is_silent
done
row 4 old '' '' --device 1209:0002 new
row 1 old 'EmptyPayload: ' '' --device 1209:0001 empty
# What has a suffix is no raw image: a damaged one isn't sent, nor one for another device.
{ printf x; cat new.dfu; } > damaged.dfu
row 1 old 'BadCrc: ' '' --device 1209:0001 damaged.dfu
row 1 old 'WrongTarget: ' '' --device 1209:0001 other.dfu
head -c 16777201 /dev/zero > large
row 1 old 'TooLarge: ' '' --device 1209:0001 large
row 0 old 'dry-run: ' '' --device 1209:0001 --dry-run new
# The suffix that it gets is that of `dfu add`, for many sizes: the host refuses one with another check sum.
for size in 1 15 16 17 255 1000 65537; do
    { printf '\1'; head -c $((size - 1)) /dev/urandom; } > sized
    row 0 old "dry-run: download and compare $size bytes" '' --device 1209:0001 --dry-run sized
done

# A file that is for any board says to which one it goes, unless the words name the board.
"$dfu" add new vendor.dfu --vid 1209 > /dev/null
"$dfu" add new product.dfu --pid 0001 > /dev/null
row 0 new 'verified: ' USB_PATH=3-1.4 any.dfu
says 'dfu-flash: the file is for any board; it is sent to 1209:0001 at 3-1.4'
expect 'once, before the first block' test "$(grep -n 'for any board' err | cut -d : -f 1)" = 1
row 0 new '{"status":0,' '' --json vendor.dfu
says 'dfu-flash: the file is for any board of vendor 1209; it is sent to 1209:0001 at 1-1'
row 0 new 'verified: ' USB_START=app product.dfu
says 'dfu-flash: the file is for any board with product 0001; it is sent to 1209:0001 at 1-1'
row 0 old 'dry-run: ' '' --dry-run any.dfu
says 'dfu-flash: the file is for any board; it would be sent to 1209:0001 at 1-1'
row 12 old '' USB_DEVICES=2 any.dfu
expect 'two boards: to none' test "$(grep -c 'for any board' err)" -eq 0
for words in '--quiet any.dfu' '--device 1209:0001 any.dfu' '--path 1-1 any.dfu' '--serial F1 any.dfu' new.dfu; do
    # shellcheck disable=SC2086
    row 0 new 'verified: ' '' $words
    expect "$words: no such line" test "$(grep -c 'for any board' err)" -eq 0
done

# Standard input.
row 0 new 'verified: ' '' - < new.dfu
row 0 new 'verified: ' '' -D - < new.dfu
row 0 new 'verified: ' '' --device 1209:0001 - < new
row 1 old 'TooShort: ' '' - < /dev/null
row 3 old '' '' - < .
says 'standard input can'\''t be read'
cp new.dfu ./-
row 0 new 'verified: ' '' ./- < /dev/null
rm -f ./-

# The seconds of --wait may be a word of their own.
row 0 new 'verified: ' USB_ABSENT=3 --wait 30 new.dfu
says 'waiting for the device for up to 30 s'
row 0 new 'verified: ' USB_ABSENT=3 new.dfu --wait 30
row 0 new 'verified: ' USB_ABSENT=3 -w 30 -D new.dfu
row 4 old '' USB_ABSENT=100000 --wait 1 new.dfu
cp new.dfu 5
row 0 new 'verified: ' USB_ABSENT=3 --wait ./5
# FILE may come before or between the options, whichever C library reads the words; behind -- there are no options.
row 0 new 'verified: ' '' new.dfu --limits 1000 3
row 0 new '{"status":0,"report":"verified",' '' --limits 1000 3 new.dfu --json --alt 0
row 0 new 'verified: ' USB_ABSENT=3 -p 1-1 -w new.dfu
row 0 new 'verified: ' USB_ABSENT=3 -a 0 new.dfu -Rw 30 -i 0
row 0 new 'verified: ' '' - --limits 1000 3 < new.dfu
row 0 new 'verified: ' '' --limits 1000 3 -- new.dfu
for words in 'new.dfu -- --json' '-- new.dfu --limits 1 1' 'new.dfu --limits 1' '--limits 1 new.dfu 1' 'new.dfu --wait 30 5'; do
    # shellcheck disable=SC2086
    row 2 - '' '' $words
done
row 0 new 'verified: ' '' 5
row 2 - '' '' --wait 5
says 'a number after --wait is its seconds'
row 2 - '' '' --wait 0 new.dfu

# Where no device is the one that is asked for, what none has is named, and what is there.
# lacks TEXT SETTINGS WORDS..
lacks() {
    text=$1
    shift
    row 4 old '' "$@"
    says "no device is the one that is asked for: $text"
    expect "$*: nothing is sent" is_untouched
}
lacks 'the file is for vendor 1209, product 0002 (ffff is any), and none has them; there is:' '' other.dfu
says 'if the one at 1-1 is the board that the file is for: --device 1209:0002,1209:0001'
lacks '--device names vendor 1209, product 0003 (ffff is any), and none has them' '' --device 1209:0003 new.dfu
says 'if the one at 1-1 is the board that is meant: --device 1209:0003,1209:0001'
lacks '--device names vendor ffff, product 0003 (ffff is any), and none has them' '' -d :3 new.dfu
says 'in DFU mode a device may have other numbers: see --device RUN,DFU'
lacks 'the file is for vendor 1209, product 0002 (ffff is any), and none has them' USB_DEVICES=2 other.dfu
says 'in DFU mode a device may have other numbers: see --device RUN,DFU'
lacks 'the file is for vendor 1209, product 0002 (ffff is any), and none has them' USB_START=app other.dfu
expect 'no device is in DFU mode' test "$(grep -c 'in DFU mode a device' err)" -eq 0
# After --detach a board whose numbers in DFU mode are others.
row 4 old '' 'USB_IDS=1209:0001:0100 USB_DFU_IDS=1200:0007:0100' new.dfu
says 'if the one at 1-1 is the board that the file is for: --device 1209:0001,1200:0007'
row 0 new 'verified: ' 'USB_IDS=1209:0001:0100 USB_DFU_IDS=1200:0007:0100' --device 1209:0001,1200:0007 new.dfu
# With --wait it is said at the begin, once, which boards are there, and why they aren't taken.
row 4 old '' '' --wait=1 other.dfu
says 'dfu-flash: no device that is there now is the one that is asked for: the file is for vendor 1209, product 0002 (ffff is any)'
expect 'once' test "$(grep -c 'there now' err)" -eq 1
for words in '--quiet --wait=1 other.dfu' '--wait=1 --device 1209:0002 new.dfu'; do
    settings=USB_DEVICES=0
    case $words in *quiet*) settings= ;; esac
    # shellcheck disable=SC2086
    row 4 - '' "$settings" $words
    expect "$words: nothing of that" test "$(grep -c 'there now' err)" -eq 0
done
row 0 new 'verified: ' USB_ABSENT=3 --wait new.dfu
expect 'nor of one that comes' test "$(grep -c 'there now' err)" -eq 0
lacks 'none of these is at --path 1-9' '' --path 1-9 new.dfu
lacks 'none of these has --serial F2' '' --serial F2 new.dfu
lacks 'none of these has --interface 3' '' --interface 3 new.dfu
lacks 'none of these has --alt 1' '' --alt 1 new.dfu
expect 'no other product is hinted at' test "$(grep -c 'RUN,DFU' err)" -eq 0
says '1209:0001 path 1-1 serial F1 '
lacks 'none of these has --alt kernel' '' --alt kernel new.dfu
lacks 'none of these has --serial OTHER; there is:' USB_DEVICES=2 --path 1-1 --serial OTHER new.dfu
serials=$(sed -n 's/.* serial \([^ ]*\) .*/\1/p; s/^and, .*/and/p' err | tr '\n' ' ')
expect 'first what is left, then the rest' test "$serials" = 'F1 and OTHER '
row 0 - '' USB_DEVICES=0 --list
says 'no device with DFU is there'
expect 'a list of nothing' test ! -s out
row 0 - '' '' --list --serial F2
says 'none of these has --serial F2'

# A code of the device is explained, and in a record.
row 6 old 'refused errADDRESS: the device refused it; ' USB_CAPACITY=13 new.dfu
says 'dfu-flash: errADDRESS: an address out of range: as a rule the image is larger than the device has room for'
row 6 old 'refused errNOTDONE: ' USB_LEAST=100 new.dfu
says 'too small'
row 6 old '{"status":6,"report":"refused","code":"errADDRESS",' USB_CAPACITY=13 --json --quiet new.dfu
expect 'in a record' grep -q '"meaning":"an address out of range: ' out
expect 'in a record: only there' test ! -s err

# An upload names its file.
row 0 old 'uploaded: ' '' --upload named
says 'dfu-flash: named has its 13 bytes'
row 0 old '{"status":0,"report":"uploaded",' '' --json --upload again
expect 'in a record' grep -q '"file":"again"' out
row 0 old 'uploaded: ' '' --quiet --upload quiet
expect 'quiet' test ! -s err

# The bar: as wide as the terminal, with the total and the time that is left.
if command -v script > /dev/null; then
    for columns in 100 80 50; do
        env LD_LIBRARY_PATH="$work" USB_SLOW=5 script -qec "stty cols $columns rows 24; ./dfu-flash long.dfu > out" terminal \
            > /dev/null 2>&1 < /dev/null || :
        tr '\r' '\n' < terminal | grep '^[dc].*%' > bars || :
        [ "$columns" -eq 50 ] || expect "$columns columns: what is left" grep -q ' of 800 bytes, .* kB/s, [0-9]* s left' bars
        expect "$columns columns: the end" grep -q '100% 800 of 800 bytes, [0-9.]* kB/s *$' bars
        longest=$(awk '{ sub(/ *$/, "") } length > most { most = length } END { print most + 0 }' bars)
        expect "$columns columns: one line" test "$longest" -lt "$columns"
    done
fi
