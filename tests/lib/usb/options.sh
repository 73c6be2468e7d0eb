# Rows of tests/apps/flash: --detach, --transfer-size, records in JSON of --list and --dry-run, and texts of devices and names of files
# that aren't ASCII.

# --detach: to DFU mode, and no further; a device that is there already is sent nothing.
row 0 old 'detached: the device is in DFU mode' 'USB_START=app USB_ALTERNATES=3' --detach
expect 'one DETACH, and a reset' test "$(sed 's/ .*//; /setting/d' log | tr '\n' ' ')" = '0 reset end '
expect 'one DETACH' grep -q '^0 DETACH 1000 0 -> ok' log
row 0 old 'detached: ' 'USB_START=app USB_AWAY=4 USB_DFU_IDS=1209:00ff:0100' --detach --device 1209:0001
row 0 old 'detached: ' 'USB_START=app USB_ATTRIBUTES=0f USB_DETACH=5' --detach
expect 'it detaches by itself: no reset' test "$(grep -c reset log)" -eq 0
row 0 old 'detached: ' 'USB_START=app USB_DESCRIPTOR=0' --detach
row 0 old 'detached: the device was in DFU mode already: nothing was sent' '' --detach
expect 'in DFU mode: nothing is sent' is_silent
record='{"status":0,"report":"detached","words":"the device is in DFU mode","goal":"detach","vendor":"1209",'
row 0 old "$record" USB_START=app --detach --json
row 0 old 'detached: ' 'USB_START=app USB_ABSENT=3' --detach --wait --quiet
row 4 old '' 'USB_START=app USB_DEVICES=0' --detach
row 12 old '' 'USB_START=app USB_DEVICES=2' --detach
row 5 old '' 'USB_START=app USB_CLAIMED=6' --detach
row 7 old 'timed-out: ' 'USB_START=app USB_AWAY=100000' --detach --timeout 1
stopped INT '^0 DETACH' 'USB_START=app USB_AWAY=100000' --detach
expect 'a signal' test "$code-$(cut -d : -f 1 out)" = 11-aborted
fate='lost-out 0'
row 15 old 'not-detached: ' 'USB_START=app' --detach
fate=
row 0 old 'detached: ' 'USB_START=app' --detach --verbose
expect 'a trace' grep -q '^own: DETACH 1000 0 ack - [0-9]*$' err
for words in '--detach new.dfu' '--detach --upload never' '--upload never --detach' '--detach --list' '--list --detach' \
    '--detach --dry-run' '--detach --limits 1 1' '--detach --force' '--detach --no-verify' '--detach --transfer-size 8'; do
    # shellcheck disable=SC2086
    row 2 - '' '' $words
done

# --transfer-size: the blocks that are sent and asked for, in place of what the descriptor says.
blocks() {
    sed -n "s/^[0-9]* $1 [0-9]* \([0-9]*\) .*/\1/p" log | tr '\n' ' '
}
row 0 new 'verified: ' USB_TRANSFER=16 --transfer-size 8 new.dfu
expect 'smaller blocks' test "$(blocks DNLOAD)$(blocks UPLOAD)" = '8 8 8 2 0 8 8 8 8 '
row 0 new 'verified: ' 'USB_TRANSFER=16 USB_START=app' --transfer-size 1 new.dfu
for said in 0 4 64; do
    row 0 new 'verified: ' "USB_SAID=$said" --transfer-size 8 new.dfu
    expect 'a descriptor that is wrong' test "$(blocks DNLOAD)" = '8 8 8 2 0 '
done
row 0 new 'verified: ' 'USB_SAID=8 USB_TRANSFER=4096' --transfer-size 4096 new.dfu
expect 'larger blocks' test "$(blocks DNLOAD)" = '26 0 '
row 0 old 'uploaded: ' USB_TRANSFER=16 --transfer-size 5 --upload small
expect 'an upload in smaller blocks' cmp old small
row 0 old 'dry-run: download and compare 26 bytes in blocks of 5, ' '' --transfer-size 5 --dry-run new.dfu
for words in '--transfer-size 0 new.dfu' '--transfer-size 4097 new.dfu' '--transfer-size x new.dfu' '--list --transfer-size 8'; do
    # shellcheck disable=SC2086
    row 2 - '' '' $words
done
# Smaller blocks than the board's own: a board that counts places by that size writes elsewhere, and gives them back from there.
flash USB_TRANSFER=16 --quiet --transfer-size 8 new.dfu
expect 'a warning, and nothing else' test "$(cat err)" = 'dfu-flash: blocks have 8 bytes, and the board takes 16: a board that counts '\
'places by its own size writes elsewhere, which a comparison can'\''t see'
flash 'USB_TRANSFER=16 USB_START=app' --transfer-size 1 new.dfu
expect 'once, before the first block' test "$(grep -n 'blocks have 1 byte, and the board takes 16: ' err | cut -d : -f 1)" = 1
flash USB_TRANSFER=16 --transfer-size 5 --quiet --upload smaller
says 'dfu-flash: blocks have 5 bytes, and the board takes 16: a board that counts places by its own size reads elsewhere'
row 0 new 'verified: ' 'USB_SAID=8192 USB_TRANSFER=4096' --quiet new.dfu
expect 'a file of one block' test ! -s err
{ head -c 5000 /dev/zero; printf '\1'; } > blocks
flash 'USB_SAID=8192 USB_TRANSFER=4096 USB_CAPACITY=5001' --quiet --device 1209:0001 blocks
says 'dfu-flash: blocks have 4096 bytes, and the board takes 8192: '
for words in new.dfu '--transfer-size 16 new.dfu' '--transfer-size 32 new.dfu'; do
    # shellcheck disable=SC2086
    flash USB_TRANSFER=16 --quiet $words
    expect "$words: no warning" test "$(grep -c 'blocks have' err)" -eq 0
done

# Records: of --list one for each line, and of --dry-run one.
row 0 - '{"vendor":"1209","product":"0001","release":"0100","path":"1-2","serial":"OTHER","interface":0,"alt":0,"name":"stand-in",' \
    USB_DEVICES=2 --list --json
expect 'a record each' test "$(wc -l < out)" -eq 2
row 0 - '' USB_DEVICES=0 --list --json
expect 'no device: no record' test ! -s out
says 'no device with DFU is there'
row 0 old '{"status":0,"report":"dry-run","words":"nothing was sent","goal":"verified","vendor":"1209",' '' --json --dry-run new.dfu
expect 'a dry run: nothing is sent' is_silent
row 0 old '{"status":0,"report":"dry-run","words":"bring it to DFU mode, and ' 'USB_START=app USB_DESCRIPTOR=0' --json --dry-run new.dfu
row 12 old '{"status":12,"report":"several","words":"more than one device, interface or setting; choose by --device, ' USB_DEVICES=2 \
    --json new.dfu
row 4 - '{"status":4,"report":"none","words":"there is no such device","next":"' USB_DEVICES=0 --json new.dfu
if command -v python3 > /dev/null; then
    flash 'USB_ALTERNATES=3 USB_DENIED=3' --list --json
    expect 'records' python3 -c 'import json
r = [json.loads(line) for line in open("out")]
assert [(x["alt"], x["mode"], x["access"]) for x in r] == [(0, "DFU", "no"), (1, "DFU", "no"), (2, "DFU", "no")], r'
    flash 'USB_START=app USB_ATTRIBUTES=0d' --list --json
    expect 'a record' python3 -c 'import json
r = json.load(open("out"))
assert r["mode"] == "run-time" and r["transfer"] == 8 and r["descriptor"] == "09210de80308001001" and r["access"] == "yes", r
assert (r["download"], r["upload"], r["tolerant"], r["will_detach"]) == (True, False, True, True), r'
    flash '' --json --dry-run --upload never
    expect 'a record' python3 -c 'import json
r = json.load(open("out"))
assert r["goal"] == "upload" and r["transfer"] == 8 and r["most_restarts"] == 3 and "bytes" not in r, r'
fi

# Without access nothing is known of a memory map.
row 0 - "    the memory map can't be read without access" 'USB_DEVICE=dfuse USB_DENIED=3' --list
row 0 - '{' 'USB_DEVICE=dfuse USB_DENIED=3' --list --json
expect 'neither map nor fault' test "$(grep -c 'map"' out)" -eq 0

# Who may not open the device is shown the rule for it, and how to get one for every device.
row 5 old '' USB_DENIED=3 new.dfu
says 'make install UDEVDIR=/etc/udev/rules.d'

# Texts: as they are in UTF-8, to be given so; control characters and what is no character are escaped, and a NUL ends them.
# named SERIAL SHOWN GIVEN: a serial number, as it is shown, and as it is given, for printf.
named() {
    row 0 - "1209:0001 path 1-1 serial $2 interface 0 alt 0 \"stand-in\" DFU mode, " "USB_SERIAL=$1" --list
    row 0 new 'verified: ' "USB_SERIAL=$1" --serial "$(printf '%b' "$3")" new.dfu
}
named 'S\u00e9' 'Sé' 'Sé'
named '\u30b7\ud83d\ude00-1' 'シ😀-1' 'シ😀-1'
named 'S\u001b[2J' 'S\x1b[2J' 'S\0033[2J'
named 'S\u009b' 'S\xc2\x9b' 'S\0302\0233'
named 'S\u202e' 'S\xe2\x80\xae' 'S\0342\0200\0256'
named 'S\ud800' 'S\xed\xa0\x80' 'S\0355\0240\0200'
named 'S\u0000F' S S
row 4 old '' 'USB_SERIAL=S\u00e9' --serial 'S?' new.dfu
row 0 new '{"status":0,"report":"verified",' 'USB_SERIAL=S\u00e9\u001b\u0022\ud800' --json --quiet new.dfu
if command -v python3 > /dev/null; then
    expect 'a record' python3 -c 'import json
assert json.load(open("out", encoding="utf-8"))["serial"] == "S\u00e9\x1b\"\ufffd\ufffd\ufffd"'
fi
name=$(printf 'a\033[2J\302\233\303\251\377b')
row 3 old '' '' "$name"
expect 'a name is escaped' grep -qF "$(printf 'dfu-flash: a\\x1b[2J\\xc2\\x9b\303\251\\xffb can'"'"'t be read: ')" err
row 3 old '' '' --upload "nowhere/$name"
expect 'a name is escaped' grep -qF "$(printf 'nowhere/a\\x1b[2J\\xc2\\x9b\303\251\\xffb can'"'"'t be made: ')" err
row 2 - '' '' new.dfu "$name"
expect 'a word is escaped' grep -qF "$(printf '(new.dfu, a\\x1b[2J')" err

# 'Coming from dfu-util': each of its options has a line in the manual, and stands in the help.
sed -n '/^\.SH COMING FROM DFU/,/^\.SH LIMITS/p' "$top/share/man/dfu-flash.1" > section
LD_LIBRARY_PATH=$work ./dfu-flash --help | sed -n '/^Coming from dfu-util:/,/^$/p' > help
for option in D U Z l d p S i a n c t w e E R v V s; do
    expect "-$option of dfu-util, in the manual" grep -q "^\.B.*\\\\-$option\\b" section
    expect "-$option of dfu-util, in the help" grep -q "^  .*-$option\\b" help
done

# The step behind words that don't go together, and behind a number that is none.
for pair in '--stamp list new.dfu|next: add --stamp-at PLACE:BYTES, as --stamp-at 0x40:16' \
    '--stamp-at 16:8 new.dfu|next: add --stamp LIST' \
    '--all --path 1-1 new.dfu|next: for one device leave out --all' \
    '--all --list|next: leave out --all' \
    '--retry new.dfu|next: give it a decimal number behind it' \
    '--count x --all new.dfu|next: give it a decimal number behind it' \
    '-n 5 new.dfu|next: name its path by --path' \
    '-s :mass-erase new.dfu|next: leave that word out' \
    '-s :mass-erase:force new.dfu|next: leave those words out' \
    '-t 8192 -D new.dfu|next: leave it out, or type 4096: a control transfer carries no more on Linux' \
    '--transfer-size 0 new.dfu|next: give it a decimal number behind it'; do
    # shellcheck disable=SC2086
    row 2 - '' '' ${pair%|*}
    says "${pair#*|}"
done
