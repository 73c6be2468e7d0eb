# Rows of tests/apps/flash: --demo. It touches no USB, and nothing that it prints can be taken for a real board's.
# shellcheck shell=sh disable=SC2154

# demo WORDS..: its status is in $code, its texts in out and err; with a stand-in that answers nothing, which writes a log at any call.
demo() {
    code=0
    rm -f log
    env LD_LIBRARY_PATH="$work" USB_DEVICES=0 USB_DENIED=3 USB_LOG="$work/log" timeout 60 ./dfu-flash --demo "$@" > out 2> err || code=$?
}
# demo_row STATUS WORDS..: the status; each line says that it is simulated; and USB wasn't touched.
demo_row() {
    status=$1
    shift
    demo "$@"
    expect "--demo $*: $code, $(cat out err)" test "$code" -eq "$status"
    expect "--demo $*: each line is marked" test "$(cat out err | grep -c -v '^simulated: \|^{"simulated":true,')" -eq 0
    expect "--demo $*: no USB" test ! -e log
}
head -c 3000 /dev/zero | tr '\0' '\1' > demo.bin
"$dfu" add demo.bin demo.dfu --vid 1234 --pid 5678 > /dev/null
for words in '' demo.bin demo.dfu any.dfu long.dfu short; do
    # shellcheck disable=SC2086
    demo_row 0 $words
    expect "--demo $words: what came of it" test "$(sed 's/^simulated: //; s/:.*//; 1s/.*/list/' out | tr '\n' ' ')" = \
        'list verified verified gone verified '
    expect "--demo $words: the old image" grep -q '^simulated: the board still has the image of before, whole' err
    expect "--demo $words: its end" grep -q '^simulated: that is all; no board was touched' err
    # shellcheck disable=SC2086
    demo_row 0 --json --quiet $words
    expect "--demo --json $words" test "$(sed 's/.*"report":"\([^"]*\)".*/\1/; 1s/.*/list/' out | tr '\n' ' ')" = \
        'list simulated verified simulated verified simulated gone simulated verified '
    expect "--demo --json --quiet $words" test ! -s err
done
demo demo.dfu
expect 'the board is of the file' grep -q '^simulated: 1234:5678 path 0-1 serial SIMULATED ' out
demo demo.bin
expect 'a raw image has the ids for tests' grep -q '^simulated: 1209:0001 path 0-1 ' out
if command -v python3 > /dev/null; then
    demo --json
    expect 'records' python3 -c 'import json
r = [json.loads(line) for line in open("out")]
assert all(x["simulated"] is True and x["path"] == "0-1" and x["serial"] == "SIMULATED" for x in r), r
assert [x.get("status") for x in r] == [None, 0, 0, 10, 0] and all(x["report"].startswith("simulated ") for x in r[1:]), r'
    expect 'one request more for the answer that was lost' python3 -c 'import json
r = [json.loads(line) for line in open("out")]
assert r[2]["transfers"] > r[1]["transfers"] and r[3]["transfers"] < r[1]["transfers"], r'
fi
head -c 1000000 /dev/urandom > million
demo_row 0 --quiet million
# What is wrong with the file is no matter of the board, and there is no report of success.
for pair in 'empty:1' 'damaged.dfu:1' 'nowhere:3' 'looks.hex:1'; do
    printf ':00000001FF\n' > looks.hex
    demo "${pair%:*}"
    expect "--demo ${pair%:*}: $code" test "$code" -eq "${pair#*:}"
    expect "--demo ${pair%:*}: nothing is verified" test "$(grep -c verified out)" -eq 0
done
for words in '--all new.dfu' '--list' '--upload up' '--detach' '--device 1209:0001 new' '--serial F1' '--path 1-1' '--wait' '--timeout 5' \
    '--verbose' '--verbose=trace' '--limits 1 1' '--dry-run' '--address 0x08000000 new' '--force' '--no-verify new' '--raw new' \
    '--log .' 'new.dfu new.dfu' '-D new.dfu new.dfu' '-U new.dfu' '--alt 0' '--transfer-size 8'; do
    # shellcheck disable=SC2086
    row 2 - '' '' --demo $words
done
for words in 'new.dfu --demo=5' '--list --demo' '-U new.dfu --demo'; do
    # shellcheck disable=SC2086
    row 2 - '' '' $words
done
# The word that doesn't go with it is named, and the line to type is printed.
row 2 - '' '' --demo --all --json 'a b.dfu'
says 'dfu-flash: --demo goes with a FILE, --json and --quiet alone, because its one board is simulated; leave out: --all'
says "next: run: dfu-flash --demo --json 'a b.dfu'"
# Each option of --help, before --demo and behind it: all that don't go with it are named, and the line to type has the rest.
LD_LIBRARY_PATH=$work ./dfu-flash --help | sed -n 's/^ *\(-[hV], \)*--\([a-z-]*\) .*/\2/p' > longs
expect 'options' test "$(wc -l < longs)" -ge 30
while read -r long; do
    value=
    case $long in
    device | path | serial | interface | alt | upload | timeout | transfer-size | length | log | report | ports | retry | count | stamp)
        value=1 ;;
    limits) value='1 1' ;;
    address) value=0x08000000 ;;
    stamp-at) value=16:8 ;;
    esac
    [ "$long" != device ] || value=1209:0001
    case $long in
    quiet | json | demo | help | version) continue ;;
    esac
    for words in "--demo --quiet --json --$long $value demo.bin" "--json --$long $value --demo demo.bin"; do
        # shellcheck disable=SC2086
        row 2 - '' '' $words
        says "because its one board is simulated; leave out: --$long"
        case $words in
        *quiet*) both='--json --quiet' ;;
        *) both=--json ;;
        esac
        expect "$words: what to type" test "$(tail -n 1 err)" = "next: run: dfu-flash --demo $both demo.bin"
    done
done < longs
row 2 - '' '' -l --demo --all -s 0x08000000:leave --device 1209:0001 new.dfu --verbose
says 'leave out: --all, --list, --device, -s, --verbose'
says 'next: run: dfu-flash --demo new.dfu'
row 2 - '' '' --retry 2 --demo
says 'leave out: --retry'
says 'next: run: dfu-flash --demo'
# -D is dfu-util's word for FILE, before --demo or behind it.
demo_row 0 -D new.dfu
code=0
./dfu-flash -D new.dfu --demo > out 2> err || code=$?
expect "-D FILE --demo: $code" test "$code-$(grep -c verified out)" = 0-3
row 2 - '' '' --demo --stamp serials --stamp-at 16:8
says '--demo goes with a FILE, --json and --quiet alone'
demo --json > /dev/null
code=0
./dfu-flash --demo > /dev/full 2> err || code=$?
expect 'standard output is full' test "$code" -eq 3
# A real board's report has no such mark.
row 0 new 'verified: ' '' new.dfu
expect 'a real report' test "$(cat out err | grep -c simulated)" -eq 0
