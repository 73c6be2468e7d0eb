# Rows of tests/apps/flash: what a station needs: records with time, file and check sum, --report, --ports, --retry and --count.
# shellcheck shell=sh disable=SC2034,SC2154

# Records have when, which file, and its CRC-32, as gzip has it behind a file.
crc=$(gzip -c new | tail -c 8 | od -An -tx4 -N4 | tr -d ' ')
time='20[0-9][0-9]-[01][0-9]-[0-3][0-9]T[0-2][0-9]:[0-5][0-9]:[0-6][0-9]Z'
row 0 new '{"status":0,"report":"verified",' '' --json new.dfu
expect 'a record' grep -q "\"time\":\"$time\",\"tries\":1,\"image\":\"new.dfu\",\"crc32\":\"$crc\"}\$" out
row 0 new '{"status":0,"report":"verified",' '' --json --device 1209:0001 new
expect 'a raw image has the same' grep -q "\"image\":\"new\",\"crc32\":\"$crc\"}\$" out
row 5 old '{"status":5,"report":"no-access",' USB_DENIED=3 --json new.dfu
expect 'no access: which device' grep -q '"vendor":"1209","product":"0001","release":"0100","path":"1-1",.*"crc32":' out
row 4 old '{"status":4,' USB_DEVICES=0 --json new.dfu
expect 'no device: none is named' test "$(grep -c '"vendor"' out)" -eq 0

# The report: made with its header, and added to.
old_header=time,status,report,words,image,crc32,vendor,product,release,serial,path,port,seconds
header=$old_header,tries
row 0 new 'verified: ' '' --report report.csv new.dfu
row 9 - 'different: ' 'USB_DEVICE=uboot USB_STORE=raw' --report report.csv new.dfu
row 4 - '' USB_DEVICES=0 --report report.csv new.dfu
row 1 - 'BadCrc: ' '' --report report.csv damaged.dfu
row 0 old 'uploaded: ' 'USB_SERIAL=a\u0022,b\u0007' --report report.csv --upload reported
expect 'one header' test "$(head -n 1 report.csv)-$(grep -c '^time,' report.csv)-$(wc -l < report.csv)" = "$header-1-6"
expect 'a line' grep -q "^\"$time\",0,\"verified\",\"after a reset .*\",\"new.dfu\",\"$crc\",\"1209\",\"0001\",\"0100\",\"F1\",\"1-1\",,[0-9.]*,1\$" \
    report.csv
expect 'the rest' test "$(cut -d , -f 2,3 report.csv | tail -n +2 | tr '\n' ' ')" = '0,"verified" 9,"different" 4,"none" 1,"BadCrc" 0,"uploaded" '
expect 'a serial number that others chose' grep -qF ',"a"",b\x07","1-1",' report.csv
row 0 new 'verified: ' '' --report report.json new.dfu
row 5 - '' USB_DENIED=3 --report report.json new.dfu
if command -v python3 > /dev/null; then
    expect 'records' python3 -c 'import json
r = [json.loads(line) for line in open("report.json")]
assert [x["status"] for x in r] == [0, 5] and all(x["vendor"] == "1209" and x["image"] == "new.dfu" for x in r), r
assert r[0]["serial"] == "F1" and "serial" not in r[1] and isinstance(r[0]["seconds"], float), r'
    expect 'columns' python3 -c 'import csv
r = list(csv.DictReader(open("report.csv", newline="")))
assert len(r) == 5 and r[4]["serial"] == "a\",b\\x07" and r[0]["port"] == "", r'
fi
printf '{"time":"broken off' > torn.json
row 0 new 'verified: ' '' --report torn.json new.dfu
says 'dfu-flash: torn.json: its last line was broken off, and is taken away'
expect 'a line that was broken off is gone' test "$(wc -l < torn.json)-$(tail -n 1 torn.json | cut -c 1-9)" = '1-{"time":"'
cp report.csv torn.csv
printf '"2026-11-30T09:15:00Z",0,"verified","after\0\0\0' >> torn.csv
row 0 new 'verified: ' '' --report torn.csv new.dfu
says 'dfu-flash: torn.csv: its last line was broken off, and is taken away'
expect 'a line more' test "$(wc -l < torn.csv)-$(grep -c '^\"20' torn.csv)" = "$(($(wc -l < report.csv) + 1))-$(wc -l < report.csv)"
head -c -1 report.csv > torn.csv
row 0 new 'verified: ' '' --report torn.csv new.dfu
expect 'one that lacks only its end stays' test "$(wc -l < torn.csv)" -eq $(($(wc -l < report.csv) + 1))
if [ -z "${NO_ALL-}" ]; then
    env LD_LIBRARY_PATH="$work" USB_BUSY=100 USB_ABSENT=40 USB_IMAGE="$work/old" ./dfu-flash --wait --report torn.csv new.dfu > other 2>&1 &
    soon grep -q 'waiting for the device' other
    rm torn.csv
    code=0
    wait "$!" || code=$?
    expect "a report that was removed: $code, $(cat other)" test "$code" -eq 3
    expect 'it says so' grep -q "torn.csv can't be written: it was removed or replaced while the program ran" other
    expect 'its step' grep -q '^next: put the report back, or name another file by --report: what is missing in it was printed$' other
fi
# One for which there is no room is named, with the next step; what becomes of the board is said all the same.
cp report.csv no-room.csv
{
    (
        trap '' XFSZ
        ulimit -f 1
        code=0
        env LD_LIBRARY_PATH="$work" USB_IMAGE="$work/old" ./dfu-flash --quiet --report no-room.csv new.dfu 2>&1 || code=$?
        env LD_LIBRARY_PATH="$work" USB_IMAGE="$work/old" ./dfu-flash --report no-room.csv new.dfu 2>&1 || :
        echo "$code" >&3
    ) | cat > out
} 3> status
expect "no room for the report: $(cat status)" test "$(cat status)-$(cmp report.csv no-room.csv)" = 3-
expect "no room for the report: $(cat out)" grep -q "^dfu-flash: no-room.csv can't be written: " out
expect 'no room for the report: the board' test "$(grep -c '^verified: ' out)" -eq 2
expect 'no room for the report: the next step' test \
    "$(grep '^next: ' out)" = 'next: make room, or name another file by --report: what is missing in it was printed'
# With --stamp a report in CSV has a column more, so that each kind is a file of its own.
printf 'A\n' > columns
row 3 - '' '' --stamp columns --stamp-at 16:8 --report report.csv new.dfu
says "report.csv can't be the report: it is a report without the column \`stamp\`, and --stamp adds one: name another file"
printf '%s,stamp\n' "$header" > stamped.csv
row 3 - '' '' --report stamped.csv new.dfu
says "stamped.csv can't be the report: it is a report with the column \`stamp\`, which goes with --stamp: name another file"
printf '%s\n' "$old_header" > before.csv
row 3 - '' '' --report before.csv new.dfu
says "before.csv can't be the report: it is a report of before the column \`tries\`: name another file"
expect 'nothing is added' test "$(wc -l < stamped.csv)" -eq 1

# What is known of an end stands behind its words: the code, the place, the file.
row 6 old 'refused errADDRESS: ' USB_CAPACITY=13 --report known.csv new.dfu
expect 'the code' grep -q ',6,"refused","[^"]* (errADDRESS)",' known.csv
row 9 - 'different: ' 'USB_DEVICE=dfuse USB_LIES=08000002' --address 0x08000000 --report known.csv new.dfu
expect 'the place' grep -q ',9,"different","[^"]* (at 08000002 is ff, and 6e in the file)",' known.csv
row 3 - '' '' --report known.csv nowhere.dfu
expect 'the file' grep -q ",3,\"file\",\"[^\"]* (nowhere.dfu can't be read: No such file or directory)\",\"nowhere.dfu\",," known.csv
row 1 - 'BadCrc: ' '' --report known.csv damaged.dfu
expect 'both sums' grep -q ',1,"BadCrc","[^"]* (it says the check sum [0-9a-f]*, and its bytes have [0-9a-f]*)","damaged.dfu",,' known.csv

# What is no report stays as it is, and nothing is sent.
printf 'mine\n' > mine.csv
cp mine.csv mine.json
ln -s report.csv link.csv
ln -s nothing dangling.csv
mkdir folder.csv
mkfifo pipe.json
for name in mine.csv mine.json link.csv dangling.csv folder.csv pipe.json /dev/null /dev/full nowhere/report.csv new.dfu; do
    row 3 - '' '' --report "$name" new.dfu
    says "dfu-flash: $name can't be the report: "
    expect "--report $name: nothing is sent" is_silent
done
expect 'mine' test "$(cat mine.csv mine.json | tr '\n' ' ')" = 'mine mine '
expect 'no file behind a link' test ! -e nothing
row 3 - '' '' --report report.json.csv --ports nowhere new.dfu
for words in '--report= new.dfu' '--ports= new.dfu' '--list --report r' '--dry-run --report r new.dfu' '--count 2 new.dfu' \
    '--count 0 --all new.dfu' '--count x --all new.dfu' '--retry 0 new.dfu' '--retry 101 new.dfu' '--retry -1 new.dfu' '--retry 2 --list' \
    '--retry 2 --upload never' '--retry 1 --detach' '--demo --report r'; do
    # shellcheck disable=SC2086
    row 2 - '' '' $words
done
expect 'no report' test ! -e r

# Names for ports.
printf '# the bench\n\n 1-1 = bay 7 \r\n1-2=left\n' > ports
row 0 new '{"status":0,' '' --json --ports ports new.dfu
expect 'a record has it' grep -q '"port":"bay 7",' out
row 0 new 'verified: ' '' --ports ports --report ports.csv new.dfu
expect 'so has the report' grep -q ',"1-1","bay 7",' ports.csv
row 0 - 'bay 7: 1209:0001 path 1-1 serial F1 ' '' --list --ports ports
row 0 - '{"vendor":"1209",' '' --list --json --ports ports
expect 'a list has it' grep -q ',"path":"1-1","port":"bay 7","serial":"F1",' out
row 3 - '' '' --list --ports nowhere
row 3 - '' '' --port 3-1.4 new.dfu
says 'next: did you mean --path 3-1.4?'
for line in '1-1' 'bay 7 = 1-1' '1 = bus' '1-1 =' '= x' '1-1 = a|1-1 = b' '1-1 = a|1-2 = a' '1-x = a' "$(head -c 80 /dev/zero | tr '\0' 1)-1 = a"; do
    printf '%s\n' "$line" | tr '|' '\n' > wrong-ports
    row 3 - '' '' --ports wrong-ports new.dfu
    says 'wrong-ports, line '
    expect "$line: nothing is sent" is_silent
done

# A board that left and is back later is tried again; one that stays away is given up, with one record.
fate='leave 5'
row 10 - 'gone: ' 'USB_AWAY=220' new.dfu
row 0 new 'verified: ' 'USB_AWAY=220' --retry 2 --report retry.csv new.dfu
says 'dfu-flash: gone: the device left and did not come back; it may have the old image, the new one or neither; it is tried again, 1 of 2'
expect 'one record' test "$(wc -l < retry.csv)-$(wc -l < out)" = 2-1
expect 'the report has the tries' grep -q ',[0-9.]*,2$' retry.csv
# What a board has is said of all its tries: in the second one no block is sent.
fate='deaf 20'
row 10 - '{"status":10,"report":"silent","words":"the device answers no more; it may have the old image' '' --json --retry 2 new.dfu
expect 'a record has the tries' grep -q '"tries":3,' out
fate=
row 1 old 'WrongTarget: ' USB_START=app --retry 3 --device 1209:0001 other.dfu
expect 'what is refused is not tried again' test "$(grep -c 'tried again' err)" -eq 0

# Several boards, with a report in which no two lines mix, and an end after so many.
[ -n "${NO_ALL-}" ] || . "$top/tests/lib/usb/station_all.sh"
