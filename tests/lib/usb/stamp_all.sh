# Rows of tests/apps/flash: --stamp with several boards: an entry goes to one of them, whatever fails. It has read stamp.sh and
# all_boards.sh.
# shellcheck shell=sh disable=SC2034,SC2154,SC2086

# entry_of PATH: what the board at this path has in the room of its image.
entry_of() {
    tail -c +17 "saved-$1" 2> /dev/null | head -c 8 | tr -d '\0'
}
sixteen() {
    no_boards
    for port in 1 2 3 4 5 6 7 8 9 10 11 12 13 14 15 16; do
        case $port in
        5) board 1-5 USB_SERIAL=F5 USB_CAPACITY=20 ;;
        9) board 1-9 USB_SERIAL=F9 'USB_FATE=deaf 20' ;;
        12) board 1-12 USB_SERIAL=F12 USB_DENIED=3 ;;
        14) board 1-14 USB_SERIAL=F14 'USB_FATE=kill 20' ;;
        *) board "1-$port" "USB_SERIAL=F$port" "$@" ;;
        esac
    done
}
sixteen
seq 1001 1020 > serials
rm -f serials.used
all --json --report stamp-all.csv $at 16:8 room.dfu
expect "the highest status: $code" test "$code" -eq 14
for port in 1 2 3 4 6 7 8 10 11 13 15 16; do
    entry=$(sed -n "s/.*\"verified\".*\"path\":\"1-$port\".*\"stamp\":\"\([0-9]*\)\".*/\1/p" out)
    expect "1-$port has the entry of its record: $entry" test "$entry" = "$(entry_of "1-$port")"
    expect "1-$port: so has its report" grep -q ",0,\"verified\",.*\"F$port\",\"1-$port\",,[0-9.]*,1,\"$entry\"\$" stamp-all.csv
done
expect 'fifteen took one, each another' test "$(grep -c begun serials.used)-$(grep begun serials.used | cut -f 2 | sort -u | wc -l)" = 15-15
expect 'each of these ended' test "$(grep -vc begun serials.used)" -eq 15
expect 'one that was killed has its end' grep -q '	1-14	broken$' serials.used
expect 'one that was not opened took none' test "$(grep -c '	1-12	' serials.used)" -eq 0
expect 'one that was killed has its entry in the report' grep -q ',14,"broken",.*"1-14",,[0-9.]*,1,"10[0-9]*"$' stamp-all.csv
expect 'those that are left' \
    grep -q '"report":"summary","words":"12 flashed, 4 not[^"]*","flashed":12,"failed":4,"unconfirmed":[0-9]*,"entries":5,' out
expect 'it is named' grep -q '^1-9: dfu-flash: 10[0-9]* is used: this board may have it, and no other gets it$' err
# The same boards once more: five entries are left, for eleven that are refused.
sixteen
all $at 16:8 room.dfu
expect 'boards without an entry are refused' test "$(grep -c ' NoEntry: ' out)" -ge 10
expect 'no entry went twice' test "$(grep begun serials.used | cut -f 2 | sort | uniq -d | wc -l)" -eq 0
expect 'a line has the entry' grep -q '^1-[0-9]* serial F[0-9]* stamp 10[0-9]* [0-9.]* s verified: ' out
all $at 16:8 room.dfu
expect "no entry is left: $code" test "$code-$(wc -l < serials.used)" = "1-$(grep -c . serials.used)"
# Tried again, a board that is known keeps its entry, and one without a serial number gets another; so do two with the same number.
no_boards
board 1-1 'USB_FATE=deaf 20' USB_SERIAL=
board 1-2 'USB_FATE=deaf 20' USB_SERIAL=F2
board 1-3 'USB_FATE=deaf 20' USB_SERIAL=SAME
board 1-4 USB_SERIAL=SAME
seq 1001 1020 > serials
rm -f serials.used
all --retry 2 --json --report tries.csv $at 16:8 room.dfu
begun_at() {
    grep "	$1	begun\$" serials.used | cut -f 2 | sort -u | wc -l
}
expect "entries of each: $(cat serials.used)" test "$(begun_at 1-1)-$(begun_at 1-2)-$(begun_at 1-3)-$(begun_at 1-4)" = 3-1-3-1
expect 'each entry went once' test "$(grep begun serials.used | cut -f 2 | sort | uniq -d | wc -l)" -eq 0
expect 'each ended' test "$(grep -c begun serials.used)-$(grep -c silent serials.used)-$(grep -c verified serials.used)" = 8-7-1
expect 'four records, with the tries' test "$(grep -v summary out | sed 's/.*"tries":\([0-9]*\).*/\1/' | sort | tr -d '\n')" = 1333
expect 'a line of the report for each entry' test "$(grep -c ',"10[0-9]*"$' tries.csv)" -eq 8
says '1-1: dfu-flash: what came may be another board, so it gets the next entry'
all --retry 2 $at 16:8 room.dfu
expect 'a line has the tries' grep -q '^1-2 serial F2 stamp 10[0-9]* tries 3 [0-9.]* s silent: ' out
# With --wait it ends once the list does.
no_boards
for port in 1 2 3 4 5; do
    board "1-$port" "USB_SERIAL=F$port"
done
seq 1 3 > serials
rm -f serials.used
all --wait --json $at 16:8 room.dfu
expect "an end with the list: $code" test "$code-$(grep -c '"report":"verified"' out)" = 0-3
says 'dfu-flash: serials has 0 more'
# The first process is killed, at many moments: what a board has was begun in the record, no entry went to two boards, and the others, which
# abort by themselves, say how each ended.
seq 2001 2999 > serials
: > serials.used
has_more() {
    [ "$(grep -c begun serials.used)" -gt "$before" ]
}
for ms in 010 050 100 200 301 001 051 101; do
    before=$(grep -c begun serials.used || :)
    sixteen USB_BUSY=40
    env LD_LIBRARY_PATH="$work" USB_IMAGE="$work/old" USB_BOARDS="$work/boards" \
        ./dfu-flash --all --quiet $at 16:8 room.dfu > /dev/null 2>&1 &
    # (the last ones are killed once a board has begun, however slow the machine is)
    case $ms in *1) soon has_more || wrong "no board begins" ;; esac
    sleep "0.$ms"
    kill -9 "$!" || :
    wait "$!" 2> /dev/null || :
    soon used_is_free
    for port in 1 2 3 4 6 7 8 10 11 13 15 16; do
        entry=$(entry_of "1-$port")
        case $entry in
        2*) expect "$ms ms, 1-$port: $entry was begun there" grep -q "	$entry	1-$port	begun" serials.used ;;
        esac
    done
done
expect 'no entry went to two boards' test "$(grep begun serials.used | cut -f 2 | sort | uniq -d | wc -l)" -eq 0
expect 'entries were used' test "$(grep -c begun serials.used)" -gt 4
no_boards
board 1-1 USB_SERIAL=F1
all $at 16:8 room.dfu
# The processes of those that were killed write their ends when they come to it, which is late on a busy machine.
each_ended() {
    test "$(grep begun serials.used | cut -f 2 | sort -u)" = "$(grep -v begun serials.used | cut -f 2 | sort -u)"
}
soon each_ended || :
expect 'each entry that was begun has an end' each_ended

# A log says which board it is of, and the report in JSON which log a board has.
mkdir board-logs
no_boards
board 1-1 USB_SERIAL=F1
printf '1-1 = bay 7\n' > board-ports
printf 'SN-1\nSN-2\n' > board-serials
all --ports board-ports --log board-logs --report logged.json --stamp board-serials --stamp-at 16:8 room.dfu
expect 'a log has the board' test "$(grep -c -e '^# serial F1$' -e '^# port bay 7$' -e '^# stamp SN-1$' board-logs/1-1_1.log)" -eq 3
expect 'the report has the log' grep -q '"report":"verified",.*,"log":"board-logs/1-1_1.log"}$' logged.json
expect 'the summary has none' test "$(grep -c '"log"' logged.json)" -eq 1
expect 'the judge reads it' test "$("$dfu" judge board-logs/1-1_1.log | cut -d ' ' -f 1)" = kept
