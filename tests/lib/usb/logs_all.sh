# Rows of tests/apps/flash: --log where there is no room for the logs. It has read rows.sh.
# shellcheck shell=sh disable=SC2034,SC2154
# shellcheck source=tests/lib/usb/all_boards.sh
. "$top/tests/lib/usb/all_boards.sh"

no_boards
board 1-1
board 1-2 USB_CAPACITY=13
mkdir full-logs
{
    (
        trap '' XFSZ
        ulimit -f 1
        code=0
        env LD_LIBRARY_PATH="$work" USB_IMAGE="$work/old" USB_BOARDS="$work/boards" \
            ./dfu-flash --all --json --log full-logs new.dfu 2> err || code=$?
        echo "$code" >&3
    ) | cat > out
} 3> status
code=$(cat status)
expect "no room for logs: $code" test "$code" -eq 6
expect 'no room for logs: the board that was flashed' grep -q '^{"status":3,"report":"verified",.*,"log_whole":false,' out
expect 'no room for logs: the one that refused' grep -q '^{"status":6,"report":"refused",.*,"log_whole":false,' out
says '1-1: dfu-flash: full-logs/1-1_1.log was not written whole: '
