# What runs in the machine: two images are downloaded in turn for as long as it runs. The computer outside stops it, and looks at the disk.
# shellcheck shell=sh disable=SC2154
# shellcheck source=tests/slow/functionfs/common.sh
. ./common.sh
./set-up 0x1209 0x0001 0x0100 F1
suffixed one two
start '--dfu-mode --transfer-size 1024 --busy 2'
echo 'begins'
turn=0
while :; do
    for name in one two; do
        is_back
        ./dfu-flash --no-verify $name.dfu > out 2> err || echo "    $turn $name: $(tail -n 1 out) $(tail -n 1 err)"
        turn=$((turn + 1))
    done
    echo "downloads $turn"
done
