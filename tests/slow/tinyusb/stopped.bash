# The machine of the part `stops` is stopped again and again, and what its disk has is looked at; then it is killed, and started again.
# Of STOPS (84) looks and KILLS (10) kills each finds the one image or the other, whole.
# shellcheck shell=bash disable=SC2154
one=0 two=0 torn=0 within=0
flash_size=147456 # FLASH_SIZE of board.h

# look FILE: which image a disk has; and whether a download was under way, in which a gate is closed.
look() {
    "$work/plain/board" "$1" image > "$work/image" 2> "$work/errors" || :
    if cmp -s "$work/image" "$work/images/one"; then one=$((one + 1))
    elif cmp -s "$work/image" "$work/images/two"; then two=$((two + 1))
    else torn=$((torn + 1)); fi
    for place in 0 $((flash_size / 2)); do
        [ "$(od -An -tx1 -j "$place" -N 1 "$1")" = ' a5' ] || { within=$((within + 1)); break; }
    done
}
# The machine runs in the background; its process is that of `timeout`, whose child is QEMU.
begin() {
    : > "$work/said"
    (machine stops) &
    running=$!
    until grep -q '^begins' "$work/said"; do
        kill -0 "$running" 2> /dev/null || break
        sleep 1
    done
    emulator=$(pgrep -P "$running") || emulator=$running
}
# stops COUNT: so many looks at moments of chance, and a kill.
stops() {
    begin
    for ((looked = 0; looked < $1; looked++)); do
        run_on
        kill -STOP "$emulator" 2> /dev/null || break
        cp "$work/disk" "$work/copy"
        kill -CONT "$emulator"
        look "$work/copy"
        stopped=$((stopped + 1))
    done
    kill -9 "$emulator" 2> /dev/null || :
    wait "$running" 2> /dev/null || :
    look "$work/disk"
}
part_stops() {
    local stopped=0 kills=${KILLS:-10} each=$((${STOPS:-84} / ${KILLS:-10} + 1)) left
    [ -f "$work/x86-64.cpio" ] || make_machine
    head -c 4096 /dev/zero > "$work/log"
    for ((killed = 0; killed < kills; killed++)); do
        left=$((${STOPS:-84} - stopped))
        rm -f "$work/disk"
        "$work/plain/board" "$work/disk" format "$work/images/one"
        truncate -s $flash_size "$work/disk"
        stops $((left < each ? left : each))
        run_machine again
    done
    echo "row $stopped stops and $kills kills: one $one, two $two, neither $torn; within a download $within"
    if [ "$torn" -eq 0 ] && [ "$one" -gt 0 ] && [ "$two" -gt 0 ] && [ "$within" -gt 0 ] && [ "$stopped" -eq "${STOPS:-84}" ]; then
        add 1 0
    else
        add 0 1
        tail -n 5 "$work/said"
    fi
}
