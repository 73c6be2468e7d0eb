# What the parts share that run in the machine: the board is started and ended, and rows are counted (common.sh of ../functionfs).
# shellcheck shell=sh disable=SC2034,SC2154
# shellcheck source=tests/slow/functionfs/common.sh
. ./common.sh
program=./board
medium=flash # a file in memory: a disk's waits would count in the machine's time

# start SETTINGS: the board, with these variables, until it is on the bus.
start() {
    rm -f log
    # shellcheck disable=SC2086
    env LOG=log $1 "$program" "$medium" 2> err &
    device=$!
    is_there
}
end() {
    kill "$device" 2> /dev/null
    wait "$device" 2> /dev/null
    cat err
}
# stop: the board, and which image stands then: one, two, three, or neither, in `image`.
stop() {
    end
    ./board "$medium" image > saved
    image=neither
    for name in one two three; do
        if cmp -s saved "$name"; then image=$name; fi
    done
}
format() {
    ./board "$medium" format "$1"
}
# row WHAT WANTED FOUND
row() {
    if [ "$2" = "$3" ]; then
        passed=$((passed + 1))
        echo "row $1: $3"
    else
        failed=$((failed + 1))
        echo "row WRONG $1: $3, not $2"
        tail -n 25 log | sed 's/^/    /'
    fi
}
# asked ANSWER SETUP [BODY]: one request.
asked() {
    answer=$1
    shift
    row "$*" "$answer" "$(./transfer 1-1 "$@" 2>&1)"
}
# told TEXT: how many lines of the log have it.
told() {
    grep -c "$1" log
}
