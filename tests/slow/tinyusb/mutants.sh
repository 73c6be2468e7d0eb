# Drivers that break one of the rules, each with what has to fail then.
# shellcheck shell=sh disable=SC2154
# shellcheck source=tests/slow/tinyusb/board.sh
. ./board.sh

# fails WHAT COMMAND..: the command is to end with another status than 0.
fails() {
    what=$1
    shift
    if "$@" > out 2> errors; then row "$what: $*" 'a failure' 'a success'; else
        passed=$((passed + 1))
        echo "row $what: $*: $(tail -n 1 errors | cut -c1-120)"
    fi
}
program=./board-all-resets
format one
start 'ATTRIBUTES=07'
fails 'all resets are told' timeout 60 ./dfu-flash --quiet two.dfu
is_there
end
start 'ATTRIBUTES=07'
fails 'all resets are told' timeout 60 dfu-util -D two.dfu
end

program=./board-no-hook
start 'DFU_MODE=1 TRANSFER=64'
asked ok 2101000000004000 x64
asked ok 0009000000000000
asked ok 0009010000000000
row 'a SET_CONFIGURATION is told as a reset' 00 "$(./transfer 1-1 a105000000000100)"
end

program=./board-foreign
start 'DFU_MODE=1 TRANSFER=64'
asked ok 2101000000004000 x64
row 'SET_INTERFACE is not left to TinyUSB' 'Connection timed out' "$(./transfer 1-1 alt 0)"
end

program=./board-not-asked
start 'DFU_MODE=1 TRANSFER=64'
asked stall 2107000000000000
row 'would_stall is not asked: a block in dfuERROR is acknowledged' ok "$(./transfer 1-1 2101000000004000 x64)"
row 'the stall comes too late' 1 "$(told 'TOO LATE')"
end

program=./board-not-turned
start 'DFU_MODE=1 TRANSFER=64'
row 'a GETSTATUS of wLength 0 is not turned round' 'Connection timed out' "$(./transfer 1-1 a103000000000000)"
row 'TinyUSB waits for ever' 1 "$(told NEVER)"
end
finish
