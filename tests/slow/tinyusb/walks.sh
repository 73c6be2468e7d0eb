# Random requests, in DFU mode and through resets, some of them given up: `dfu judge` follows all of them.
# shellcheck shell=sh
# shellcheck source=tests/slow/tinyusb/board.sh
. ./board.sh

# walks SETTINGS COUNT ABORTS SEED..
walks() {
    settings=$1 count=$2 aborts=$3
    shift 3
    for seed in "$@"; do
        format one
        start "$settings"
        ./walk 1-1 "$seed" "$count" 64 "$aborts" > walked
        code=$?
        end
        said=$(./dfu judge walked | tail -n 1)
        row "$settings, seed $seed, $aborts" '0 kept' "$code ${said%% *}"
        echo "    $said; $(told TOLD) resets told, $(grep -c nothing walked) given up, $(grep -c stall walked) stalls;" \
            "late stalls $(told 'TOO LATE'), never $(told NEVER), refused $(told REFUSED)"
        [ "${said%% *}" = kept ] || ./dfu judge walked | head -n 5 | sed 's/^/    /'
    done
}
walks 'DFU_MODE=1 TRANSFER=64 ATTRIBUTES=07 ERASE_MS=4' 500 0 1 2 3
walks 'DFU_MODE=1 TRANSFER=64 ATTRIBUTES=07 ERASE_MS=4 BUSY=0' 500 0 11 12
walks 'DFU_MODE=1 TRANSFER=64 ATTRIBUTES=03 ERASE_MS=4' 500 0 21 22
walks 'DFU_MODE=1 TRANSFER=64 ATTRIBUTES=05 ERASE_MS=4' 500 0 31 32
# Given up, and reset. Then a session.
walks 'DFU_MODE=1 TRANSFER=64 ATTRIBUTES=07 ERASE_MS=4' 300 15 41 42 43 44
walks 'DFU_MODE=1 TRANSFER=64 ATTRIBUTES=03 ERASE_MS=4' 300 15 51 52
start 'ATTRIBUTES=0f'
./dfu-flash --quiet two.dfu > out 2> errors
code=$?
is_back
stop
row 'a session after them' '0 two' "$code $image"
finish
