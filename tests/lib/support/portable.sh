# What tests/c/generated and tests/slow/portable-c share: the C of dist/, or of the folder C, compiled with any compiler, under the
# programs of tests/lib/c and examples/c. `top` is the folder of the repository, and counting.sh has been read.
# shellcheck shell=sh disable=SC2154
c=${C:-$top/dist}

# objects FOLDER WORD..: the two files, compiled with these words, in FOLDER.
objects() {
    folder=$1
    shift
    mkdir -p "$folder"
    for name in device host; do
        "$@" -std=c11 -I "$top/include" -c "$c/dfu_$name.c" -o "$folder/dfu_$name.o" || return 1
    done
}
# program NAME FOLDER SOURCE WORD..: a program over these objects, $work/NAME. (A program of the repository is compiled for results, not for
# warnings, which its own script looks for.)
program() {
    made=$work/$1
    over=$2
    source=$3
    shift 3
    "$@" -std=c11 -w -I "$top/include" "$source" "$over/dfu_device.o" "$over/dfu_host.o" -o "$made" -lpthread
}
# runs NAME WORD..: it runs, under `run` if that is set, and ends well. (A compiler for Windows names it NAME.exe, and wine has messages of
# its own on standard error.)
runs() {
    it=$work/$1
    [ ! -e "$it.exe" ] || it=$it.exe
    shift
    # shellcheck disable=SC2086
    ${run-} "$it" "$@" > "$work/printed" 2> "$work/complained" || {
        tail -n 5 "$work/printed" "$work/complained"
        return 1
    }
}
# prints FILE NAME WORD..: it prints what the file has. (Windows ends a line in two signs.)
prints() {
    wanted=$1
    shift
    runs "$@" || return 1
    tr -d '\r' < "$work/printed" | cmp - "$wanted" && return 0
    head -n 3 "$work/printed" "$work/complained"
    return 1
}
# suite WHAT FOLDER CALLS WORD..: the programs of tests/lib/c and examples/c, compiled with these words over the objects in FOLDER. CALLS is
# how many calls of chance each of them makes at most. The program that takes minutes, cuts, is left out if `is_short` is 1.
suite() {
    label=$1
    objects=$2
    times=$3
    shift 3
    for name in rows operations questions lent time power sessions format cuts; do
        [ "$name" != cuts ] || [ "${is_short-0}" -eq 0 ] || continue
        is "$label: $name is built" program "$name" "$objects" "$top/tests/lib/c/$name.c" "$@"
        is "$label: $name" runs "$name"
    done
    for name in garbled garbled_flash garbled_sessions twins runtime counts edges; do
        is "$label: $name is built" program "$name" "$objects" "$top/tests/lib/c/$name.c" "$@"
    done
    is "$label: garbled" runs garbled "$times"
    is "$label: garbled flash" runs garbled_flash "$times"
    is "$label: garbled sessions" runs garbled_sessions "$times"
    is "$label: twins" runs twins $((times / 10))
    is "$label: runtime" runs runtime "$times"
    is "$label: counts" runs counts $((times / 1000))
    is "$label: edges" runs edges
    for name in bootloader nor_bootloader early_stack application; do
        is "$label: $name is built" program "$name" "$objects" "$top/examples/c/$name.c" "$@"
        is "$label: $name" prints "$top/examples/c/$name.out" "$name"
    done
    is "$label: flasher is built" program flasher "$objects" "$top/examples/c/flasher.c" "$@"
    printf '\377\377\377\377\377\377\377\377\377\377\000\001UFD\020\161\310\121\014' > "$work/ones.dfu"
    is "$label: flasher" prints "$top/examples/c/flasher.out" flasher "${ones:-$work/ones.dfu}"
}
# digests WHAT FOLDER CALLS REFERENCE SEED.. -- WORD..: the digests of so many calls for each seed are those in the folder REFERENCE, of the
# device over memory in digest.SEED and over flash in flash.SEED, of sessions of the host in digest_sessions.SEED, of its calls in
# digest_host.
digests() {
    label=$1
    objects=$2
    calls=$3
    reference=$4
    shift 4
    seeds=
    while [ "$1" != -- ]; do
        seeds="$seeds $1"
        shift
    done
    shift
    for name in digest digest_host digest_sessions; do
        is "$label: $name is built" program "$name" "$objects" "$top/tests/lib/bare/$name.c" "$@"
    done
    is "$label: garbled_flash is built" program garbled_flash "$objects" "$top/tests/lib/c/garbled_flash.c" "$@"
    for seed in $seeds; do
        is "$label: digest of seed $seed" prints "$reference/digest.$seed" digest "$calls" "$seed" 1
        is "$label: sessions of seed $seed" prints "$reference/digest_sessions.$seed" digest_sessions 5000 "$seed"
        is "$label: flash of seed $seed" prints "$reference/flash.$seed" garbled_flash "$calls" "$seed"
    done
    is "$label: digest of the host" prints "$reference/digest_host" digest_host "$calls" 1
}
