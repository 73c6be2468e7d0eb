# What tests/apps/dfuse and tests/slow/dfuse share: dfu-flash over the stand-in's device of DfuSe, and what its memory has to be behind a
# session. They are in a folder of their own, $work, with dfu-flash, the stand-in and the old memory `old`, 16 pages of 1,024 bytes from
# 08000000h on. They have read tests/lib/support/counting.sh.
# shellcheck shell=sh disable=SC2154
pages='@Internal Flash  /0x08000000/16*001Kg'

# write_here ADDRESS-WITHIN BYTES: `image`, and in `expected` the memory with it, where its pages are erased. No text begins so.
write_here() {
    at=$1 bytes=$2
    from=$((at / 1024 * 1024)) to=$(((at + bytes + 1023) / 1024 * 1024))
    { printf '\1'; head -c $((bytes - 1)) /dev/urandom; } > image
    {
        head -c "$from" old
        head -c $((at - from)) /dev/zero | tr '\0' '\377'
        cat image
        head -c $((to - at - bytes)) /dev/zero | tr '\0' '\377'
        tail -c +$((to + 1)) old
    } > expected
    address=$(printf '0x%08x' $((0x08000000 + at)))
    flashed="--address $address image"
}
# elements_here ADDRESS-WITHIN=FILE..: `some.dfu`, a DfuSe file with these elements for setting 0, and in `expected` the memory with them,
# where each of their pages is erased.
elements_here() {
    cp old expected
    packed=
    for element in "$@"; do
        at=$((${element%%=*})) bytes=$(wc -c < "${element#*=}")
        first=$((at / 1024)) past=$(((at + bytes + 1023) / 1024))
        head -c $(((past - first) * 1024)) /dev/zero | tr '\0' '\377' | dd of=expected bs=1024 seek="$first" conv=notrunc status=none
        packed="$packed 0:$(printf '%08x' $((0x08000000 + at)))=${element#*=}"
    done
    for element in "$@"; do
        dd if="${element#*=}" of=expected bs=1 seek=$((${element%%=*})) conv=notrunc status=none
    done
    # shellcheck disable=SC2086
    ./dfuse_pack $packed > some.dfu
    flashed=some.dfu
}
# dfuse SETTINGS WORDS..: runs dfu-flash over the device. Its status is in $code, its texts in out and err, what was sent in log, and the
# memory in saved.
dfuse() {
    settings=$1
    shift
    code=0
    rm -f saved log
    # shellcheck disable=SC2086
    env LD_LIBRARY_PATH="$work" USB_DEVICE=dfuse USB_MAPS="$maps" USB_IMAGE="$work/old" USB_SAVE="$work/saved" USB_LOG="$work/log" \
        USB_FATE="$fate" $settings timeout -k 5 120 ./dfu-flash "$@" > out 2> err || code=$?
}
fate=
maps=$pages

# dfuse_row STATUS MEMORY TEXT SETTINGS WORDS..: the status, the memory (old, expected, or - for any), and how the last line of standard
# output begins.
dfuse_row() {
    wanted=$1 memory=$2 begins=$3
    shift 3
    dfuse "$@"
    if [ "$code" -ne "$wanted" ]; then
        wrong "$*: wanted $wanted, found $code: $(cat out err)"
    elif [ "$memory" != - ] && ! cmp -s saved "$memory"; then
        wrong "$*: the memory isn't the $memory one"
    else
        case $(tail -n 1 out) in
        "$begins"*) right ;;
        *) wrong "$*: wanted '$begins', found: $(cat out)" ;;
        esac
    fi
}
# dfuse_silent WHAT: nothing was sent in the last run.
dfuse_silent() {
    if [ ! -e log ] || [ "$(grep -c -v -e '^end' -e '^setting' log)" -eq 0 ]; then right; else wrong "$1: something was sent"; fi
}
# No page but the image's may change, whatever comes of a session.
outside_is_old() {
    head -c "$from" saved > front && head -c "$from" old | cmp -s - front \
        && tail -c +$((to + 1)) saved > back && tail -c +$((to + 1)) old | cmp -s - back
}
# dfuse_fates SETTINGS FATE..: a session in which all goes well, and then each fate at each transfer. Each of them succeeds, and then the
# image is there and no other page has changed.
dfuse_fates() {
    with=$1
    shift
    fate=
    # shellcheck disable=SC2086
    dfuse "$with" --quiet $flashed
    if [ "$code" -ne 0 ] || ! cmp -s saved expected; then wrong "$with: $code, $(cat out err)"; fi
    transfers=$(grep -c '^[0-9]' log)
    number=0
    while [ "$number" -lt "$transfers" ]; do
        for kind in "$@"; do
            # shellcheck disable=SC2059
            fate=$(printf "$kind" "$number")
            # shellcheck disable=SC2086
            dfuse "$with" --quiet $flashed
            if [ "$code" -ne 0 ]; then
                wrong "$with, $fate: $code, $(cat out err)"
            elif ! cmp -s saved expected; then
                wrong "$with, $fate: $(cat out), and the memory isn't right"
            else
                right
            fi
        done
        number=$((number + 1))
    done
    fate=
}
# dfuse_fails SETTINGS CODE: each command of a session fails with this code, in turn. None succeeds.
dfuse_fails() {
    number=0
    # shellcheck disable=SC2086
    dfuse "$1" --quiet $flashed
    commands=$(grep -c ' DNLOAD .* ok' log)
    while [ "$number" -lt $((commands - 1)) ]; do
        # shellcheck disable=SC2086
        dfuse "$1 USB_FAILS=$number USB_CODE=$2" --quiet $flashed
        if [ "$code" -ne 6 ]; then
            wrong "$1, command $number fails with code $2: $code, $(cat out err)"
        elif ! outside_is_old; then
            wrong "$1, command $number fails: another page has changed"
        else
            right
        fi
        number=$((number + 1))
    done
}
