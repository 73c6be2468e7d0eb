# What tests/slow/mboot and tests/slow/dfuse share: the memory of an STM32F405, 1 MiB from 08000000h on, with `old` as it was before.
# shellcheck shell=sh disable=SC2034,SC2154
f4='@Internal Flash  /0x08000000/04*016Kg,01*064Kg,07*128Kg'

# page_of ADDRESS-WITHIN: in $from and $to where the page begins and ends, by the map of an STM32F405.
page_of() {
    if [ "$1" -lt 65536 ]; then page=16384; elif [ "$1" -lt 131072 ]; then page=65536; else page=131072; fi
    from=$(($1 / page * page))
    to=$((from + page))
}
# there ADDRESS-WITHIN=FILE..: in `expected` the memory with these files, where each of their pages is erased.
there() {
    cp old expected
    for element in "$@"; do
        at=$((${element%%=*}))
        end=$((at + $(wc -c < "${element#*=}")))
        while [ "$at" -lt "$end" ]; do
            page_of "$at"
            head -c $((to - from)) /dev/zero | tr '\0' '\377' | dd of=expected bs=16384 seek=$((from / 16384)) conv=notrunc status=none
            at=$to
        done
    done
    for element in "$@"; do
        dd if="${element#*=}" of=expected bs=4 seek=$((${element%%=*} / 4)) conv=notrunc status=none
    done
}
