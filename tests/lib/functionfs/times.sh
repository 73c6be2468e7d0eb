# Times of --erase and --program as bwPollTimeout has them: of each block, and of the image. Worked out by hand: --busy, or --manifest for
# the image; --erase for each sector of 4,096 bytes that begins in the block, one more for the first block, because the gate may be open,
# and two for the image; --program in proportion to the bytes, of which the first block has 256 more, and the image 512. Without --tries a
# medium has no sectors.
# shellcheck shell=sh disable=SC2154

# low_first NUMBER: it as three bytes in hex, as bwPollTimeout has it.
low_first() {
    printf '%02x%02x%02x' $(($1 % 256)) $(($1 / 256 % 256)) $(($1 / 65536))
}
# takes WHAT OPTIONS IMAGE BYTES:TIME..: a download of blocks of so many bytes, each of which takes so many ms, and the image IMAGE ms.
takes() {
    what=$1 options=$2 of_image=$3 number=0 sum=$3
    shift 3
    case $options in *--tries*) named='application is named 1.0.0 / upgrade is named 1.0.0 / ' ;; *) named= ;; esac
    echo "setup a105000000000100 => ${named}upgrade joins / a105 02" > steps
    for block in "$@"; do
        bytes=${block%:*} ms=${block#*:} sum=$((sum + ${block#*:}))
        printf 'setup 2101%02x000000%02x%02x x%d => 2101 ok\n' "$number" $((bytes % 256)) $((bytes / 256)) "$bytes" >> steps
        printf 'setup a103000000000600 => a103 00%s0400\nwait %d =>\n' "$(low_first "$ms")" "$ms" >> steps
        echo 'setup a103000000000600 => a103 000000000500' >> steps
        number=$((number + 1))
    done
    printf 'setup 2101%02x0000000000 => 2101 ok\nsetup a103000000000600 => a103 00%s0700\n' "$number" "$(low_first "$of_image")" >> steps
    printf 'wait %d =>\nsetup a103000000000600 => a103 000000000200\n' "$of_image" >> steps
    row "$what" "--dfu-mode $options" < steps
    # What the host is told to wait is what the device waited for.
    equal "$what: the sum" "$sum" "$(sed -n 's/^time: \([0-9]*\) ms.*/\1/p' err | awk '{ sum += $1 } END { print sum }')"
}
fresh
takes 'blocks of 256 bytes' '--transfer-size 256 --busy 1 --manifest 20 --program 4' 28 256:9 256:5 26:2
fresh
takes 'no time but the busy one' '--transfer-size 256 --busy 1 --manifest 20' 20 256:1 256:1 26:1
fresh
takes 'no sectors' '--transfer-size 4096 --busy 1 --manifest 20 --erase 40 --program 4' 28 4096:69 26:2
rm -f medium
./gadget format medium --most 5000 --tries 3 old
takes 'sectors' '--tries 3 --transfer-size 4096 --busy 1 --manifest 20 --erase 40 --program 4' 108 4096:149 26:42
rm -f medium
./gadget format medium --most 5000 --tries 3 old
takes 'short blocks in sectors' '--tries 3 --transfer-size 2048 --busy 1 --manifest 20 --erase 40 --program 4' 108 2048:117 2048:33 26:42
fresh
printf 'program 4\nerase 40\nbusy 1\nmanifest 20\n' > config
takes 'the file of --config' '--config config --transfer-size 256' 28 256:9 26:2
