# Writes that fail, and a power that goes within one.
# shellcheck shell=sh disable=SC2034,SC2154

# A write that fails, and one that isn't on the disk: the host is told errWRITE, the old image stands, and a download after it succeeds.
for failure in GADGET_FAILS_WRITE=1 GADGET_FAILS_SYNC=1; do
    fresh
    export "${failure?}"
    row "$failure" "$timed" << END
setup 2101000000001a00 $(hex new) => upgrade joins / 2101 ok
setup a103000000000600 => a103 001400000400
wait 20 =>
setup a103000000000600 => a103 030000000a00
setup 2104000000000000 => 2104 ok
$download
END
    unset "${failure%%=*}"
    is "$failure is said" grep -q '^dfu-gadget: medium was not written: Input/output error$' err
    holds "$failure, and once more" new
done
# Each write of a download in turn: the host is told of an error, and one of the two images stands, whole.
for failure in GADGET_FAILS_WRITE GADGET_FAILS_SYNC; do
    number=0
    while :; do
        number=$((number + 1))
        fresh
        export "$failure=$number"
        printf '%s\n' "$download" > rows
        play "$timed" < rows
        unset "$failure"
        grep -q 'was not written' err || break
        equal "$failure=$number: the status" 0 "$code"
        is "$failure=$number: the host is told" grep -q '^a103 0[1-9a-f]0000000a00$' said
        ./gadget image medium > saved || : > saved
        is "$failure=$number: an image stands" eval 'cmp -s saved old || cmp -s saved new'
    done
    is "$failure: some were tried" test "$number" -gt 1
done

# A write that isn't on the disk stands in the kernel's memory all the same. The image that the disk has is the active one; and where the
# power goes within a download after it, too.
printf 'one more of 26 bytes .....' > third
fresh
export GADGET_FAILS_SYNC=3
stale="setup a105000000000100 => upgrade joins / a105 02
$(printf '%s\n' "$download" | sed '$d')
setup a103000000000600 => a103 060000000a00
setup 2104000000000000 => 2104 ok
setup a102000000002000 => a102 $(hex old)"
row 'the last write is not on the disk' "$timed" << END
$stale
END
is 'the last write is not on the disk: no image is in place' test "$(grep -c '^installed' err)" -eq 0
export GADGET_KEEPS=1
printf '%s\n' "$stale" > rows
play "$timed" < rows
equal 'the kernel keeps it: the status' 5 "$code"
unset GADGET_KEEPS
wrong_program medium.c 's/POSIX_FADV_DONTNEED/POSIX_FADV_NORMAL/; s/ && !is_kept(medium, .*/ \&\& (true || is_kept(medium, at, length));/' \
    'it reads what the disk has not' "$stale" "$timed"
for failing in 1 2 3; do
    number=$failing
    while :; do
        number=$((number + 1))
        fresh
        export "GADGET_FAILS_SYNC=$failing" "GADGET_CUT=$number"
        { printf '%s\nsetup 2104000000000000\n' "$download"; printf '%s\n' "$download" | sed "s/$(hex new)/$(hex third)/"; } > rows
        play "$timed" < rows
        unset GADGET_FAILS_SYNC GADGET_CUT
        [ "$code" -eq 96 ] || break
        ./gadget image medium > saved || : > saved
        is "write $failing fails, a cut within write $number: an image stands" eval 'cmp -s saved old || cmp -s saved third'
    done
    holds "write $failing fails, and once more" third
    is "write $failing fails: some cuts were tried" test "$number" -gt $((failing + 1))
done

# The power goes within each write of a download in turn: one of the two images stands, whole, and the next download succeeds.
number=0
while :; do
    number=$((number + 1))
    fresh
    export "GADGET_CUT=$number"
    printf '%s\n' "$download" > rows
    play "$timed" < rows
    unset GADGET_CUT
    [ "$code" -eq 96 ] || break
    ./gadget image medium > saved || : > saved
    is "a cut within write $number: an image stands" eval 'cmp -s saved old || cmp -s saved new'
    play "$timed" < rows
    holds "a cut within write $number, and once more" new
done
is 'some cuts were tried' test "$number" -gt 1
