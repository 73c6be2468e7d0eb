# Each write of a start, a confirmation, an end, and a download while an image is on trial, that fails, isn't on the disk, or is cut.
# shellcheck shell=sh disable=SC2034,SC2154

# The power goes within each write.
# cut WHAT WORDS..: within the first write of it.
cut() {
    what=$1 code=0
    shift
    GADGET_CUT=1 ./gadget "$@" --tries 3 > out 2> err || code=$?
    equal "$what: it is cut" 96 "$code"
}
on_trial
cut 'a cut within a mark' start medium
starts 'a cut within a mark' "$new_runs" "$new_runs" "$old_runs"
on_trial
starts 'before the last' "$new_runs" "$new_runs" "$new_runs"
cut 'a cut at the end of the trial' start medium
holds 'a cut at the end of the trial' old
starts 'a cut at the end of the trial' "$old_runs"
on_trial
cut 'a cut within a confirmation' confirm medium 24576
cp medium before
starts 'a cut within a confirmation' "$new_runs" "$new_runs" "$new_runs" "$new_runs"
is 'a cut within a confirmation: it counts' cmp -s medium before
on_trial
cut 'a cut within an end' end medium
holds 'a cut within an end' old

# And within each write of a download meanwhile: the confirmed image is whole, and what starts is it or the one that was offered.
number=0
while :; do
    number=$((number + 1))
    on_trial
    export "GADGET_CUT=$number"
    printf '%s\n' "$anew" > rows
    play "$timed --tries 3" < rows
    unset GADGET_CUT
    [ "$code" -eq 96 ] || break
    line=$(./gadget start medium --tries 3)
    tail -c +$((${line% *} + 1)) medium | head -c "${line#* }" > started
    is "a cut within write $number on trial: what starts" eval 'cmp -s started old || cmp -s started third'
    ./gadget end medium --tries 3
    holds "a cut within write $number on trial: the confirmed image" old
    play "$timed --tries 3" < rows
    holds "a cut within write $number on trial, and once more" third
done
is 'some cuts were tried' test "$number" -gt 4

# Each write that fails, or isn't on the disk, also if Linux keeps it in its memory: it is told, and counts for nothing.
for failure in GADGET_FAILS_WRITE=1 GADGET_FAILS_SYNC=1 'GADGET_FAILS_SYNC=1 GADGET_KEEPS=1'; do
    # fails STATUS WORDS..
    fails() {
        wanted_status=$1 code=0
        shift
        # shellcheck disable=SC2086
        env $failure ./gadget "$@" --tries 3 > out 2> err || code=$?
        equal "$failure: $1" "$wanted_status" "$code"
        is "$failure: $1: it is told" grep -q '^dfu-gadget: medium was not written: Input/output error$' err
    }
    on_trial
    fails 0 start medium
    equal "$failure: the one before starts" "$old_runs" "$(cat out)"
    fails 3 confirm medium 24576
    fails 3 end medium
    holds "$failure: the trial goes on" new
    starts "$failure: no start is lost" "$new_runs" "$new_runs" "$new_runs"
    fails 0 start medium
    equal "$failure: it is spent all the same" "$old_runs" "$(cat out)"
    starts "$failure: it is spent" "$old_runs"
    holds "$failure: it is spent" old
done
on_trial
export GADGET_FAILS_WRITE=1
row 'a trial that can not be ended' "$timed --tries 3" << END
setup a105000000000100 => $next_named / upgrade joins / a105 02
setup 2101000000001a00 $(hex third) => 2101 stall
setup a102000000002000 => a102 $(hex new)
setup 2106000000000000 => 2106 ok
$anew
END
unset GADGET_FAILS_WRITE
holds 'a trial that can not be ended, and once more' third

# A wrong program: one that ends no trial loses the confirmed image.
rm -rf source
cp -R "$top/apps/gadget" source
sed -i 's/if (machine->tries != 0 && !make_room/if (machine->tries == 1 \&\& !make_room/' source/machine.c
is 'a wrong machine.c: it differs' test -n "$(diff "$top/apps/gadget/machine.c" source/machine.c)"
rm -rf common
cp -R "$top/apps/common" common
compile wrong source/*.c
on_trial
printf '%s\n' "$anew" > rows
program=./wrong play "$timed --tries 3" < rows
program=./gadget
./gadget end medium --tries 3 2> err || :
./gadget image medium > saved 2> err || :
is 'it ends no trial' eval '! cmp -s saved old'
