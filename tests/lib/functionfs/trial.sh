# Images on trial: a medium with marks, what start, confirm and end do and print, what a download does meanwhile, the name of the interface,
# and the example that starts images.
# shellcheck shell=sh disable=SC2034,SC2154

# on_trial: the old image is confirmed, and the new one on trial, in the other slot.
on_trial() {
    cp trial_medium medium
}
rm -f medium
./gadget format medium --most 5000 --tries 3 old
printf '%s\n' "$download" > rows
play "$timed --tries 3" < rows
equal 'the names before a download' "$(printf 'application is named 1.0.0\nupgrade is named 1.0.0')" "$(grep named said)"
cp medium trial_medium
# starts WHAT WANTED..: what start prints, time after time.
starts() {
    what=$1
    shift
    for wanted in "$@"; do
        equal "$what" "$wanted" "$(./gadget start medium --tries 3 2> err || echo "status $?")"
    done
}
old_runs='8192 13'
next='1.0.0, next on trial, 3 starts left'
next_named="application is named $next / upgrade is named $next"
new_runs='24576 26'
# set_at AT: whether a mark there has a byte that is not FFh.
set_at() {
    [ "$(tail -c +$(($1 + 1)) medium | head -c 16 | od -An -v -tx1 | tr -d ' \n')" != ffffffffffffffffffffffffffffffff ]
}

rm -f medium
./gadget format medium --most 5000 --tries 3 old
equal 'a sector for the gate and one for the header' 32768 "$(stat -c %s medium)"
holds 'the image of a medium with marks' old
cp medium before
starts 'no trial' "$old_runs" "$old_runs"
is 'no trial: the first image is confirmed already' ./gadget confirm medium 8192 --tries 3
is 'no trial: nothing to end' ./gadget end medium --tries 3
is 'no trial: no byte is written' cmp -s medium before
rm -f medium
./gadget format medium --most 16M --tries 2 old
equal 'the largest medium with marks' 33570816 "$(stat -c %s medium)"
holds 'the largest medium with marks' old

# A new image, which never confirms.
on_trial
holds 'on trial' new
starts 'an image that never confirms' "$new_runs" "$new_runs" "$new_runs" "$old_runs" "$old_runs"
holds 'an image that never confirms' old

# An image confirms itself by its own place; the place of the confirmed image confirms nothing.
on_trial
starts 'an image that confirms' "$new_runs"
cp medium before
refused 1 'no image that may run begins there' confirm medium 24577 --tries 3
is 'the one before confirms nothing new' ./gadget confirm medium 8192 --tries 3
is 'neither writes' cmp -s medium before
is 'an image that confirms' ./gadget confirm medium 24576 --tries 3
is 'the mark' set_at 20496
cp medium before
starts 'an image that confirmed' "$new_runs" "$new_runs" "$new_runs" "$new_runs"
refused 1 'no image that may run begins there' confirm medium 8192 --tries 3
is 'no more marks' cmp -s medium before

# A trial that is ended brings the old image back at once.
on_trial
is 'an end' ./gadget end medium --tries 3
holds 'an end' old
starts 'an end' "$old_runs"

# The name of the interface, as the gadget comes to the bus. A reset in DFU mode has it leave.
named='application is named 1.2.3 / upgrade is named 1.2.3'
echo 0x0123 > root/sys/kernel/config/usb_gadget/upgrade/bcdDevice
rm -f medium
./gadget format medium --most 5000 --tries 3 old
row 'names' "$timed --tries 3" << END
setup a105000000000100 => $named / upgrade joins / a105 02
$download
reset => upgrade leaves / application is named 1.2.3, next on trial, 3 starts left / application joins
setup 2100e80300000000 => 2100 ok
sh env -u GADGET_SAID ./gadget start medium --tries 3 > started => 
reset => application leaves / upgrade is named 1.2.3, on trial, 2 starts left / upgrade joins
sh env -u GADGET_SAID ./gadget start medium --tries 3 >> started =>
reset => upgrade leaves / application is named 1.2.3, on trial, 1 start left / application joins
setup 2100e80300000000 => 2100 ok
sh env -u GADGET_SAID ./gadget confirm medium 24576 --tries 3 =>
reset => application leaves / upgrade is named 1.2.3 / upgrade joins
setup a102000000002000 => a102 $(hex new)
END
equal 'names: two starts' "$(printf '%s\n%s' "$new_runs" "$new_runs")" "$(cat started)"
folder root

# A download meanwhile: the confirmed image stays, and the place of the one on trial is written. What begins no download ends no trial.
on_trial
printf 'one more of 26 bytes .....' > third
anew=$(printf '%s\n' "$download" | sed "s/$(hex new)/$(hex third)/")
row 'a download while an image is on trial' "$timed --tries 3 --transfer-size 64" << END
setup a105000000000100 => $next_named / upgrade joins / a105 02
setup 2101000000004100 x65 => 2101 stall
setup 2104000000000000 => 2104 ok
setup 2101000000000000 => 2101 stall
setup 2104000000000000 => 2104 ok
setup a102000000002000 => a102 $(hex new)
setup 2106000000000000 => 2106 ok
$anew
END
is 'it is told' grep -q '^trial: ended by a download$' err
holds 'a download while an image is on trial' third
starts 'a download while an image is on trial' "$new_runs" "$new_runs" "$new_runs" "$old_runs"
holds 'the confirmed image is whole' old

# An upload once no start is left: what it gives is what starts next.
on_trial
starts 'as often as it may' "$new_runs" "$new_runs" "$new_runs"
none_left='1.0.0, on trial, 0 starts left'
row 'an upload without a start left' "--dfu-mode --tries 3" << END
setup a105000000000100 => application is named $none_left / upgrade is named $none_left / upgrade joins / a105 02
setup a102000000002000 => a102 $(hex old)
END
is 'it is told' grep -q '^trial: ended by an upload, since no start was left$' err
starts 'an upload without a start left' "$old_runs"

# Another program ends the trial while the device is on the bus.
on_trial
row 'an end by another program' "--dfu-mode --tries 3" << END
setup a102000000002000 => $next_named / upgrade joins / a102 $(hex new)
sh env -u GADGET_SAID ./gadget end medium --tries 3 =>
setup a105000000000100 => a105 02
setup a102000000002000 => a102 $(hex old)
END
is 'it is told' grep -q '^trial: ended by another program$' err

# Each of several at once marks a start of its own.
on_trial
for number in 1 2 3 4 5 6; do
    ./gadget start medium --tries 3 > started.$number &
done
wait
equal 'starts at once' 3 "$(cat started.? | grep -c "^$new_runs\$")"
equal 'starts at once: the others' 3 "$(cat started.? | grep -c "^$old_runs\$")"

# Which medium is which, and the words.
fresh
refused 1 'it has no image' start medium --tries 3
refused 1 'it has no image' confirm medium 32 --tries 3
refused 1 'it has no image' end medium --tries 3
refused 1 'it has no image' run medium --controller "$udc" --root root --tries 3
on_trial
refused 1 'it has no image' run medium --controller "$udc" --root root
refused 1 'No such file' start nowhere --tries 3
refused 1 'it is a link' end link --tries 3
code=0
./gadget start medium --tries 3 > /dev/full 2> err || code=$?
equal 'start: standard output is full' 3 "$code"
starts 'that start was marked' "$new_runs" "$new_runs" "$old_runs"
for words in 'start medium' 'end medium' 'confirm medium 5' 'confirm medium --tries 3' 'confirm medium x --tries 3' \
    'confirm medium 4294967296 --tries 3' 'start medium 5 --tries 3' 'end medium 5 --tries 3' 'image medium --tries 3' \
    'start medium --tries 0' 'start medium --tries 1' 'start medium --tries 255' 'start medium --tries 3x' 'start --tries 3' \
    'start medium --tries 3 --most 5' "run medium --controller $udc --tries 1" 'format medium --most 5000 --tries 1 old' \
    "start medium --tries 3 --controller $udc"; do
    # shellcheck disable=SC2086
    refused 2 '' $words
    is "$words: it says why" test -s err
done
is 'the most tries' ./gadget start medium --tries 254
printf 'controller %s\ntries 3\n' "$udc" > config
on_trial
play '--config config' << END
setup a105000000000100 =>
END
is 'tries in a file' grep -q '^application is named 1.0.0, next on trial, 3 starts left$' said
dry --tries 3
equal 'a dry run on trial' 0 "$code"
dry
equal 'a dry run of another medium' 4 "$code"

# The example that starts images: one that never confirms itself runs so often, and then the one before, which does.
printf '#!/bin/sh\necho %s >> "$DFU_RAN"\nexit 3\n' "new \$DFU_AT" > broken
cat > works << 'END'
#!/bin/sh
echo works "$DFU_AT" >> "$DFU_RAN"
exec "$DFU_GADGET" confirm "$DFU_MEDIUM" "$DFU_AT" --tries "$DFU_TRIES"
END
export DFU_GADGET="$work/gadget" DFU_RAN="$work/ran" FOLDER="$work/start folder"
rm -f medium
./gadget format medium --most 5000 --tries 2 works
steps="setup 210100000000$(printf '%04x' "$(wc -c < broken)" | sed 's/\(..\)\(..\)/\2\1/') $(hex broken)"
printf '%s\nsetup a103000000000600\nwait 20\nsetup a103000000000600\nsetup 2101010000000000\nsetup a103000000000600\n' "$steps" > rows
play "$timed --tries 2" < rows
holds 'on-start: the image that does not work is in place' broken
for turn in 3 3 0 0; do
    code=0
    TRIES=2 "$top/apps/gadget/on-start" medium > out 2>&1 || code=$?
    equal 'on-start: the status' "$turn" "$code"
done
equal 'on-start: what ran' 'new 24576 new 24576 works 8192 works 8192 ' "$(tr '\n' ' ' < ran)"
cp works works2
echo '# of another version' >> works2
steps="setup 210100000000$(printf '%04x' "$(wc -c < works2)" | sed 's/\(..\)\(..\)/\2\1/') $(hex works2)"
printf '%s\nsetup a103000000000600\nwait 20\nsetup a103000000000600\nsetup 2101010000000000\nsetup a103000000000600\n' "$steps" > rows
play "$timed --tries 2" < rows
: > ran
for turn in 1 2 3 4; do
    is 'on-start: it confirms itself' env TRIES=2 "$top/apps/gadget/on-start" medium
done
equal 'on-start: what ran after that' 'works 24576 works 24576 works 24576 works 24576 ' "$(tr '\n' ' ' < ran)"
code=0
"$top/apps/gadget/on-start" nowhere > out 2>&1 || code=$?
equal 'on-start: no medium' 1 "$code"
unset DFU_GADGET DFU_RAN FOLDER

# As nobody, where the tests run as root.
on_trial
if [ "$(id -u)" -eq 0 ]; then
    cp medium own/trial
    chown 65534 own/trial
    nobody start own/trial --tries 3
    equal 'nobody starts' "0 $new_runs" "$code $(cat out)"
    nobody confirm own/trial 24576 --tries 3
    equal 'nobody confirms' 0 "$code"
    cp medium own/trial
    nobody end own/trial --tries 3
    equal 'nobody ends' 0 "$code"
    cp medium before
    for words in 'start medium' 'confirm medium 24576' 'end medium'; do
        # shellcheck disable=SC2086
        nobody $words --tries 3
        equal "nobody: $words of root" 1 "$code"
        is "nobody: $words of root: it is told" grep -q 'can.t be opened: Permission denied' err
    done
    is 'nobody writes nothing of root' cmp -s medium before
fi
