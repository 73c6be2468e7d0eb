# The program of --check: what it is given, when it runs, and what each of its ends comes to.
# shellcheck shell=sh disable=SC2154
cat > ./checks << 'END'
#!/bin/sh
echo "$# $1 $2 $3" >> given
dd if="$1" bs=1 skip="$2" count="$3" 2> /dev/null > seen
exit "${CHECK_STATUS:-0}"
END
chmod +x checks
refused="setup 2101000000001a00 $(hex new) => 2101 ok
setup a103000000000600 => a103 001400000400
setup a103000000000600 => a103 000000000500
setup 2101010000000000 => 2101 stall"

# checked WHAT STATUS CODE: the close is stalled with this code, and the old image stays; a download that the program takes comes in place.
checked() {
    fresh
    rm -f given seen
    CHECK_STATUS=$2 row "$1" "--dfu-mode --busy 20 --manifest 20 --check ./checks" << END
setup a105000000000100 => upgrade joins / a105 02
$refused
setup a103000000000600 => a103 $3
setup 2104000000000000 => 2104 ok
setup a105000000000100 => a105 02
END
    is "$1: what it is given" grep -qx '3 medium 8224 26' given
    is "$1: once" test "$(wc -l < given)" -eq 1
    is "$1: it sees the image" cmp -s seen new
    ./gadget image medium > saved
    is "$1: the old image stays" cmp -s saved old
}
checked 'a check that refuses' 1 020000000a00
checked 'a check that says: not for this device' 2 010000000a00
checked 'a check that ends with another status' 77 020000000a00

# It takes the image: the download goes on, and the program ran once.
fresh
rm -f given
row 'a check that takes' "$timed --check ./checks" << END
setup a105000000000100 => upgrade joins / a105 02
$download
setup a105000000000100 => a105 02
END
is 'a check that takes: once' test "$(wc -l < given)" -eq 1
holds 'a check that takes' new

# What is too short is no image: no program runs for it.
fresh
rm -f given
row 'no check of an image that is too short' '--dfu-mode --least 27 --check ./checks' << END
setup a105000000000100 => upgrade joins / a105 02
setup 2101000000001a00 $(hex new) => 2101 ok
setup a103000000000600 => a103 000500000400
setup a103000000000600 => a103 000000000500
setup 2101010000000000 => 2101 stall
setup a103000000000600 => a103 090000000a00
END
is 'no check of an image that is too short' test ! -e given

# What closes no download is not checked: a DNLOAD of no bytes in dfuIDLE, a block, and what follows the close.
fresh
rm -f given
row 'no check of what closes no download' '--dfu-mode --busy 20 --manifest 20 --check ./checks' << END
setup a105000000000100 => upgrade joins / a105 02
setup 2101000000000000 => 2101 stall
setup 2104000000000000 => 2104 ok
setup 2101000000001a00 $(hex new) => 2101 ok
setup a103000000000600 => a103 001400000400
setup a103000000000600 => a103 000000000500
setup 2106000000000000 => 2106 ok
END
is 'no check of what closes no download' test ! -e given

# What isn't known to be good is refused: a program that isn't there, that is killed, or that hangs.
for program_of_check in ./nowhere ./killed ./hangs; do
    printf '#!/bin/sh\nkill -KILL $$\n' > killed
    printf '#!/bin/sh\nsleep 60 & sleep 60\n' > hangs
    chmod +x killed hangs
    fresh
    began=$(date +%s)
    row "a check that fails: $program_of_check" "--dfu-mode --busy 20 --manifest 20 --check $program_of_check" << END
setup a105000000000100 => upgrade joins / a105 02
$refused
setup a103000000000600 => a103 020000000a00
setup 2104000000000000 => 2104 ok
END
    is "a check that fails: $program_of_check: in time" test $(($(date +%s) - began)) -lt 30
    holds "a check that fails: $program_of_check" old
done
is 'a check that hangs: it is told' grep -q 'hangs: did not end in time: the image is refused' err
