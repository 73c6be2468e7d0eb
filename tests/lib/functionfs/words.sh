# The words, the file of --config, what a dry run says, set-up, and that the manual says what the program says.
# shellcheck shell=sh disable=SC2154
fresh
for words in '' 'format' 'format medium' 'format medium old' 'format medium --most 0 old' 'format medium --most 17M old' \
    'format medium --most 5000x old' 'format medium --most 5000 old more' 'image' 'image medium more' 'image medium --force' \
    'image medium --controller x' 'run medium' 'run medium --controller' 'run medium --controller= ' 'run medium more --controller x' \
    'run medium --controller x --most 5' 'run medium --controller x --transfer-size 4097' 'run medium --controller x --transfer-size 0' \
    'run medium --controller x --busy 16777216' 'run medium --controller x --busy -1' 'run medium --controller x --busy 1K' \
    'run medium --controller x --attributes most' 'run medium --controller x --attributes download,' \
    'run medium --controller x --attributes download --manifest 0' 'run medium --controller x --detach-timeout 65536' \
    'run medium --controller x --erase 65536' 'run medium --controller x --erase -1' 'run medium --controller x --erase 5ms' \
    'run medium --controller x --program 65536' 'run medium --controller x --program' 'run medium --controller x --program= ' \
    'image medium --erase' 'walk medium' '--what' 'run medium --controller x --least 0'; do
    # shellcheck disable=SC2086
    refused 2 '' $words
    is "$words: it says why" test -s err
    is "$words: a next step" grep -q '^next: ' err
done
is '--help' eval './gadget --help > help'
is '-V' eval './gadget -V --what > version'
for words in --help --version; do
    code=0
    ./gadget $words > /dev/full 2> err || code=$?
    equal "$words: standard output is full" 3 "$code"
done

# The file: the words win.
cat > config << END
# a board
controller $udc
transfer-size	64
dfu-mode

attributes download,upload
END
play '--config config --transfer-size 32' << END
setup a105000000000100 =>
END
equal 'a file' 0 "$code"
is 'a file: attributes and size' grep -q 'functional 092103e80320001001$' said
is 'a file: its mode' grep -q '^upgrade joins$' said
for line in 'transfer-size' 'transfer-size 5000' 'dfu-mode yes' 'what 5' 'config config' 'force' 'help'; do
    echo "$line" > config
    refused 2 'line 1 is not understood' run medium --config config
done
refused 3 'nowhere can.t be read' run medium --config nowhere
head -c 70000 /dev/zero > config
refused 3 'no file of lines' run medium --config config

# What a dry run finds, and what is missing.
dry() {
    code=0
    ./gadget run medium --controller "$udc" --root root --dry-run "$@" > out 2> err || code=$?
}
dry
equal 'all is there' 0 "$code"
equal 'all is there' 8 "$(grep -c '^ok: ' out)"
# lacks LINE: a dry run says this and ends with status 4.
lacks() {
    dry
    equal "$1" 4 "$code"
    is "$1" grep -q -e "^missing: $1" out
    folder root
}
echo 6.10.14 > root/proc/sys/kernel/osrelease
lacks 'kernel 6.10.14: FunctionFS takes'
: > root/proc/filesystems
lacks 'file system functionfs: gadget/set-up makes it come'
rm -r root/sys/class/udc/"$udc"
lacks "controller $udc: there is no such folder"
echo "$udc" > root/sys/kernel/config/usb_gadget/upgrade/UDC
lacks "controller $udc: the gadget upgrade is on its bus"
rm -r root/sys/kernel/config/usb_gadget/application
lacks 'gadget application: gadget/set-up makes it'
rm -r root/dev/usb-ffs/upgrade
lacks 'endpoint 0 of upgrade: its FunctionFS isn.t mounted'
mv medium away
lacks 'medium medium: it can.t be had'
mv away medium
dry --on-installed ./nowhere
equal 'no such program' 4 "$code"
is 'no such program' grep -q '^missing: program ./nowhere: No such file' out
: > host
for part in class/udc kernel/config/usb_gadget/upgrade; do
    rm -r root/sys/$part
    refused 4 '' run medium --controller "$udc" --root root
    folder root
done

refused 4 'it is no name of a controller' run medium --controller ../udc --root root
refused 4 'it is no name of a gadget' run medium --controller "$udc" --root root --upgrade ../upgrade
echo 0x12345 > root/sys/kernel/config/usb_gadget/upgrade/idVendor
refused 4 'it has no number of 16 bits' run medium --controller "$udc" --root root
folder root

# set-up, over a plain folder.
export GADGET_ROOT="$work/board"
mkdir -p board/sys/kernel/config/usb_gadget board/dev
made=board/sys/kernel/config/usb_gadget
is 'set-up' "$top/apps/gadget/set-up" 0x1209 0x0001 0x0100 F1
equal 'set-up: the vendor' 0x1209 "$(cat $made/upgrade/idVendor)"
equal 'set-up: the function' "$GADGET_ROOT/sys/kernel/config/usb_gadget/upgrade/functions/ffs.dfu-upgrade" \
    "$(readlink $made/upgrade/configs/c.1/ffs.dfu-upgrade)"
is 'set-up: no second time' test "$("$top/apps/gadget/set-up" 0x1209 0x0001 0x0100 F1 2> err || echo "$?")" = 1
rm -rf board
mkdir -p "$made/board/configs/c.1" "$made/board/functions/acm.usb0" board/dev
ln -s "$work/$made/board/functions/acm.usb0" "$made/board/configs/c.1/"
is "set-up: the board's own gadget" "$top/apps/gadget/set-up" --application board 0x1209 0x0001 0x0100 F1
is 'set-up: its function stays' test -h "$made/board/configs/c.1/acm.usb0"
is 'set-up: ours stands beside it' test -h "$made/board/configs/c.1/ffs.dfu-board"
is 'set-up: nothing else of it' test ! -e "$made/board/idVendor"
for words in '' '0x1209 1 2' '--remove x' '--application' '--application upgrade 1 2 3 4' '--application a/b 1 2 3 4' '--what'; do
    # shellcheck disable=SC2086
    equal "set-up $words" 2 "$("$top/apps/gadget/set-up" $words > /dev/null 2>&1 || echo "$?")"
done
echo "$udc" > "$made/board/UDC"
equal 'set-up: a gadget on the bus' 1 "$("$top/apps/gadget/set-up" --remove --application board 2> err || echo "$?")"
: > "$made/board/UDC"
unset GADGET_ROOT

# The manual: each option with its text, each status, and the version.
manual=$(sed 's/^\.[A-Za-z]* *//; s/\\-/-/g; s/\\f[A-Z]//g; s/"//g' "$top/share/man/dfu-gadget.1" | tr '\n' ' ' | tr -s ' ')
sed -n 's/^  \(-[hV], \)*--\([a-z-]*\).*/\2/p' help > options
is 'the options of the help' test "$(wc -l < options)" -eq 23
while read -r option; do
    case $manual in *"--$option"*) right ;; *) wrong "the manual lacks --$option" ;; esac
done < options
# The completions, with the same texts; in zsh they begin with a small letter.
sed ':a; N; $!ba; s/>\n  */> /g' help | sed -n 's/^  *\(-[hV], \)*--\([a-z-]*\)\( <[^>]*>\)*  *\([A-Z].*\)/\2	\4/p' > texts
equal 'the texts of the help' 23 "$(wc -l < texts)"
while IFS='	' read -r option text; do
    is "bash: $option" grep -q -e "--$option\>" "$top/share/completions/dfu-gadget.bash"
    is "fish: $option" grep -q -F -e "-l $option" "$top/share/completions/dfu-gadget.fish"
    is "fish: $option: $text" grep -q -F -e "-d '$text'" "$top/share/completions/dfu-gadget.fish"
    low=$(printf '%s' "$text" | sed 's/^./\L&/')
    is "zsh: $option: $text" grep -q -F -e "[$low]" "$top/share/completions/_dfu-gadget"
done < texts
sed -n 's|^ *STATUS_[A-Z]* = \([0-9]\),* */\* \(.*\) \*/|\1 \2|p' "$top/apps/gadget/status.h" > statuses
equal 'the statuses' 8 "$(wc -l < statuses)"
while read -r status; do
    case $manual in *"$status"*) right ;; *) wrong "the manual lacks: $status" ;; esac
done < statuses
is 'the version of the manual' grep -q "^.TH .*\"$(./gadget -V | sed 's/dfu-gadget/dfu/')\"" "$top/share/man/dfu-gadget.1"
is 'the version of the program dfu' grep -q "\"dfu-gadget $(./gadget -V | sed 's/.* //')" "$top/apps/gadget/help.c"
