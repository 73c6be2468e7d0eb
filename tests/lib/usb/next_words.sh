# Rows of tests/apps/flash, of next.sh: the next step of a command line that is not understood.
# shellcheck shell=sh disable=SC2154

# Words that are none of the options.
# typed WORDS.. -- STEP
typed() {
    words=
    while [ "$1" != -- ]; do
        words="$words $1"
        shift
    done
    # shellcheck disable=SC2086
    row 2 - '' '' $words
    next "$2"
}
typed --what new.dfu -- 'did you mean --wait?'
typed --verison -- 'did you mean --version?'
typed --lst -- 'did you mean --list?'
typed --hlep -- 'did you mean --help?'
typed --adress=0x08000000 new -- 'did you mean --address?'
typed --serail F1 new.dfu -- 'did you mean --serial?'
typed --no-veryfy new.dfu -- 'did you mean --no-verify?'
typed --verify new.dfu -- 'leave it out: a download is compared unless --no-verify is given'
typed --mass-erase new.dfu -- "leave it out: the pages of the image are erased, and no option erases all; ST's tools do"
typed --unprotect -- "leave it out: no option takes protection away; ST's tools do, and erase all"
typed --flash new.dfu -- 'leave it out: dfu-flash FILE flashes it'
typed --read up -- 'did you mean --upload?'
typed --alternate 1 new.dfu -- 'did you mean --alt?'
typed -list -- 'did you mean --list?'
typed new.dfu --address -- 'give it its value, as --help has it'
typed --list=5 -- 'leave out what is behind its ='
typed new.dfu any.dfu -- 'name one FILE'
says 'dfu-flash: two files were given (new.dfu, any.dfu), and dfu-flash takes one; a * may have stood for several'
typed --demo new.dfu any.dfu -- 'name one FILE'
typed 1209:0001 new.dfu -- 'name one FILE, and the device by --device 1209:0001'
typed new.dfu 1209:0001 -- 'name one FILE, and the device by --device 1209:0001'
typed --list new.dfu -- 'leave it out'
says 'dfu-flash: a word too many: new.dfu'
typed --json -- 'name the file, or - for standard input; dfu-flash --list shows which devices are there'
typed --down new.dfu -- 'did you mean --download?'
typed --dowload new.dfu -- 'did you mean --download?'
typed --names bays new.dfu -- 'did you mean --ports?'
typed --xylophone -- 'type one of the options that dfu-flash --help lists'
typed --=5 -- 'type one of the options that dfu-flash --help lists'
typed "--$(head -c 300 /dev/zero | tr '\0' v)" -- 'type one of the options that dfu-flash --help lists'
typed -x new.dfu -- 'leave out that letter, or see dfu-flash --help'
typed new.dfu -t -- 'give it its value, as --help has it'
typed --address 08000000 new -- 'type it as --address 0x08000000'
typed --address=8004000 new -- 'type it as --address 0x8004000'
typed --address flash new -- 'type it as --address 0x08000000'
typed -s 08000000:leave -D new -- 'type it as -s 0x08000000:leave'
typed -s flash -D new -- 'type it as -s 0x08000000, -s 0x08000000:leave or -s 0x08000000:16384'
typed --alt 256 new.dfu -- 'copy it from what dfu-flash --list shows'
typed --device 1209 --path= new.dfu -- 'copy it from what dfu-flash --list shows'
typed -Z x -U never -- "leave that option out: it isn't needed here"
typed --limits 1 new.dfu -- 'type both, as --limits 1000 3, or leave it out'
typed --force new.dfu -- 'leave out --force'
typed --list --quiet -- 'leave out the other options'
typed --list --upload never -- 'do one of them now, and the other one in a second run'
typed --log logs new.dfu -- 'add --all, or type --verbose=FILE in its place'
for leave in 0x08000000:leave :leave; do
    typed -a 0 -s "$leave" -- \
        "name the file, or press the board's reset: no option only starts the application, as -s ADDRESS:leave of dfu-util does"
done
row 7 - 'gave-up: ' '' -t 128 -D hundred.dfu
next 'run it again without --transfer-size: its blocks are larger than those that the device takes'
row 3 - '' '' version
next 'did you mean --version?'
row 3 - '' '' detach
next 'did you mean --detach?'

# Each refusal of words has a row, or names the option to leave out.
grep -ohE '"(-|one |the )[^"]*"' "$top"/apps/flash/*.c | grep -v '^"[^"]*", "' | tr -d '"' | sort -u > sentences
sed -n 's/^    {"\(.*\)", .*},$/\1/p' "$top/apps/flash/usage.c" > begins
while read -r begin; do
    expect "the row '$begin' is of a refusal" grep -q -e "^$begin" sentences
done < begins
grep -ohE 'words_refuse\("-[^"]* takes? [^"]*' "$top"/apps/flash/*.c | cut -d '"' -f 2 | grep -v -F -f begins > without || :
expect "a value without a row: $(cat without)" test ! -s without
