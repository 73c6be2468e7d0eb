# shellcheck shell=sh disable=SC2034,SC2154
# What is said of options, statuses, reports and refusals is the same everywhere. The man page as one line of text:
man=$(sed 's/^\.[A-Za-z]* *//; s/\\-/-/g; s/"//g' "$top/share/man/dfu-flash.1" | tr '\n' ' ' | tr -s ' ')
# has WHERE TEXT WORDS: the text has these words.
has() {
    case $2 in
    *"$3"*) right ;;
    *) wrong "$1 lacks: $3" ;;
    esac
}
# As zsh has it: with a small letter, and a quote in it closed, escaped and opened again.
low() {
    first=${1%"${1#?}"}
    printf '%s%s' "$(printf '%s' "$first" | tr '[:upper:]' '[:lower:]')" "${1#?}" | sed "s/'/'\\\\''/g"
}
LD_LIBRARY_PATH=$work ./dfu-flash --help > help
sed -n 's/^ *\(-[hV], \)*\(--[a-z-]*\)\( <[^>]*>\)*  *\([A-Z].*\)/\2	\4/p' help > lines
while IFS='	' read -r option text; do
    has 'the man page' "$man" "$option"
    has 'the man page' "$man" "$text"
    has bash "$(cat "$top/share/completions/dfu-flash.bash")" " $option"
    has zsh "$(cat "$top/share/completions/_dfu-flash")" "[$(low "$text")]"
    has fish "$(sed "s/\\\\'/'/g" "$top/share/completions/dfu-flash.fish")" "-l ${option#--} -d '$text'"
done < lines
expect 'options' test "$(wc -l < lines)" -eq "$(grep -oE '", [a-z]+_argument,' "$top/apps/flash/options.c" | wc -l)"
sed -n 's/.*STATUS_[A-Z_]* = \([0-9]*\),* *\/\* \(.*\) \*\//\1 \2/p' "$top/apps/flash/status.h" > lines
expect 'statuses' test "$(wc -l < lines)" -eq 18
while read -r line; do
    has 'the man page' "$man" "$line"
done < lines
# The codes of the standard, each with what it means.
sed -n '/meanings\[\]/,/^}/s/^    "\(.*\)",$/\1/p' "$top/apps/flash/codes.c" | sed 1d > meanings
grep -o '"err[A-Z_]*"' "$top/apps/flash/standard.c" | tr -d '"' | paste -d ' ' - meanings > lines
expect 'codes' test "$(wc -l < lines)" -eq 15
while read -r line; do
    has 'the man page' "$man" "$line"
done < lines
# The texts of the reports, of the program's own, and of the refusals.
tr '\n' ' ' < "$top/apps/flash/verdict.c" > rows
tr '\n' ' ' < "$top/apps/flash/dfuse_verdict.c" >> rows
grep -o '{STATUS_[A-Z_]*, *"[^"]*", [^}]*}' rows |
    sed -n 's/^[^"]*"\(.*\)", NULL}$/\1/p; s/^[^"]*"\(.*\)", "\(.*\)"}$/\1; \2 may have the old image, the new one or neither/p' > lines
sed -n 's/^    {[A-Z0-9_-]*, "\([A-Za-z]*\)", "\(.*\)"},/\1 \2/p' "$top/apps/flash/refusals.c" >> lines
expect 'texts' test "$(wc -l < lines)" -eq 100
while read -r line; do
    has 'the man page' "$man" "$line"
done < lines
