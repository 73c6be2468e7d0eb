# How ./test and tests/run count what scripts say in their last line, `N passed, M failed`. They have a folder of their own, $room.
# shellcheck shell=sh disable=SC2154
passed=0
failed=0
trouble=
left_out=

# ended NAME LOG STATUS: counts in what the last line of a log says; a status that it does not explain is a failure.
ended() {
    tally=$(tail -n 1 "$2" | sed -n 's/^\([0-9][0-9]*\) passed, \([0-9][0-9]*\) failed$/\1 \2/p')
    right=${tally%% *}
    wrong=${tally##* }
    if [ -z "$tally" ] || { [ "$3" != 0 ] && [ "$wrong" -eq 0 ]; }; then
        echo "$1: ended with status $3, and says of no failure what it was"
        wrong=$((${wrong:-0} + 1))
    fi
    if [ "$wrong" -ne 0 ]; then
        trouble="$trouble, $1"
        { echo "== the end of $1" && tail -n 20 "$2"; } >> "$room/failures"
    fi
    passed=$((passed + ${right:-0}))
    failed=$((failed + wrong))
}
# count COMMAND..: runs one, and counts in what its last line says.
count() {
    echo "== $*"
    began=$(date +%s)
    { status=0; "$@" 2>&1 < /dev/null || status=$?; echo "$status" > "$room/status"; } | tee "$room/log"
    ended "$*" "$room/log" "$(cat "$room/status")"
    echo "   $(($(date +%s) - began)) s"
}
# needs SCRIPT: the commands that its line `# Needs: ..` names.
needs() {
    sed -n 's/^# Needs: //p' "$1"
}
# has_commands SCRIPT: the commands that it needs are there; or else it is left out, with a word.
has_commands() {
    for command in $(needs "$1"); do
        if ! command -v "$command" > /dev/null; then
            left_out="$left_out
$1 is left out: there is no $command"
            return 1
        fi
    done
}
# try SCRIPT: runs it and counts, or says what it is left out for.
try() {
    ! has_commands "$1" || count "$1"
}
# try_all JOBS SCRIPT..: runs so many of these at a time, in this order, and counts them.
try_all() {
    jobs=$1
    shift
    for script in "$@"; do
        ! has_commands "$script" || echo "$script"
    done > "$room/scripts"
    xargs -r -n 1 -P "$jobs" tests/lib/support/alone "$room" < "$room/scripts"
    while read -r script; do
        name=$(echo "$script" | tr / -)
        ended "$script" "$room/$name.log" "$(cat "$room/$name.status" 2> /dev/null || echo unknown)"
    done < "$room/scripts"
}
# verdict: how each script that failed ended, the last line, and the status: 0 if something was checked and nothing failed.
verdict() {
    if [ -n "$trouble" ]; then
        [ ! -e "$room/failures" ] || cat "$room/failures"
        echo "failures in${trouble#,}"
    fi
    echo "$passed passed, $failed failed"
    [ "$failed" -eq 0 ] && [ "$passed" -gt 0 ]
}
