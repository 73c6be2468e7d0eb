# shellcheck shell=sh
# A script that reads this file runs long commands by `run`: a signal that ends the script ends them too.
running=

# run COMMAND..: its status is that of the command.
run() {
    "$@" < /dev/null &
    running=$!
    set -- 0
    wait "$running" || set -- $?
    running=
    return "$1"
}

# What a script does as it ends, after what it ran has ended; nothing, unless it says so.
tidy() {
    :
}
end_all() {
    # shellcheck disable=SC2086
    [ -z "$running" ] || kill $running 2> /dev/null || true
    wait
    tidy
}
# (a subshell begins with none of these)
set_traps() {
    trap end_all EXIT
    trap 'exit 129' HUP
    trap 'exit 130' INT
    trap 'exit 143' TERM
}
set_traps
