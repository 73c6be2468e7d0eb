# The example of --on-installed.
# shellcheck shell=sh disable=SC2154

# ends STATUS WHAT COMMAND..
ends() {
    wanted_status=$1 what=$2 code=0
    shift 2
    "$@" > out 2>&1 || code=$?
    if [ "$code" -eq "$wanted_status" ]; then right; else
        wrong "$what: status $code"
        cat out
    fi
}
# The image stands where it says, whole, or what stood there does.
fresh
mkdir boot
echo before > boot/next.img
export DFU_GADGET="$work/gadget" BOOT="$work/boot"
ends 1 'another length' "$top/apps/gadget/on-installed" medium 32 12
ends 1 'a check that fails' env CHECK=false "$top/apps/gadget/on-installed" medium 32 13
ends 1 'no medium' "$top/apps/gadget/on-installed" nowhere 32 13
equal 'what stood there' before "$(cat boot/next.img)"
ends 0 'it is placed' env START='echo starts' "$top/apps/gadget/on-installed" medium 32 13
is 'it is placed' cmp -s boot/next.img old
is 'it is started' grep -qx starts out
equal 'nothing is left beside' next.img "$(ls -A boot)"
unset DFU_GADGET BOOT
