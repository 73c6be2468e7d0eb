# shellcheck shell=sh disable=SC2034,SC2154
# What dist/ is made of, and what crates.txt says of it. A script that reads this file has set `top`, the folder of the repository.

# The program; each library with the names of its headers, its C being NAME.c of a crate NAME_c; and the libraries that the page takes, as
# modules of WebAssembly. (eraser/package.py names the crates of the plain Rust.)
program=dfu_cmd
libraries='dfu_device_c:dfu_core dfu_host_c:dfuse_watch dfu_boot_c:dfu_home_core:dfu_install_core:dfu_trial_core'
of_page='dfu_device_c dfu_host_c'
# The libraries that can read flash that is not mapped, by a function of the program's.
of_reads='dfu_device_c dfu_boot_c'
# The library that allocates: its header, and the number by which it refuses too little memory. It is of the page too.
held=dfu_image_c:dfu_image_take:-103
wanted=$program
for it in $libraries $held; do
    wanted="$wanted ${it%%:*}"
done

# needs NAME: the libraries that a crate names; those without a folder in crates/ are of the kit.
needs() {
    sed -n "s/^$1\( [^:]*\)\{0,1\}://p" "$top/crates.txt"
}

# below NAME..: sets `found` to these crates and those of the repository that they depend on, each once.
below() {
    found=
    left=$*
    while [ -n "$left" ]; do
        name=${left%% *}
        left=${left#"$name"}
        left=${left# }
        case " $found " in *" $name "*) continue ;; esac
        [ -d "$top/crates/$name" ] || continue
        found="$found $name"
        # shellcheck disable=SC2046,SC2086
        set -- $left $(needs "$name")
        left=$*
    done
}
