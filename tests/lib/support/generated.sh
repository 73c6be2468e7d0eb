# What tests/dist/sums and tests/dist/compared share: what in dist/ is generated, and faults planted in a copy of it.
# shellcheck shell=sh disable=SC2154

# generated FOLDER: the names of its files that nobody wrote by hand, and that no cargo made in rust/, one on a line.
generated() {
    (cd -- "$1" && find . ! -type d ! -path './make/*' ! -path ./README.md ! -name NOTICES.md ! -name generate ! -name os.c ! -name dfu.S \
        ! -path './rust/target/*' ! -path ./rust/Cargo.lock | sed 's|^\./||' | LC_ALL=C sort)
}

# planted WHAT COMMAND..: after the command, in a copy of dist/, `holds COPY` has to fail; what it says is not shown.
planted() {
    what=$1
    shift
    rm -rf -- "$work/copy"
    cp -R -- "$top/dist" "$work/copy"
    (cd -- "$work/copy" && "$@")
    if holds "$work/copy" > /dev/null 2>&1; then wrong "$what: not noticed"; else right; fi
}

# another_byte FILE: its byte at 1000 becomes another one.
another_byte() {
    byte=$(dd if="$1" bs=1 skip=1000 count=1 2> /dev/null)
    case $byte in x) new=y ;; *) new=x ;; esac
    printf '%s' "$new" | dd of="$1" bs=1 seek=1000 conv=notrunc 2> /dev/null
}

# other_sources: SUMS names other sources.
other_sources() {
    sed 's/^\(# of sources with the sum \)../\1zz/' SUMS > SUMS.new
    mv -- SUMS.new SUMS
}

# without_a_line: SUMS lacks its last file.
without_a_line() {
    sed '$d' SUMS > SUMS.new
    mv -- SUMS.new SUMS
}

# plant_faults: each fault is noticed, in each kind of generated file. Of the modules in Rust those at the top stand for all.
plant_faults() {
    for file in $(generated "$top/dist"); do
        case $file in
        SUMS | rust/src/*/*) ;;
        *) planted "a changed byte of $file" another_byte "$file" ;;
        esac
    done
    planted 'a file too many' touch aarch64-linux/other.s
    planted 'a file too many at the top' touch dfu_other.c
    planted 'a module too many' touch rust/src/wire/other.rs
    planted 'a module that is missing' rm rust/src/wire/setups.rs
    planted 'a link' ln -s dfu_device.c dfu_other.c
    planted 'a missing file' rm dfu_device.c
    planted 'SUMS without a file' without_a_line
    planted 'SUMS of other sources' other_sources
    planted 'no SUMS' rm SUMS
}
