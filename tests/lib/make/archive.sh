# The archive of the sources; tests/build/make reads this file.
# shellcheck shell=sh disable=SC2154
if tar --version 2> /dev/null | grep -q GNU; then
    cp "$top/README.md" .
    says 0 clean
    find . -name '*.md' -exec touch -d '2020-01-01' {} +
    says 0 archive
    name=$(cd build && echo fustrelan-*.tar.gz)
    cp "build/$name" "$work/first.tar.gz"
    says 0 libraries BUILD=other
    says 0 archive
    is 'the same bytes, with something built' cmp "build/$name" "$work/first.tar.gz"
    tar -xzf "$work/first.tar.gz" -C "$work"
    (cd "$work/${name%.tar.gz}" && make -s archive) > "$work/said" 2>&1 || cat "$work/said"
    is 'the same bytes, of an unpacked archive' cmp "$work/${name%.tar.gz}/build/$name" "$work/first.tar.gz"
    is 'what is built is not in it' sh -c "! tar -tzf '$work/first.tar.gz' | grep -qE 'objects|\.a$'"
    is 'each source is in it' test -f "$work/${name%.tar.gz}/dist/dfu_device.c" -a -x "$work/${name%.tar.gz}/share/install"
    says 2 archive BUILD=/dev/null
fi
