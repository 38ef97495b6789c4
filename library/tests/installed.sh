#!/bin/sh
# Installs the library in places of its own, builds a program with what pkg-config tells, shared and static, and uninstalls it.
#
#   CC=gcc MAKE=make tests/installed.sh [variables of make ..]
set -e
there=$(pwd)/build/installed
rm -rf "$there"

listed() { (cd "$1" && find . ! -type d | LC_ALL=C sort); }

# a multiarch folder below DESTDIR
$MAKE -s install "$@" DESTDIR="$there/root" PREFIX=/usr LIBDIR=/usr/lib/x86_64-linux-gnu
cat > "$there/wanted" << 'END'
./usr/include/blocktri.f90
./usr/include/blocktri.h
./usr/include/blocktri.hpp
./usr/include/blocktri_calls.inc
./usr/lib/x86_64-linux-gnu/cmake/blocktri/blocktriConfig.cmake
./usr/lib/x86_64-linux-gnu/cmake/blocktri/blocktriConfigVersion.cmake
./usr/lib/x86_64-linux-gnu/libblocktri.a
./usr/lib/x86_64-linux-gnu/libblocktri.so
./usr/lib/x86_64-linux-gnu/libblocktri.so.1
./usr/lib/x86_64-linux-gnu/libblocktri.so.1.0.0
./usr/lib/x86_64-linux-gnu/libblocktri_btf.a
./usr/lib/x86_64-linux-gnu/libblocktri_btf.so
./usr/lib/x86_64-linux-gnu/libblocktri_btf.so.1
./usr/lib/x86_64-linux-gnu/libblocktri_btf.so.1.0.0
./usr/lib/x86_64-linux-gnu/pkgconfig/blocktri-btf.pc
./usr/lib/x86_64-linux-gnu/pkgconfig/blocktri.pc
END
listed "$there/root" | diff "$there/wanted" -
grep -qx 'libdir=/usr/lib/x86_64-linux-gnu' "$there/root/usr/lib/x86_64-linux-gnu/pkgconfig/blocktri.pc"
$MAKE -s uninstall "$@" DESTDIR="$there/root" PREFIX=/usr LIBDIR=/usr/lib/x86_64-linux-gnu
test -z "$(listed "$there/root")"

# a program that calls BTF: a matrix of 2 columns without entries
cat > "$there/btf.c" << 'END'
int btf_order(int, int *, int *, double, double *, int *, int *, int *, int *, int *);
int main(void) {
  int starts[3] = {0, 0, 0}, ids[1] = {0}, p[2], q[2], r[3], pairs;
  double work;
  return btf_order(2, starts, ids, 0, &work, p, q, r, &pairs, 0) != 2 || pairs != 0 || q[0] != -2 || q[1] != -3;
}
END

# a prefix of one's own
$MAKE -s install "$@" DESTDIR= PREFIX="$there/prefix" LIBDIR="$there/prefix/lib64"
if command -v pkg-config > /dev/null; then
    export PKG_CONFIG_PATH="$there/prefix/lib64/pkgconfig"
    pkg-config --validate blocktri
    test "$(pkg-config --modversion blocktri)" = 1.0.0
    $CC -o "$there/shared" examples/rank.c $(pkg-config --cflags --libs blocktri)
    LD_LIBRARY_PATH="$there/prefix/lib64" "$there/shared" | cmp - examples/rank.out
    $CC -static -o "$there/static" examples/rank.c $(pkg-config --static --cflags --libs blocktri)
    "$there/static" | cmp - examples/rank.out
    pkg-config --validate blocktri-btf
    test "$(pkg-config --modversion blocktri-btf)" = 1.0.0
    $CC -o "$there/shared_btf" "$there/btf.c" $(pkg-config --cflags --libs blocktri-btf)
    LD_LIBRARY_PATH="$there/prefix/lib64" "$there/shared_btf"
    $CC -static -o "$there/static_btf" "$there/btf.c" $(pkg-config --static --cflags --libs blocktri-btf)
    "$there/static_btf"
else
    echo 'skipped: no pkg-config'
fi
$MAKE -s uninstall "$@" DESTDIR= PREFIX="$there/prefix" LIBDIR="$there/prefix/lib64"
test -z "$(listed "$there/prefix")"
