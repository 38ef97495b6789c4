#!/bin/sh
# Installs the library in a prefix with a space in its name, builds examples/cmake with it, also where the prefix was moved, and asks
# for versions that have to be refused.
#
#   MAKE=make VERSION=1.0.0 tests/cmake/found.sh [variables of make ..]
set -e
there=$(pwd)/build/cmake
rm -rf "$there"
mkdir -p "$there"

# builds the example against the prefix $1 in the folder $2 and compares what it prints
build() {
    cmake -S examples/cmake -B "$2" -DCMAKE_PREFIX_PATH="$1" > "$2.log"
    cmake --build "$2" >> "$2.log"
    "$2/rank" | cmp - examples/rank.out
    "$2/rank_static" | cmp - examples/rank.out
    "$2/blocks" | cmp - examples/cmake/blocks.out
    ldd "$2/rank" | grep -qF "$1"
    test -z "$(ldd "$2/rank_static" | grep blocktri)"
}

# asks find_package for a version ($1) in a project of its own
asks() {
    rm -rf "$there/ask"
    mkdir "$there/ask"
    printf 'cmake_minimum_required(VERSION 3.16)\nproject(ask C)\nfind_package(blocktri %s REQUIRED)\n%s\n' "$1" "$2" \
        > "$there/ask/CMakeLists.txt"
    cmake -S "$there/ask" -B "$there/ask/build" -DCMAKE_PREFIX_PATH="$there/a prefix" > "$there/ask/log" 2>&1
}

refuses() { ! asks "$1" && grep -q 'version: 1\.' "$there/ask/log"; }

$MAKE -s install "$@" DESTDIR= PREFIX="$there/a prefix" LIBDIR="$there/a prefix/lib" INCLUDEDIR="$there/a prefix/include"
build "$there/a prefix" "$there/first"
for version in 1 1.0 '' "$VERSION" "$VERSION EXACT"; do asks "$version"; done
asks 1.0 'if(TARGET blocktri::btf)
message(FATAL_ERROR "there is no libblocktri_btf.so")
endif()' || test -e "$there/a prefix/lib/libblocktri_btf.so"
touch "$there/a prefix/lib/libblocktri_btf.so"
asks 1.0 'if(NOT TARGET blocktri::btf)
message(FATAL_ERROR "there is a libblocktri_btf.so")
endif()'
for version in 2.0 1.99 0.1; do refuses "$version"; done
mv "$there/a prefix" "$there/moved"
build "$there/moved" "$there/second"
echo 'passed: CMake'
