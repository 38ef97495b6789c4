#!/bin/sh
# Tests the functions for Octave as they are built, installed in a folder, compiled by blocktri_build, and as a package, and runs the
# example.
#
#   MAKE=make OCTAVE=octave-cli VERSION=1.0.0 tests/octave/installed.sh [variables of make ..]
set -e
there=$(pwd)/build/octave_test
rm -rf "$there"
mkdir -p "$there"
tests=$(pwd)/tests/octave

# runs statements of Octave, whose last words at its end are of no use
octave() { $OCTAVE --eval "$1" 2> "$there/errors" || { cat "$there/errors" >&2; return 1; }; }

octave "addpath('$tests', '$(pwd)/build/octave'); test_blocktri"

# in a folder of its own
$MAKE -s install-octave "$@" DESTDIR= OCTAVE_DIR="$there/a site"
octave "addpath('$there/a site'); assert(blocktri_sprank(speye(3)), 3)"
octave "addpath('$there/a site'); help blocktri_dmperm" | grep -q '\[P,Q,R,S,CC,RR\] = BLOCKTRI_DMPERM(A)'
$MAKE -s uninstall-octave "$@" DESTDIR= OCTAVE_DIR="$there/a site"
test ! -e "$there/a site"

# by blocktri_build, as in MATLAB
cp -r matlab "$there/built"
octave "addpath('$there/built'); blocktri_build('$(pwd)', '$(pwd)/build/libblocktri.a'); assert(blocktri_dmperm([0 1; 1 0]), [2 1])"
rm -f blocktri_mex.o

# as a package, in a tree of its own
packages="pkg('prefix', '$there/packages', '$there/packages'); pkg('local_list', '$there/packages.list');"
octave "$packages pkg('install', '-verbose', 'build/blocktri-$VERSION.tar.gz')" > "$there/pkg.log" || { cat "$there/pkg.log"; exit 1; }
octave "$packages pkg load blocktri; assert(pkg('list', 'blocktri'){1}.version, '$VERSION'); addpath('$tests'); test_blocktri" \
    | grep -qx 'passed: Octave'
octave "$packages pkg load blocktri; assert(isempty(strfind(which('blocktri_sprank'), 'build/octave/')))"
octave "$packages pkg uninstall blocktri"

# the example, and its picture where Octave can draw
octave "addpath('examples', 'build/octave'); block_form()" | cmp - examples/block_form.out
if octave "addpath('examples', 'build/octave'); block_form('$there/form.png')" > /dev/null 2>&1 && test -s "$there/form.png"; then
    :
else
    echo 'no picture of examples/block_form.m: Octave cannot draw here'
fi
