# Other languages over libblocktri. Makefile includes this.
#
#   make test-languages        builds and tests what follows, and says what it skips where a compiler is missing
#   make octave                build/octave: the functions for Octave with their mex file
#   make octave-package        build/blocktri-$(VERSION).tar.gz, for pkg install
#   make install-octave        puts the functions into Octave's site, or into the folder OCTAVE_DIR
#   make uninstall-octave

FC = gfortran
FORTRAN = $(FC) -std=f2018 -Wall -Werror $(FFLAGS)
FFLAGS ?= -O2 -g
EIGEN ?= /usr/include/eigen3
CXX_STANDARDS = c++17 c++20
FORTRAN_EXAMPLES = rank zero_free_diagonal circuit block_solve
OCTAVE_DIR ?= $(shell octave-config -p LOCALFCNFILEDIR)/blocktri
OCTAVE = octave-cli --norc --quiet --no-history

.PHONY: test-languages test-cpp test-eigen test-fortran test-cmake test-octave octave octave-package install-octave uninstall-octave

# a test where its tool is there: the tool, what is tested, the target
IF_THERE = if command -v $(1) > /dev/null; then $(MAKE) --no-print-directory $(3); else echo 'skipped: $(2), there is no $(1)'; fi

test-languages: all
	$(call IF_THERE,$(CXX),blocktri.hpp,test-cpp)
	if ! command -v $(CXX) > /dev/null; then :; elif test -e '$(EIGEN)/Eigen/SparseCore'; then \
	    $(MAKE) --no-print-directory test-eigen; else echo 'skipped: tests/cpp/eigen.cpp, there is no $(EIGEN)/Eigen/SparseCore'; fi
	$(call IF_THERE,$(FC),fortran,test-fortran)
	if command -v $(CXX) > /dev/null; then $(call IF_THERE,cmake,cmake,test-cmake); else echo 'skipped: cmake, there is no $(CXX)'; fi
	$(call IF_THERE,mkoctfile,matlab,test-octave)

# C++: blocktri.hpp in each standard; -isystem, since Eigen's headers warn

build/cpp_%: tests/cpp/%.cpp blocktri.hpp blocktri.h $(STATIC)
	for s in $(CXX_STANDARDS); do \
	    $(CXX) -std=$$s $(WARNINGS) $(CFLAGS) -I. -isystem '$(EIGEN)' -o $@ $< $(STATIC) && $@ || exit 1; \
	done

test-cpp: build/cpp_vectors
	@echo 'passed: C++'

test-eigen: build/cpp_eigen
	@echo 'passed: C++ with Eigen'

# Fortran

build/fortran/blocktri.o: fortran/blocktri.f90 fortran/blocktri_calls.inc
	mkdir -p build/fortran
	$(FORTRAN) -Jbuild/fortran -c -o $@ fortran/blocktri.f90

build/fortran/flow_sheet.o: examples/fortran/flow_sheet.f90 build/fortran/blocktri.o
	$(FORTRAN) -Jbuild/fortran -c -o $@ $<

build/fortran/%: examples/fortran/%.f90 build/fortran/flow_sheet.o $(SHARED)
	$(FORTRAN) -Ibuild/fortran -Jbuild/fortran -o $@ $< build/fortran/blocktri.o build/fortran/flow_sheet.o -Lbuild -lblocktri \
	    -Wl,-rpath,'$$ORIGIN/..'

build/fortran/calls: tests/fortran/calls.f90 build/fortran/blocktri.o $(STATIC)
	$(FORTRAN) -fcheck=bounds,mem,pointer,do -Ibuild/fortran -Jbuild/fortran -o $@ $< build/fortran/blocktri.o $(STATIC)

test-fortran: build/fortran/calls $(FORTRAN_EXAMPLES:%=build/fortran/%)
	build/fortran/calls
	for e in $(FORTRAN_EXAMPLES); do build/fortran/$$e > build/fortran/$$e.out && cmp build/fortran/$$e.out examples/$$e.out || exit 1; done
	@echo 'passed: Fortran'

# CMake

test-cmake:
	MAKE='$(MAKE)' VERSION=$(VERSION) tests/cmake/found.sh ARCHIVE='$(ARCHIVE)' HEAP='$(HEAP)'

# Octave

build/octave/blocktri_mex.mex: matlab/blocktri_mex.c blocktri.h $(STATIC)
	mkdir -p build/octave
	mkoctfile --mex -Wall -Wextra -Werror -I. -o $@ matlab/blocktri_mex.c $(STATIC)
	rm -f blocktri_mex.o

octave: build/octave/blocktri_mex.mex
	install -m 644 matlab/*.m build/octave

# the package holds the library, and compiles the mex file where it is installed
PACKAGE = build/package/blocktri-$(VERSION)
octave-package: $(STATIC)
	rm -rf build/package
	mkdir -p $(PACKAGE)/inst $(PACKAGE)/src
	sed 's|@VERSION@|$(VERSION)|' matlab/package/DESCRIPTION > $(PACKAGE)/DESCRIPTION
	install -m 644 ../LICENSE $(PACKAGE)/COPYING
	install -m 644 matlab/package/INDEX $(PACKAGE)
	install -m 644 $(filter-out matlab/blocktri_build.m,$(wildcard matlab/*.m)) $(PACKAGE)/inst
	install -m 644 matlab/package/src/Makefile matlab/blocktri_mex.c blocktri.h $(STATIC) $(PACKAGE)/src
	tar -C build/package -czf build/blocktri-$(VERSION).tar.gz blocktri-$(VERSION)

install-octave: octave
	install -d '$(DESTDIR)$(OCTAVE_DIR)'
	install -m 644 build/octave/*.m build/octave/blocktri_mex.mex '$(DESTDIR)$(OCTAVE_DIR)'

uninstall-octave:
	for it in matlab/*.m blocktri_mex.mex; do rm -f '$(DESTDIR)$(OCTAVE_DIR)'/"$$(basename "$$it")"; done
	rmdir '$(DESTDIR)$(OCTAVE_DIR)'

test-octave: octave octave-package
	MAKE='$(MAKE)' OCTAVE='$(OCTAVE)' VERSION=$(VERSION) tests/octave/installed.sh ARCHIVE='$(ARCHIVE)' HEAP='$(HEAP)'
