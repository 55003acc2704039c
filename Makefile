# The usual entry points. `library` needs the Rattle kit that the file KIT names and takes minutes the first time; a tarball of `dist` brings
# the library ready-made, with an `install` of its own.
#
#   make library                     proves and writes target/lib/libtexture_tracker.a
#   make install PREFIX= DESTDIR=    installs the library, the headers, and files for pkg-config and CMake
#   make dist                        writes target/dist/texture_tracker-VERSION-x86_64-linux.tar.gz
#   make check                       runs the tests outside the proofs; .ci/run is the whole gate
PREFIX ?= /usr/local

.PHONY: library install dist check
library:
	tools/library

dist:
	dist/make

install: dist
	$(MAKE) --no-print-directory -C target/dist/tree install PREFIX="$(PREFIX)" DESTDIR="$(DESTDIR)"

check:
	tests/run
