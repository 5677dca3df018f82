#!/bin/sh
# check_install.sh VERSION SONAME: checks that `make install` installs the libraries with their links, the
# headers, the pkg-config file and lapd-line with its page, under PREFIX and LIBDIR; that a program which is
# linked with the shared library and the D channel runs; that `make uninstall` leaves nothing; and that
# `make install-line` installs only the D channel.
set -eu
place=$(pwd)/out/installed version=$1 soname=$2
lib=$place/usr/lib64
rm -rf "$place"
to="PREFIX=/usr LIBDIR=/usr/lib64 DESTDIR=$place"
make -s install $to
(cd "$place" && find . ! -type d | sort) >out/files
sort <<END | diff - out/files
./usr/bin/lapd-line
./usr/include/lapd.h
./usr/include/lapd_heap.h
./usr/include/lapd_line.h
./usr/lib64/liblapd.a
./usr/lib64/liblapd_line.a
./usr/lib64/liblapd.so
./usr/lib64/$soname
./usr/lib64/liblapd.so.$version
./usr/lib64/pkgconfig/lapd.pc
./usr/share/man/man1/lapd-line.1
END
grep -q '^libdir=[$]{prefix}/lib64$' "$lib/pkgconfig/lapd.pc"
[ "$("$place/usr/bin/lapd-line" --version)" = "lapd-line $version" ]
# Only the installed headers are found: the sources are compiled in another folder.
cp two_sides.c example.c example.h "$place"
(cd "$place" && ${CC:-cc} -Iusr/include -o ../with_shared two_sides.c example.c -L"$lib" -llapd_line -llapd)
rm "$place/two_sides.c" "$place/example.c" "$place/example.h"
LD_LIBRARY_PATH=$lib ldd out/with_shared | grep -q "$soname => $lib/"
LD_LIBRARY_PATH=$lib out/with_shared | diff - tests/two_sides.out
make -s uninstall $to
[ -z "$(find "$place" ! -type d)" ] || { echo "uninstall leaves files"; exit 1; }
make -s install-line $to
for it in bin/lapd-line include/lapd_line.h lib64/liblapd_line.a share/man/man1/lapd-line.1; do rm "$place/usr/$it"; done
[ -z "$(find "$place" ! -type d)" ] || { echo "install-line installs other files"; exit 1; }
make -s install-line $to
make -s uninstall-line $to
[ -z "$(find "$place" ! -type d)" ] || { echo "uninstall-line leaves files"; exit 1; }
echo "check_install: liblapd.so.$version with its links, three headers, lapd.pc, and lapd-line"
