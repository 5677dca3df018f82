#!/bin/sh
# check_shared.sh LIBRARY: checks that it needs only libc, and exports only the calls of lapd.h.
set -u
needed=$(ldd "$1" | sed 's/ (0x.*//' | grep -v -e linux-vdso -e ld-linux -e 'libc\.so')
[ -z "$needed" ] || { echo "it needs $needed"; exit 1; }
shown=$(nm -D --defined-only "$1" | awk '{ print $3 }' | grep -v -e '^lapd_' -e '^LAPD_')
[ -z "$shown" ] || { echo "it shows $shown"; exit 1; }
echo "check_shared: it needs libc alone, and shows $(nm -D --defined-only "$1" | grep -c ' T lapd_') calls"
