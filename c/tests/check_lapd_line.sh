#!/bin/sh
# check_lapd_line.sh PROGRAM PAGE: checks the words and statuses of lapd-line, that a line that cannot
# be opened is reported, and that the manual page has the options and lines of the help, and no others.
set -u
program=$1 page=$2
place=$(mktemp -d)
trap 'rm -rf "$place"' EXIT

# wants STATUS TEXT WORD..: the status, and a part of what is printed
wants() {
	wanted=$1 text=$2
	shift 2
	timeout 20 "$program" "$@" >"$place/out" 2>&1
	status=$?
	[ $status = "$wanted" ] || { echo "lapd-line $*: status $status, not $wanted"; cat "$place/out"; exit 1; }
	grep -q -- "$text" "$place/out" || { echo "lapd-line $*: no '$text' in:"; cat "$place/out"; exit 1; }
}

wants 0 '^lapd-line [0-9]*\.[0-9]*\.[0-9]*$' --version
wants 0 '^usage: lapd-line ' --help
wants 0 '^usage: lapd-line ' -h
wants 2 'no line is named'
wants 2 'no line is named' --quiet
wants 2 'a line is named first' --listen 127.0.0.1:4000
wants 2 'follow a line' dahdi:16
wants 2 'follow a line' dahdi:16 --listen
wants 2 'follow a line' dahdi:16 4000 --listen
wants 1 'not a line' card:1 --listen 127.0.0.1:4000
wants 1 'the number of a channel' dahdi:x --listen 127.0.0.1:4000
wants 1 'its role' misdn:0 --listen 127.0.0.1:4000
wants 1 'not a path' unix: --listen 127.0.0.1:4000
wants 1 'cannot listen' "unix:$place/none/socket" --listen 127.0.0.1:4000
wants 1 'a port from 1 to 65535' "unix:$place/socket" --connect 127.0.0.1:0
[ ! -e "$place/socket" ] || { echo "lapd-line leaves a socket"; exit 1; }

# The options of the page, and the first words of its lines.
"$program" --help | grep '^ *--' | grep -o -- '--[a-z]*' | sort -u >"$place/help"
grep '^\.BR*I* *\\-\\-' "$page" | sed 's/\\-/-/g' | grep -o -- '--[a-z]*' | sort -u | diff "$place/help" - \
	|| { echo "the options of the help and of $page differ"; exit 1; }
for kind in dahdi misdn unix tcp; do
	"$program" --help | grep -q "  $kind:" && grep -q "^\.BI $kind: " "$page" || { echo "no line $kind"; exit 1; }
done
echo "check_lapd_line: statuses, reports, and the manual page"
