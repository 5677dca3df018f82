#!/bin/sh
# check_lines.sh FOLDER: runs the examples of this folder over lines of TCP and of sockets of Unix, and
# over a bridge of lapd-line between the two. TRIED may be a command that runs each, such as valgrind.
set -u
folder=$1 tried=${TRIED:-}
port=$((20000 + $$ % 12000))
place=$(mktemp -d)
trap 'rm -rf "$place"' EXIT
tcp=tcp:127.0.0.1:$port socket=unix:$place/socket

failed() {
	echo "check_lines: $1"
	cat "$place"/*.err
	exit 1
}

# Runs two programs with their words at the same time. Both must end with status 0.
both() {
	timeout 60 $tried "$folder"/$1 >"$place/one" 2>"$place/one.err" &
	process=$!
	timeout 60 $tried "$folder"/$2 >"$place/other" 2>"$place/other.err" || failed "$2: status $?"
	wait $process || failed "$1: status $?"
}

# terminals LINE LINE TEI [basic]: a network side and a user side, each at a line, and what both print.
terminals() {
	both "terminal net $1 ${4:-}" "terminal user $2 ${4:-}"
	cat "$place/one" "$place/other" | sed 's/.*: LAPD_\([A-Z_]*\) .*, \(TEI .*\)/\1 \2/' >"$place/seen"
	{
		[ $3 = 0 ] || echo "TEI_GIVEN TEI $3, 0 octets"
		echo "ESTABLISH_IND TEI $3, 0 octets"
		echo "DATA_IND TEI $3, 2 octets"
		echo "RELEASE_IND TEI $3, 0 octets"
		[ $3 = 0 ] || echo "TEI_GOT TEI $3, 0 octets"
		echo "ESTABLISH_CONF TEI $3, 0 octets"
		echo "ACKNOWLEDGED TEI $3, 0 octets"
		echo "RELEASE_CONF TEI $3, 0 octets"
	} | diff - "$place/seen" || failed "terminals at $1 and $2"
}

terminals "$tcp:listen" "$tcp" 0
terminals "$socket:connect" "$socket" 0
terminals "$tcp" "$tcp:listen" 64 basic

timeout 60 $tried "$folder/lapd-line" "$socket" --listen "127.0.0.1:$port" >"$place/bridge" 2>"$place/bridge.err" &
bridge=$!
terminals "$tcp" "$socket:connect" 0
kill $bridge
wait $bridge || failed "lapd-line: status $?"
grep -q "^$socket: down, [1-9][0-9]* frames received, [1-9][0-9]* sent" "$place/bridge" || failed "lapd-line: $(cat "$place/bridge")"

timeout 60 $tried "$folder/two_sides" "$tcp:listen" "$tcp" 2>"$place/one.err" | diff - tests/two_sides.out \
	|| failed "two_sides over TCP"
both "many net $tcp:listen user $socket net tcp:127.0.0.1:$((port + 1)):listen" \
	"many user $tcp net $socket:connect user tcp:127.0.0.1:$((port + 1))"
grep -q '^3 lines: 3 messages received, 3 acknowledged;' "$place/one" || failed "many: $(cat "$place/one")"
echo "check_lines: terminals at three kinds of lines and over lapd-line, two_sides and many"
