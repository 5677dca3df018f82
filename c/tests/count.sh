#!/bin/sh
# count.sh COUNT [LIBPRI]: prints the instructions of each action of the program COUNT, and of those
# that the program LIBPRI has. Then the costs of a message over 1, 100 and 1000 pairs in turn, and of
# a side of 1000 pairs. An assigned TEI is one of eight, without the side's creation. Instructions and
# misses are those of two runs subtracted, so that a program's start does not count.
set -u
form='%-36s %8s %8s\n'
caches='--cache-sim=yes --I1=32768,8,64 --D1=32768,8,64 --LL=1048576,16,64'
# The instructions and first-level data misses of a run.
counted() {
	valgrind --tool=callgrind $caches --callgrind-out-file=/dev/null "$@" 2>&1 | awk '/Collected/ { print $4, $8 + $9 }'
}
# The same of each of so many actions.
each() {
	actions=$1
	shift
	echo "$(counted "$@" $((2 * actions))) $(counted "$@" "$actions")" |
		awk -v n="$actions" '{ printf "%d %.1f\n", ($1 - $3) / n, ($2 - $4) / n }'
}
# These two, and what the program prints itself (count_many in count.h).
measured() {
	echo "$(each 14000 "$@") $("$@" 210000)"
}
instructions() {
	each 2100 "$@" | cut -d ' ' -f 1
}
printf "$form" instructions liblapd libpri
for what in message window_message next_message poll tick deadline deadline_of_254; do
	theirs=-
	case $what in message | window_message | poll) [ $# -lt 2 ] || theirs=$(instructions "$2" $what) ;; esac
	printf "$form" $what "$(instructions "$1" $what)" "$theirs"
done
for what in release lost_frame expired_timer; do
	theirs=-
	[ $# -lt 2 ] || theirs=$(instructions "$2" $what)
	printf "$form" $what "$(instructions "$1" $what)" "$theirs"
done
theirs=-
[ $# -lt 2 ] || theirs=$(($(instructions "$2" assigned_tei) - $(instructions "$2" fresh_network)))
printf "$form" assigned_tei $(($(instructions "$1" assigned_tei) - $(instructions "$1" fresh_network))) "$theirs"
printf "\n$form" 'pairs, messages of each in turn' liblapd libpri
for pairs in 1 100 1000; do
	for messages in 1 7; do
		ours=$(measured "$1" many $pairs $messages)
		theirs='- - - - - -'
		[ $# -lt 2 ] || theirs=$(measured "$2" many $pairs $messages)
		echo "$ours $theirs" | awk -v form="$form" -v label="$pairs, $messages:" -v has_sides=$((pairs == 1000)) '
			function row(at, what) { printf form, label " " what, $at, $(at + 6) }
			{
				row(1, "instructions")
				row(2, "data misses")
				row(6, "nanoseconds")
				if (!has_sides)
					next
				row(3, "octets allocated a side")
				row(4, "octets resident a side")
				row(5, "nanoseconds to make it")
			}'
	done
done
