#!/bin/sh
# A list with `localise find` that leaves checkpoints, and goes on from those that killed runs left: from the newest pair that isn't refused
# (status 3, or 4 where it is too long), else from the beginning. The lines that refuse a pair go to standard error.
# usage: tools/go_on.sh PREFIX DESIGN TOP DUMP.. [OPTION..]
# The checkpoints of the first run begin with PREFIX.1, those of the next with PREFIX.2, and so on, so that none is written over another run's.
prefix=$1 last=0
shift

# Goes on from a pair, whose names come first; answers the status. (4 is the script's standard output)
go_on() {
    report=$1 log=$2
    shift 2
    {
        { "${LOCALISE:-localise}" find "$@" --resume "$report" --resume-log "$log" 3>&-; echo $? >&3; } |
            awk '/^(input|limit) / { print > "/dev/stderr"; next } { print; fflush() }' >&4
    } 3>&1
}

exec 4>&1
while [ -e "$prefix.$((last + 1))-1.log" ]; do last=$((last + 1)); done
next=$prefix.$((last + 1))
while [ "$last" -gt 0 ]; do
    left=$prefix.$last newer=1 older=2
    [ ! "$left-2.log" -nt "$left-1.log" ] || newer=2 older=1
    for pair in "$left-$newer" "$left-$older"; do
        [ -f "$pair.json" ] || continue
        status=$(go_on "$pair.json" "$pair.log" "$@" --checkpoint "$next")
        case $status in 3 | 4) ;; *) exit "$status" ;; esac
    done
    last=$((last - 1))
done
exec "${LOCALISE:-localise}" find "$@" --checkpoint "$next"
