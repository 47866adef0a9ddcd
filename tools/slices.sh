#!/bin/sh
# Lists with `localise find` in slices: each goes on where the one before it stopped, with twice its budget, until the list ends otherwise
# than by its budget. So a run that is killed costs one slice: called again, it goes on from the pair that PREFIX.last names.
# usage: tools/slices.sh PREFIX BUDGET DESIGN TOP DUMP.. [OPTION..]
# Two pairs are written in turn, PREFIX-1.json with PREFIX-1.log, and PREFIX-2.json with PREFIX-2.log.
prefix=$1 budget=$2 last=0 next=1
shift 2
slice() {
    "${LOCALISE:-localise}" find "$@" --budget "$budget" --log "$pair.log" --report "$pair.json" > "$pair.txt"
}
[ ! -f "$prefix.last" ] || read -r last next budget < "$prefix.last"
while pair=$prefix-$next; do
    case $last in
        0) slice "$@" ;;
        *) slice "$@" --resume "$prefix-$last.json" --resume-log "$prefix-$last.log" ;;
    esac
    status=$?
    [ "$status" -eq 1 ] && tail -n 1 "$pair.txt" | grep -q budget || break
    last=$next next=$((3 - next)) budget=$((budget < 5000000 ? budget * 2 : 10000000))
    echo "$last $next $budget" > "$prefix.next" && mv "$prefix.next" "$prefix.last"
done
cat "$pair.txt"
exit "$status"
