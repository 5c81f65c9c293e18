#!/bin/sh
# stress-ng on the tree: stress.sh UNDER ROOM [LONG]
if ! command -v stress-ng >/dev/null; then
    echo "left out all of it: there is no stress-ng"
    exit 0
fi
: >"$2/empty"
seconds=1
[ -z "${3-}" ] || seconds=3
# (it works for more than a minute after its last record. The stressor of inotify that misses one waits for it for a second, and
# says nothing; the runner then takes the program for one that has nothing more to do, and ends it)
echo "the last is nothing is left"
exec "$1" --stall 600000 "$2/empty" -- sh "$(dirname -- "$0")/inside/stress" /wt "$seconds"
