#!/bin/sh
# Random calls of a program, on the tree and on a disk: random.sh UNDER ROOM [LONG]
last=5
[ -z "${3-}" ] || last=30
if /usr/bin/python3 "$(dirname -- "$0")/random_runs.py" "$1" 1 "$last" >"$2/said" 2>&1; then
    echo "ok $(tail -n 1 "$2/said")"
else
    echo "FAILED random calls: $(tail -n 1 "$2/said")"
    cat "$2/said"
fi
