#!/bin/sh
# The same again gives the same trace, also beside eight busy processes: determinism.sh UNDER ROOM
set -u
. "$(dirname -- "$0")/checks"
tests=$(dirname -- "$0")
under=$1
room=$2
compile 'all of it' "$tests/waits.c" "$room/waits" -luring -lpthread || exit 0
compile 'all of it' "$tests/recursive.c" "$room/recursive" -static || exit 0
/usr/bin/python3 "$tests/determinism.py" --jobs 3 --count 20 "$under" "$room"
/usr/bin/python3 "$tests/determinism.py" --jobs 3 --count 20 --busy 8 "$under" "$room"
