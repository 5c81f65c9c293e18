#!/bin/sh
# Processes that change files at once, and others that watch them: together.sh UNDER ROOM [LONG]
set -u
. "$(dirname -- "$0")/checks"
tests=$(dirname -- "$0")
under=$1
room=$2
compile 'all of it' "$tests/together.c" "$room/together" || exit 0
echo 'mkdir /d 755' >"$room/directory"
for what in same watched; do
    rounds=2000
    [ -z "${3-}" ] || rounds=20000
    if timeout 900 "$under" "$room/directory" -- "$room/together" "$what" /wt/d "$rounds" >"$room/said" 2>&1; then
        echo "ok $what names: $(tail -n 1 "$room/said")"
    else
        echo "FAILED $what names: status $?: $(sort "$room/said" | uniq -c | sort -rn | head -n 4 | tr '\n' ' ')"
    fi
done
