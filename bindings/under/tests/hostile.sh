#!/bin/sh
# Names that look like lines of a trace: hostile.sh UNDER ROOM
set -u
tests=$(dirname -- "$0")
under=$1
room=$2
printf '%s\n' 'mkdir /d 755' -- 'create /e 644' 'list /d' >"$room/script"
for seed in 1 2; do
    "$under" --seed "$seed" --vary lines --out "$room/out$seed" "$room/script" -- \
        /usr/bin/python3 "$tests/hostile.py" /wt "$room/calls" >"$room/error" 2>&1
    cat "$room/out$seed/stderr" >>"$room/error" 2>/dev/null
    sed -n '/^#@/!p' "$room/out$seed/schedule" >"$room/happened"
    if what=$(/usr/bin/python3 "$tests/hostile.py" check "$room/out$seed/trace" "$room/happened" "$room/calls" 2>&1)
    then
        echo "ok names like lines of a trace, seed $seed: $what"
    else
        echo "FAILED names like lines of a trace, seed $seed: $what $(tail -n 3 "$room/error" | tr '\n' ' ')"
    fi
done
