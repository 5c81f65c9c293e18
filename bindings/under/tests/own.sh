#!/bin/sh
# The events of a program's own calls, compared with a disk: own.sh UNDER ROOM
set -u
tests=$(dirname -- "$0")
under=$1
room=$2
mkdir -p "$room/own"
: >"$room/empty"
/usr/bin/python3 "$tests/own.py" "$room/own" >"$room/disk"
"$under" "$room/empty" -- /usr/bin/python3 "$tests/own.py" /wt >"$room/tree" 2>&1
rm -r "$room/own"
diff "$room/disk" "$room/tree" | grep '^[<>]' >"$room/differs"
if diff "$tests/own.known" "$room/differs" >"$room/unknown"; then
    echo "ok $(grep -c . "$room/tree") calls raise what they raise on a disk, but for $(grep -c '^>' "$room/differs")"
else
    echo "FAILED other differences from a disk than own.known has:"
    cat "$room/unknown"
fi
if grep -qx 'write it in ten pieces: CREATE h, OPEN h, MODIFY h, CLOSE_WRITE h' "$room/tree"; then
    echo "ok a file that is written in ten pieces raises one MODIFY"
else
    echo "FAILED a file that is written in ten pieces: $(grep pieces "$room/tree")"
fi
