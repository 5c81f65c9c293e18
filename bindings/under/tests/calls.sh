#!/bin/sh
# Calls of an instance, beside a disk, and calls that a tree does not have: calls.sh UNDER ROOM
set -u
. "$(dirname -- "$0")/checks"
tests=$(dirname -- "$0")
under=$1
room=$2
mkdir "$room/disk" "$room/one" "$room/two"
: >"$room/empty"
OUTSIDE=$room/one /usr/bin/python3 "$tests/calls.py" "$room/disk" instance >"$room/there" 2>&1
OUTSIDE=$room/two "$under" "$room/empty" -- /usr/bin/python3 "$tests/calls.py" /wt instance >"$room/here" 2>&1
diff "$room/there" "$room/here" | grep '^[<>]' >"$room/differs"
# (Linux lets only root watch an instance by its link in /proc)
watched=1
[ "$(id -u)" = 0 ] || watched=EACCES
sed "s/^< watch the instance: .*/< watch the instance: $watched/" "$tests/calls.known" >"$room/known"
if diff "$room/known" "$room/differs" >"$room/unknown"; then
    echo "ok $(grep -c . "$room/here") calls of an instance are answered as on a disk, but for $(grep -c '^>' "$room/differs")"
else
    echo "FAILED other differences from a disk than calls.known has:"
    cat "$room/unknown"
fi
"$under" "$room/empty" -- /usr/bin/python3 "$tests/calls.py" /wt refused >"$room/here" 2>"$room/error"
# (another user than root has no other users in his namespace)
owner=EPERM
[ "$(id -u)" = 0 ] || owner=EINVAL
sed "s/^chown to another: .*/chown to another: $owner/" "$tests/calls.refused" >"$room/refused"
if diff "$room/refused" "$room/here" >"$room/unknown"; then
    echo "ok $(grep -c . "$room/here") calls that a tree does not have are refused as docs/UNDER.md says"
else
    echo "FAILED calls that a tree does not have:"
    cat "$room/unknown" "$room/error"
fi

compile 'calls of a 32-bit program' "$tests/entry32.c" "$room/entry32" || exit 0
if ! "$room/entry32" "$room" | grep -q '^getpid: ok'; then
    echo 'left out calls of a 32-bit program: the kernel has no entry for them'
else
    "$under" "$room/empty" -- "$room/entry32" /wt >"$room/here" 2>"$room/error"
    printf '%s\n' 'getpid: ok' 'inotify_init: ENOSYS' 'inotify_init1: ENOSYS' 'inotify_add_watch: ENOSYS' \
        'inotify_rm_watch: ENOSYS' 'fanotify_init: ENOSYS' 'fcntl F_NOTIFY: EINVAL' 'fcntl64 F_NOTIFY: EINVAL' \
        'fcntl F_GETFL: ok' 'then by the other entry: ok' | diff - "$room/here" >"$room/unknown"
    if [ -s "$room/unknown" ]; then
        echo "FAILED calls of a 32-bit program: $(cat "$room/unknown" "$room/error" | tr '\n' ' ')"
    else
        echo 'ok calls of a 32-bit program are refused as docs/UNDER.md says'
    fi
fi
