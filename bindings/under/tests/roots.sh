#!/bin/sh
# Paths of programs with another root, working directory, mounts or user, beside a tmpfs: roots.sh UNDER
set -u
. "$(dirname -- "$0")/checks"
tests=$(dirname -- "$0")
room=$(mktemp -d)
trap 'rm -rf "$room"' EXIT
chmod 755 "$room"
cp "$1" "$room/under"
if [ "$(id -u)" != 0 ] || ! unshare -m true 2>/dev/null || ! command -v setpriv >/dev/null; then
    echo 'left out the roots of callers: it wants root, unshare and setpriv'
    exit 0
fi
compile 'the roots of callers' "$tests/roots.c" "$room/roots" -static || exit 0
: >"$room/empty"
mkdir "$room/tree"
mknod -m 666 "$room/fuse" c 10 229

# Runs words in a namespace of mounts, after a command that mounts there, beside a new directory.
#   among OWNER COMMAND WORDS..
among() {
    owner=$1 command=$2
    shift 2
    rm -rf "$room/outside"
    mkdir "$room/outside"
    chown "$owner" "$room/outside"
    (cd "$room" && timeout 100 unshare -m sh -c "$command"' && exec "$@"' sh "$@")
}

# Compares a mode. Paths that match a pattern may be refused.   compare OWNER MODE USER REFUSED WORDS..
compare() {
    owner=$1 mode=$2 user=$3 refused=$4
    shift 4
    name="$mode, as $user of $owner"
    among "$owner" "mount -t tmpfs -o mode=755,uid=$owner tree tree" \
        "$@" "$room/roots" "$mode" "$user" "$room/tree" "$room/outside" >"$room/disk" 2>&1
    among "$owner" 'mount --bind fuse /dev/fuse' \
        "$@" "$room/under" --outside=ignore --dir "$room/tree" "$room/empty" -- \
        "$room/roots" "$mode" "$user" "$room/tree" "$room/outside" >"$room/here" 2>"$room/said"
    diff "$room/disk" "$room/here" | grep '^>' | grep -Ev "^> $refused: watch EACCES" >"$room/differs"
    if ! grep -q '^/etc:' "$room/disk"; then
        echo "FAILED $name: on a tmpfs: $(tail -n 1 "$room/disk")"
    elif [ -s "$room/differs" ] || [ "$(wc -l <"$room/disk")" != "$(wc -l <"$room/here")" ]; then
        echo "FAILED $name: $(wc -l <"$room/differs") of $(wc -l <"$room/disk") paths differ from a tmpfs:" \
            "$(head -n 3 "$room/differs" "$room/said" | tr '\n' ' ')"
    else
        echo "ok $name: $(wc -l <"$room/here") paths"
    fi
}

none='-'
# Of a /proc with other numbers of processes the supervisor does not know the caller's.
numbers='(/proc/(thread-)?self/.*|/dev/fd/0|own.*|here)'
modes='as-it-is root outside-root deep-in-root root-with-links pivot mounts over-proc proc shared'
for user in same nobody; do
    for mode in $modes root-with-proc; do compare 0 "$mode" "$user" "$none"; done
done
compare 0 numbers same "$numbers"
# (a program that changed its user may read its own directory of /proc, and others of that user may not)
compare 0 numbers nobody "(/proc/1/.*|$numbers)"

if ! $other unshare -U true 2>/dev/null; then
    echo 'left out the roots of other users: it wants user namespaces'
    exit 0
fi
# (the words are several)
# shellcheck disable=SC2086
{
    for mode in $modes; do
        compare 0 "$mode" mapped "$none"
        compare 65534 "$mode" mapped "$none" $other
    done
    compare 0 numbers mapped "$numbers"
    compare 65534 numbers mapped "$numbers" $other
    for mode in as-it-is proc shared; do compare 65534 "$mode" same "$none" $other; done
}

# A supervisor that cannot take the root of a caller refuses its paths.
among 0 : setpriv --bounding-set=-sys_chroot --inh-caps=-sys_chroot "$room/under" --outside=ignore --dir "$room/tree" \
    "$room/empty" -- "$room/roots" root mapped "$room/tree" "$room/outside" >"$room/here" 2>"$room/said"
if [ "$(grep -c ': watch EACCES watch of a link EACCES' "$room/here")" = 51 ]; then
    echo 'ok without CAP_SYS_CHROOT: no path of another root'
else
    echo "FAILED without CAP_SYS_CHROOT: $(grep -v ': watch EACCES' "$room/here" | head -n 3 | tr '\n' ' ')" \
        "$(tail -n 1 "$room/said")"
fi
