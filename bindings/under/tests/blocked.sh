#!/bin/sh
# Calls that wait for a file system or a page of the program's own hold up no others: blocked.sh UNDER
set -u
. "$(dirname -- "$0")/checks"
tests=$(dirname -- "$0")
under=$1
room=$(mktemp -d)
trap 'rm -rf "$room"' EXIT
if [ "$(id -u)" != 0 ] || ! unshare -m true 2>/dev/null; then
    echo 'left out calls that wait for the program: it wants root and unshare'
    exit 0
fi
compile 'calls that wait for the program' "$tests/blocked.c" "$room/blocked" -lpthread || exit 0
: >"$room/empty"
# (as on most machines; the supervisor needs some descriptors for each call)
ulimit -S -n 1024
mkdir "$room/disk" "$room/own"
timeout -k 5 100 unshare -m sh -c 'mount -t tmpfs tmpfs "$1/disk" && exec "$1/blocked" "$1/disk" "$1/own"' sh "$room" \
    >"$room/there" 2>&1
timeout -k 5 100 "$under" "$room/empty" -- "$room/blocked" /wt "$room/own" >"$room/here" 2>"$room/said"
if grep -q '^userfaultfd: ' "$room/there"; then
    echo 'left out calls that wait for the program: it wants a kernel with userfaultfd'
    exit 0
fi
if ! grep -q '^of 500 calls that waited 1 are answered, and 499 are ENOENT' "$room/there"; then
    echo "FAILED calls that wait for the program: on a tmpfs: $(tail -n 1 "$room/there")"
elif cmp -s "$room/there" "$room/here"; then
    echo 'ok calls that wait for the program hold up no others'
else
    echo "FAILED calls that wait for the program: $(diff "$room/there" "$room/here" | head -n 4 | tr '\n' ' ')" \
        "$(tail -n 1 "$room/said")"
fi

# Each call that waits takes a thread of the supervisor, and address space for its stack.
timeout -k 5 100 prlimit --as=200000000: "$under" "$room/empty" -- \
    prlimit --as=unlimited: "$room/blocked" /wt "$room/own" many >"$room/here" 2>"$room/said"
if [ "$(tr '\n' ' ' <"$room/here")" = 'a further call: ENOMEM a call after them: ok ' ]; then
    echo 'ok a call for which the supervisor has no thread is ENOMEM'
else
    echo "FAILED a call for which the supervisor has no thread: $(tail -n 3 "$room/here" "$room/said" | tr '\n' ' ')"
fi
