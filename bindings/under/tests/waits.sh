#!/bin/sh
# Each way to wait for an instance, on the tree and on a disk: waits.sh UNDER ROOM
set -u
. "$(dirname -- "$0")/checks"
tests=$(dirname -- "$0")
under=$1
room=$2
compile 'each way to wait' "$tests/waits.c" "$room/waits" -luring -lpthread || exit 0
for mode in $("$room/waits" --list); do
    disk=$(mktemp -d -p "$room")
    timeout 300 /usr/bin/python3 "$tests/disk.py" "$tests/waits.script" "$disk" -- "$room/waits" "$mode" "$disk/d" \
        >"$room/disk" 2>"$room/error"
    timeout 300 "$under" --settle 1500 "$tests/waits.script" -- "$room/waits" "$mode" /wt/d >"$room/tree" 2>>"$room/error"
    rm -r "$disk"
    if ! grep -q '^100 end$' "$room/disk"; then
        echo "FAILED $mode: on a disk: $(tail -n 2 "$room/disk" "$room/error" | tr '\n' ' ')"
    elif cmp -s "$room/disk" "$room/tree"; then
        echo "ok $mode"
    elif grep -q "^$mode: $(tail -n 1 "$room/tree")$" "$tests/waits.known"; then
        echo "ok $mode: $(tail -n 1 "$room/tree"), as is known"
    else
        echo "FAILED $mode: it printed $(tr '\n' ';' <"$room/tree"), and said $(tail -n 2 "$room/error" | tr '\n' ' ')"
    fi
done
