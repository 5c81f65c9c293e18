#!/bin/sh
# Ordinary programs on the tree, and on a disk, where all of them work: programs.sh UNDER ROOM. programs.known
# lists what does not work on the tree.
set -u
tests=$(dirname -- "$0")
under=$1
room=$2
mkdir -p "$room/programs"
: >"$room/empty"
timeout 600 sh "$tests/inside/programs" "$room/programs" >"$room/disk" 2>&1
sed -n 's/^FAILED \([^:]*\)/FAILED \1 on a disk/p' "$room/disk"
rmdir "$room/programs"
timeout 600 "$under" "$room/empty" -- sh "$tests/inside/programs" /wt >"$room/tree" 2>&1 || echo "FAILED the run: status $?"
while IFS= read -r line; do
    name=${line#* }
    name=${name%%: *}
    if ! grep -qxF "$name" "$tests/programs.known"; then
        echo "$line"
    elif [ "${line%% *}" = FAILED ]; then
        echo "ok $name: refused, as is known: ${line##*: }"
    else
        echo "FAILED $name: it works now, so programs.known has it no longer"
    fi
done <"$room/tree"
