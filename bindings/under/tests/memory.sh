#!/bin/sh
# Calls with memory that may not be read or written, beside a tmpfs: memory.sh UNDER
set -u
. "$(dirname -- "$0")/checks"
tests=$(CDPATH='' cd -- "$(dirname -- "$0")" && pwd)
room=$(mktemp -d)
trap 'rm -rf "$room"' EXIT
under=$1
cd "$room" || exit 1
mounts='unshare -m'
[ "$(id -u)" = 0 ] || mounts='unshare -rm'
if ! $mounts true 2>/dev/null; then
    echo "left out calls with memory: it wants $mounts"
    exit 0
fi
compile 'calls with memory' "$tests/memory.c" memory || exit 0
: >empty
mkdir disk
$mounts sh -c 'mount -t tmpfs tmpfs disk && exec ./memory disk' >there 2>&1
"$under" empty -- ./memory /wt >here 2>said
if [ "$(tail -n 1 there)" != 'statfs at the end of the memory: EFAULT' ]; then
    echo "FAILED calls with memory: on a tmpfs: $(tail -n 1 there)"
elif diff there here >differs; then
    echo "ok $(wc -l <here) calls with memory are answered as on a tmpfs"
else
    echo "FAILED calls with memory: $(grep -c '^>' differs) of $(wc -l <there) differ:" \
        "$(head -n 5 differs said | tr '\n' ' ')"
fi
