#!/bin/sh
# What the sanitizers report of the runner is not lost: reports.sh UNDER ROOM. In a copy of the runner there is a fault
# of each kind, which it makes where the environment says so. Prints `ok NAME`, `FAILED NAME: WHY` or
# `left out NAME: WHY`.
set -u
tests=$(CDPATH='' cd -- "$(dirname -- "$0")" && pwd)
out=$(dirname "$1")
cd "$2" || exit 1
mkdir copy out
cp -r "$tests/../build" "$tests/../src" copy
cp "$out/libwatchtree.a" "$out/watchtree.h" out
cat >copy/src/command/fault.c <<'END_OF_SOURCE'
#include <limits.h>
#include <stdlib.h>
#include <string.h>
static volatile int most = INT_MAX;
static char *volatile block;

__attribute__((constructor)) static void make_fault(void) {
    const char *kind = getenv("FAULT");
    if (!kind) return;
    block = malloc(8);
    if (!strcmp(kind, "heap-buffer-overflow")) block[8] = 1;
    if (!strcmp(kind, "signed integer overflow")) most = most + 1;
    if (strcmp(kind, "memory leak")) free(block);
    block = NULL;
}
END_OF_SOURCE
WATCHTREE_OUT=$PWD/out sh copy/build sanitized 2>error
case $? in
    0) ;;
    3) echo "left out all of it: $(tail -n 1 error)"; exit 0 ;;
    *) echo "FAILED the runner with a fault was not built: $(tail -n 1 error)"; exit 1 ;;
esac
: >empty
for fault in heap-buffer-overflow 'signed integer overflow' 'memory leak'; do
    # (the runner's own output is dropped, as it is by some tests)
    FAULT=$fault sh "$tests/../reports" sh -c 'out/sanitized/under empty -- true 2>/dev/null; true' >said 2>&1
    if [ "$?" = 1 ] && grep -q "^FAILED a report: .*$fault" said; then
        echo "ok a $fault is reported"
    else
        echo "FAILED a $fault is not reported: $(head -n 3 said | tr '\n' ' ')"
    fi
done
if sh "$tests/../reports" out/sanitized/under empty -- true >said 2>&1 && [ ! -s said ]; then
    echo 'ok nothing is reported without a fault'
else
    echo "FAILED nothing is reported without a fault: $(head -n 3 said | tr '\n' ' ')"
fi
