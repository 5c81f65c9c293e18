#!/bin/sh
# What the runner says where something is missing or wrong, and its status: needs.sh UNDER. Prints `ok NAME`,
# `FAILED NAME: WHY` or `left out NAME: WHY` for each.
set -u
. "$(dirname -- "$0")/checks"
with_dev=$(CDPATH='' cd -- "$(dirname -- "$0")" && pwd)/with_dev
under=$1
room=$(mktemp -d)
trap 'rm -rf "$room"' EXIT
chmod 755 "$room"
cp "$under" "$room/under"
under=$room/under
cd "$room" || exit 1

# A run, its status, and a pattern of its one line on standard error (`-` for none).   expect NAME STATUS PATTERN WORDS..
expect() {
    name=$1 wanted=$2 pattern=$3
    shift 3
    timeout 200 "$@" >out 2>err </dev/null
    status=$?
    if [ "$status" != "$wanted" ]; then
        echo "FAILED $name: status $status, not $wanted: $(head -n 3 err | tr '\n' ' ')"
    elif [ "$pattern" = - ] && [ -s err ]; then
        echo "FAILED $name: it says $(head -n 3 err | tr '\n' ' ')"
    elif [ "$pattern" != - ] && [ "$(grep -c '^watchtree under: ' err)" -gt 2 ]; then
        echo "FAILED $name: too many lines: $(head -n 5 err | tr '\n' ' ')"
    elif [ "$pattern" != - ] && ! grep -Eq "^watchtree under: .*$pattern" err; then
        echo "FAILED $name: it says $(head -n 3 err | tr '\n' ' ')"
    else
        echo "ok $name"
    fi
}

: >empty
printf '%s\n' 'mkdir /d 755' >first
printf '%s\n' 'mkdir /d 755' -- 'create /d/f 644' >script
printf '%s\n' 'mkdir /d 755' -- 'create /d/f 644' 'create /d/g 644' >two
printf '%s\n' 'mkdir /d 755' -- 'create /d/f 644' 'crate /d/g 644' >fault
printf '%s\n' 'mkdir /d 755' -- 'create /d/f 9' >mode
printf '%s\n' 'create /d/f 644' 'mkdir /d 755' -- 'create /d/g 644' >order
printf '%s\n' '# a comment' 'mkdir d 755' >relative
printf '%s\n' 'mkdir /d 755' -- 'create /d/f 644' 'unlink /d/none' >refused
printf '%s\n' 'mkdir /d 755' -- 'write /d/f 0 00' >refused-alone

# Takes a record of its own, and watches nothing of the script.
cat >own-record.py <<'END'
import ctypes, os
library = ctypes.CDLL(None)
instance = library.inotify_init1(0)
library.inotify_add_watch(instance, b"/wt", 0x100)
open("/wt/own", "w").close()
os.read(instance, 4096)
os.read(instance, 4096)
END

# ---- the script and the program
expect 'an empty script' 0 - "$under" empty -- ls /wt
expect 'the status of the program' 7 - "$under" empty -- sh -c 'exit 7'
expect 'the signal of the program' 137 - "$under" empty -- sh -c 'kill -9 $$'
expect 'no such script' 125 'none: No such file' "$under" none -- ls /wt
expect 'a fault of the script' 125 'line 4' "$under" fault -- touch "$room/started"
expect 'a bad mode' 125 'line 3' "$under" mode -- touch "$room/started"
refused="line 1: 'create /d/f 644' before .--. is refused: err ENOENT 2\$"
expect 'a refused line before the first mark' 125 "$refused" "$under" order -- touch "$room/started"
expect 'a refused line of a script without a mark' 125 "line 2: 'mkdir d 755' before .--. is refused: err E" \
    "$under" relative -- touch "$room/started"
expect 'a refused line before the first mark of a pipe' 125 "$refused" \
    sh -c 'cat order | "$0" - -- touch "$1/started"' "$under" "$room"
[ ! -e started ] && echo 'ok a fault is found before the start' || echo 'FAILED a fault is found before the start: it started'
expect 'no such program' 127 'no-such-program: No such file' "$under" script -- no-such-program
expect 'no program' 126 'Permission denied' "$under" script -- "$room/script"
expect 'no words' 125 - sh -c '"$0" 2>&1' "$under"
expect 'no program named' 125 - sh -c '"$0" script 2>&1' "$under"
expect 'a bad number' 125 'settle.*bad value' "$under" --settle soon script -- ls
printf '%s\n' 'watch 1 / 256' >mask
expect 'a bad mask' 125 'line 1: bad mask: it is 0x and 1 to 8 hexadecimal digits' "$under" mask -- true
expect 'an unknown option' 125 - sh -c '"$0" --no-such script -- ls 2>&1' "$under"
expect 'a program that ends early' 123 '2 lines did not happen' "$under" two -- true
expect 'a program that fails early' 3 '2 lines did not happen' "$under" two -- sh -c 'exit 3'
expect 'a program that ends at the first' 123 '1 line did not happen' "$under" two -- inotifywait -q -e create /wt/d
expect 'a program that never asks' 124 stalled "$under" --stall 500 script -- sleep 60
expect 'a program that watches something else' 122 'nothing was delivered: the program took no record' \
    "$under" script -- inotifywait -q -m -e delete /wt/d
expect 'a line that is refused' 0 - "$under" refused -- inotifywait -q -m -e create /wt/d
expect 'a line alone that is refused' 122 'nothing was delivered' "$under" refused-alone -- inotifywait -q -m -e create /wt/d
expect 'a watcher without lines' 122 'nothing was delivered: no line stands after a line --' "$under" first -- inotifywait -q -m /wt/d
expect 'a watcher without a script' 122 'nothing was delivered: no line stands after' "$under" empty -- inotifywait -q -m /wt
expect 'a watcher without lines that ends by itself' 0 'nothing was delivered: no line stands after' \
    "$under" --settle 2000 empty -- sh -c 'inotifywait -q -t 1 /wt || true'
expect 'records of the program alone' 122 'nothing was delivered: the program took no record' "$under" script -- /usr/bin/python3 own-record.py
expect 'a program in --out that is not there' 127 'no-such-program: No such file' "$under" --out out-none script -- no-such-program
expect 'a program that does not heed SIGTERM' 137 'did not end by the signal, and was killed' "$under" script -- sh -c 'trap "" TERM; inotifywait -q -m /wt/d; sleep 30'
expect 'a program that is ended by SIGKILL, as it is asked to be' 0 - \
    "$under" --end KILL script -- sh -c 'trap "" TERM; inotifywait -q -m /wt/d'
expect 'a program that asks no instance' 124 'the run was not over after 300 ms .--limit.' \
    "$under" --limit 300 empty -- sleep 1000
expect 'a program that works on and on' 124 'the run was not over after 300 ms' \
    "$under" --limit 300 empty -- sh -c 'while :; do :; done'
expect 'a limit that a run keeps' 0 - "$under" --limit 200000 script -- inotifywait -q -m -e create /wt/d
expect 'a limit of --seeds' 1 'the run was not over after 300 ms' "$under" --limit 300 --seeds 1..1 --out out-limit empty -- sleep 1000
expect 'a check that is never over' 1 'seed 1: the check was not over after 300 ms .--limit.' \
    "$under" --limit 300 --seeds 1..1 --out out-check --check 'sleep 1000 & sleep 1000' empty -- true
expect 'a bad limit' 125 'limit: bad value .0.: expected a number from 1' "$under" --limit 0 empty -- true
expect 'only lines before the first mark' 0 - "$under" first -- ls /wt/d
expect 'a run within a run' 125 'do not nest|another seccomp listener' \
    sh -c '"$0" empty -- "$0" empty -- true 2>err2; s=$?; cat err2 >&2; exit $s' "$under"

# ---- the machine
if [ "$(id -u)" != 0 ] || ! unshare -m true 2>/dev/null || ! command -v setpriv >/dev/null; then
    echo 'left out what the machine lacks: it needs root, unshare and setpriv'
    exit 0
fi
mkdir dev
expect 'no /dev/fuse' 125 'no FUSE: load it by .modprobe fuse.' "$with_dev" none dev "$under" empty -- true
# (the words are several)
# shellcheck disable=SC2086
{
    expect '/dev/fuse of root alone' 125 '/dev/fuse cannot be opened .Permission denied.: make it readable' \
        "$with_dev" 600 dev $other "$under" empty -- true
    expect 'another user than root' 0 - "$with_dev" 666 dev $other "$under" script -- inotifywait -q -m /wt/d
    expect 'another user has no root' 0 - \
        "$with_dev" 666 dev $other "$under" empty -- sh -c 'touch /wt/f && ! touch /f 2>/dev/null'
    # (in a chroot a user can make no namespaces)
    mkdir root
    expect 'no user namespace' 125 'no user namespace .*: allow them' "$with_dev" 666 dev unshare -m sh -c \
        'mount --rbind / "$1/root" && cd "$1" && exec chroot "$1/root" '"$other"' "$1/under" "$1/empty" -- true' sh "$room"
    expect 'root without CAP_SYS_ADMIN' 125 'no mount namespace .*CAP_SYS_ADMIN' \
        setpriv --bounding-set=-sys_admin --inh-caps=-sys_admin "$under" empty -- true
}
