#!/bin/sh
# What the runner leaves alone: safety.sh UNDER. Prints `ok NAME`, `FAILED NAME: WHY` or `left out NAME: WHY` for each.
set -u
. "$(dirname -- "$0")/checks"
under=$1
room=$(mktemp -d)
trap 'rm -rf "$room"' EXIT
cd "$room" || exit 1

# The trees that these processes see mounted.
mounts_of() { for pid; do grep -s 'fuse.watchtree' "/proc/$pid/mounts"; done; }

printf '%s\n' 'mkdir /d 755' 'create /d/old 644' -- 'create /d/f 644' >script
: >empty

# ---- a run that is killed
mkfifo lines
"$under" --trace lines -- sh -c 'inotifywait -q -m -r /wt; true' >out 2>trace &
tool=$!
exec 3>lines
printf '%s\n' 'mkdir /d 755' -- 'create /d/f 644' >&3
await grep -q 'CREATE name f' trace
check 'a live script' "$(cat trace)"
tasks=$(below "$tool")
[ "$(echo "$tasks" | wc -w)" -ge 3 ] && [ -n "$(mounts_of $tasks)" ]
check 'the run has processes and a mount' "$tasks"
kill -9 "$tool"
wait "$tool" 2>/dev/null
# (the words are several)
# shellcheck disable=SC2086
await gone $tasks
check 'a tool that was killed leaves no process' "$(ps -o pid,args -p "$(echo $tasks | tr ' ' ,)" 2>&1)"
# shellcheck disable=SC2086
[ -z "$(mounts_of $tasks)" ]
check 'a tool that was killed leaves no mount' "$(mounts_of $tasks)"
exec 3>&-

# The processes that have the folder of this test in their words.
named() { grep -slz "$room/[m]arker" /proc/[0-9]*/cmdline | cut -d / -f 3; }
unnamed() { [ -z "$(named)" ]; }
for delay in 0.00 0.01 0.02 0.03 0.04 0.05 0.06 0.07 0.08 0.10 0.12 0.14 0.16 0.18 0.20; do
    setsid "$under" script -- sh -c 'inotifywait -q -m /wt/d & while :; do ls /wt >/dev/null; done' "$room/marker" >out 2>&1 &
    tool=$!
    sleep "$delay"
    kill -9 "$tool"
    wait "$tool" 2>/dev/null
done
await unnamed
check 'a tool that was killed at any moment leaves nothing' "$(ps -o pid,args -p "$(named | paste -sd ,)" 2>&1)"
: >out
"$under" --end none script -- sh -c 'inotifywait -q -m /wt/d; sleep 1000' "$room/marker" >out 2>&1 &
tool=$!
await grep -q CREATE out
# (below the tool is the keeper, below that one the process with the tree, and its first child is the supervisor)
kill -9 "$(below "$tool" | sed -n 3p)"
wait "$tool"
status=$?
await unnamed
[ $? = 0 ] && [ "$status" = 125 ] && grep -q 'the supervisor of the system calls was ended' out
check 'a supervisor that was killed ends the run' "status $status: $(cat out)"

# ---- SIGINT and SIGTERM of the tool reach the program
mkfifo held
for signal in INT TERM; do
    : >trace
    # (a shell's background processes ignore SIGINT)
    env --default-signal=INT "$under" --trace held -- sh -c "trap 'echo told; exit 5' $signal; inotifywait -q -m /wt & wait" \
        >out 2>trace &
    tool=$!
    exec 3>held
    echo -- >&3
    await grep -q '# watch' trace
    kill -s "$signal" "$tool"
    wait "$tool"
    status=$?
    exec 3>&-
    [ "$status" = 5 ] && grep -q told out
    check "SIG$signal goes to the program" "status $status: $(cat out trace)"
done

setsid "$under" script -- sh -c 'trap "" USR1 ALRM; inotifywait -q -m -e create /wt/d & kill -USR1 0; kill -ALRM 0; wait' >out 2>&1
status=$?
[ "$status" = 0 ] && [ "$(cat out)" = '/wt/d/ CREATE f' ]
check 'a signal to the process group does not reach the tool' "status $status: $(cat out)"

# ---- two runs side by side
mkfifo first second
for name in first second; do
    "$under" --trace "$name" -- inotifywait -q -m /wt >"$name.out" 2>"$name.trace" &
done
exec 3>first 4>second
echo -- >&3
echo -- >&4
echo 'create /one 644' >&3
await grep -q one first.out
echo 'create /two 644' >&4
await grep -q two second.out
"$under" script -- inotifywait -q -e create /wt/d >third.out 2>&1
echo 'create /three 644' >&3
await grep -q three first.out
exec 3>&- 4>&-
wait
[ "$(grep -c CREATE first.out)" = 2 ] && [ "$(grep -c CREATE second.out)" = 1 ] && [ "$(cat third.out)" = '/wt/d/ CREATE f' ]
check 'two runs side by side, and a third' "$(cat first.out second.out third.out)"

# ---- what is outside
mkdir outside
echo text >outside/file
chmod 640 outside/file
before=$(stat -c '%a %u %g %s %Y %Z' outside/file)
"$under" script -- sh -c 'inotifywait -q -e create /wt/d >/dev/null; inotifywait -e open "$0"' "$room/outside" >out 2>&1
grep -q 'Permission denied\|Couldn.t watch' out && [ "$(grep -c 'a watch outside /wt is refused by EACCES' out)" = 1 ]
check 'a watch outside is EACCES' "$(cat out)"
"$under" --outside=ignore script -- inotifywait -q -m -e create /wt/d "$room/outside" >out 2>&1 && [ "$(cat out)" = '/wt/d/ CREATE f' ]
check 'unless it is to be ignored' "$(cat out)"
cat >descriptors.py <<'END'
"""Calls of descriptors that are no instances, and calls of instances that are no calls of inotify."""
import ctypes, errno, fcntl, os, sys, termios
library = ctypes.CDLL(None, use_errno=True)
path = sys.argv[1].encode()
def told(number):
    return "ok" if number >= 0 else errno.errorcode[ctypes.get_errno()]
instance = library.inotify_init()
print("watch", told(library.inotify_add_watch(instance, b"/wt/d", 0xfff)))
for name, call in (("chmod", lambda: library.fchmod(instance, 0o777)), ("chown", lambda: library.fchown(instance, 1, 1)),
                   ("truncate", lambda: library.ftruncate(instance, 0)), ("write", lambda: library.write(instance, b"x", 1)),
                   ("times", lambda: library.futimens(instance, None))):
    call()
print("tree", oct(os.stat("/wt/d/old").st_mode), oct(os.stat("/wt/d").st_mode), sorted(os.listdir("/wt/d")))
file = os.open(path, os.O_RDONLY)
print("watch by a file", told(library.inotify_add_watch(file, b"/wt/d", 0xfff)))
print("unwatch by a file", told(library.inotify_rm_watch(file, 1)))
waiting = fcntl.ioctl(file, termios.FIONREAD, b"\0\0\0\0")
print("FIONREAD of a file", int.from_bytes(waiting, "little"), os.read(file, 100))
print("watch outside", told(library.inotify_add_watch(instance, path, 0xfff)))
print("statfs outside", os.statvfs(path).f_namemax > 0)
print("link", told(library.linkat(-100, b"/proc/self/fd/%d" % instance, -100, b"/wt/link", 0x400)))
for name, call in (("rename", lambda: os.rename("/wt/d", "/wt/.watchtree-new")),
                   ("make", lambda: open("/wt/.watchtree-new", "w")),
                   ("instance", lambda: open("/wt/.watchtree-inotify")),
                   ("instance again", lambda: open("/proc/self/fd/%d" % instance))):
    try:
        call()
        print(name, "ok")
    except OSError as refused:
        print(name, errno.errorcode[refused.errno])
END
"$under" script -- /usr/bin/python3 descriptors.py "$room/outside/file" >out 2>err
printf '%s\n' 'watch ok' "tree 0o100644 0o40755 ['old']" 'watch by a file EINVAL' 'unwatch by a file EINVAL' \
    "FIONREAD of a file 5 b'text\\n'" 'watch outside EACCES' 'statfs outside True' \
    'link EXDEV' 'rename EPERM' 'make EPERM' 'instance ENOENT' 'instance again ENXIO' | diff - out >difference
check 'descriptors of others' "$(cat difference err)"
[ "$(stat -c '%a %u %g %s %Y %Z' outside/file)" = "$before" ]
check 'a file outside is as it was' "$(stat outside/file)"
[ ! -e /wt ] || [ -z "$(mountpoint -q /wt && echo mounted)" ]
check 'nothing is mounted outside' "$(grep watchtree /proc/self/mounts)"
"$under" --dir "$room/outside" script -- sh -c 'inotifywait -q -e create "$0/d"; ls "$0"' "$room/outside" >out 2>&1
[ "$(tail -n 1 out)" = d ] && [ "$(ls outside)" = file ]
check 'another directory' "$(cat out)"

# ---- what a caller may see of the way of a path
cat >rights.py <<'END'
import ctypes, errno, os, sys
library = ctypes.CDLL(None, use_errno=True)
instance = library.inotify_init1(os.O_NONBLOCK)
for name in ("there", "none"):
    refused = library.inotify_add_watch(instance, os.path.join(sys.argv[1], name).encode(), 0x100) < 0
    print(name, errno.errorcode[ctypes.get_errno()] if refused else "ok")
END
if [ "$(id -u)" = 0 ] && command -v setpriv >/dev/null; then
    mkdir secret
    touch secret/there
    chown 65534:65534 secret
    chmod 700 secret
    chmod 755 .
    # What is printed by a program that setpriv starts so.   rights WANTED WORDS..
    rights() {
        wanted=$1
        shift
        "$under" empty -- setpriv "$@" /usr/bin/python3 rights.py "$room/secret" >out 2>err
        [ "$(paste -sd ' ' out)" = "$wanted" ]
        check "the rights of setpriv $*" "$(cat out err)"
    }
    rights 'there EACCES none ENOENT' --no-new-privs
    rights 'there EACCES none ENOENT' --reuid=65534 --regid=65534 --clear-groups
    rights 'there EACCES none EACCES' --reuid=65533 --regid=65533 --clear-groups
    rights 'there EACCES none EACCES' --bounding-set=-all --inh-caps=-all
else
    echo 'left out the rights of others: it needs root and setpriv'
fi
