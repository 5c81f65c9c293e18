#!/bin/sh
# The options, and the example of docs/UNDER.md: options.sh UNDER ROOM
set -u
under=$1
docs=$(CDPATH='' cd -- "$(dirname -- "$0")/../../../docs" && pwd)
cd "$2" || exit 1

# What was printed is as wanted.   same NAME PRINTED WANTED
same() {
    if [ "$2" = "$3" ]; then echo "ok $1"; else echo "FAILED $1: $(printf '%s' "$2" | tr '\n' ';' | cut -c 1-400)"; fi
}

if ! command -v inotifywait >/dev/null; then
    echo "left out all of it: there is no inotifywait (inotify-tools)"
    exit 0
fi
sed -n '/^    printf/,/^$/s/^    //p' "$docs/UNDER.md" | sed "s|\./watchtree under|$under|" >example
same 'the example of docs/UNDER.md' "$(sh example 2>&1)" "$(printf '/wt/d/ CREATE f\n/wt/d/ DELETE f\n')"
printf '%s\n' 'mkdir /d 755' -- 'create /d/f 644' 'unlink /d/f' >script
same 'standard input as the script' "$(printf '%s\n' -- 'create /f 644' | "$under" - -- inotifywait -q -m -e create /wt 2>&1)" \
    '/wt/ CREATE f'
"$under" --out out script -- sh -c 'echo told >&2; inotifywait -q -m -e create /wt/d' >printed 2>&1
same '--out: nothing is printed' "$(cat printed)" ''
same '--out: stdout and stderr' "$(cat out/stdout out/stderr)" "$(printf '/wt/d/ CREATE f\ntold')"
same '--out: the listing' "$(cut -d ' ' -f 1,2,3 out/listing)" "$(printf '/ dir 755\n/d dir 755')"
same '--out: the tree' "$(cd out/tree && find . | sort)" "$(printf '.\n./d')"
same '--out: the trace' "$(sed 's/^ok [0-9]*$/ok/' out/trace)" "$(printf '%s\n' '> mkdir /d 755' ok '> --' '# instance 1' \
    '# watch 1 /d 0x100: 1' '> create /d/f 644' ok '< 1 wd 1 CREATE name f' '> unlink /d/f' ok '# close 1' \
    '# ended by signal 15')"
"$under" --trace script -- inotifywait -q -m -e create /wt/d >printed 2>trace
same '--trace is what --out has' "$(cat trace)" "$(cat out/trace)"
same '--out of an earlier run' "$("$under" --out out script -- true 2>&1 | grep -c 'there already')" 1
deep=$(printf 'a/%.0s' $(seq 100))
same '--out: a tree that has more levels than the tool may have descriptors' \
    "$(prlimit --nofile=64 "$under" --out deep /dev/null -- mkdir -p "/wt/$deep" 2>&1
       find deep/tree -type d | wc -l)" 101
same '--dir' "$("$under" --dir /elsewhere script -- inotifywait -q -m -e create /elsewhere/d 2>&1)" '/elsewhere/d/ CREATE f'
printf '%s\n' 'mkdir /d 755' -- 'create /d/1 644' 'create /d/2 644' 'create /d/3 644' >many
# (it asks first, and then sleeps while the records of all lines come: they come once it wakes)
cat >queue.py <<'END'
import ctypes, os, struct
library = ctypes.CDLL(None)
fd = library.inotify_init1(os.O_NONBLOCK)
library.inotify_add_watch(fd, b"/wt/d", 0x100)
for name in "abc":
    open("/wt/d/" + name, "w").close()
stored, at, masks = os.read(fd, 4096), 0, []
while at < len(stored):
    _, mask, _, size = struct.unpack_from("iIII", stored, at)
    masks.append(hex(mask))
    at += 16 + size
print(*masks)
END
: >empty
same '--queue' "$(sed 's/^--$//' script | head -n 1 | "$under" --queue 2 - -- /usr/bin/python3 queue.py 2>&1)" '0x100 0x100 0x4000'
same '--end INT' "$("$under" --end INT script -- sh -c 'trap "echo told; exit" INT; inotifywait -q -m -e create /wt/d & wait' 2>&1)" \
    "$(printf '/wt/d/ CREATE f\ntold')"
same '--end none' "$("$under" --end none script -- inotifywait -q -t 1 -e delete_self /wt/d 2>&1; echo $?)" 2
same '--one-cpu' "$("$under" --one-cpu script -- sh -c 'nproc; inotifywait -q -m -e create /wt/d' 2>&1)" "$(printf '1\n/wt/d/ CREATE f')"
same '--seeds, --check' "$("$under" --seeds 1..3 --check 'test "$WT_SEED" != 2 && test -s "$WT_OUT/trace"' script -- \
    inotifywait -q -m -e create /wt/d 2>said | sed 's/ fails.*/ fails/')" "$(printf 'seed 2 fails\n1 of 3 seeds fail')"
