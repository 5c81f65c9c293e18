#!/bin/sh
# `watchtree record`: what real programs do, recorded and replayed: record.sh UNDER ROOM [LONG]. The replays by `run` use
# the program that `./watchtree run` built. Prints `ok NAME`, `FAILED NAME: WHY` or `left out NAME: WHY` for each.
set -u
. "$(dirname -- "$0")/checks"
tests=$(CDPATH='' cd -- "$(dirname -- "$0")" && pwd)
under=$1
program=${WATCHTREE_PROGRAM:-$tests/../../../crates/watchtree/out/watchtree}
cd "$2" || exit 1
export LC_ALL=C GIT_CONFIG_GLOBAL=/dev/null GIT_CONFIG_SYSTEM=/dev/null
export GIT_AUTHOR_NAME=a GIT_AUTHOR_EMAIL=a@b GIT_COMMITTER_NAME=a GIT_COMMITTER_EMAIL=a@b
export GIT_AUTHOR_DATE='@1000000000 +0000' GIT_COMMITTER_DATE='@1000000000 +0000'
# What the parts of a recording are called here: where it is, and where programs find what they copy.
export here="$PWD" listing="$tests/inside/listing"

record() { timeout 300 "$under" --record "$@"; }

# ---- programs, replayed in three ways

# The tree that a replay made is the recorded one.   same_tree NAME HOW
same_tree() {
    cmp -s recorded replayed
    check "$1, replayed $2" "$(diff recorded replayed | head -n 5; head -n 3 said)"
}

# The lines as the set-up of a program, one by one while a client watches, and by `run`.
replay() {
    grep -vxe -- script >set_up
    "$under" set_up -- sh "$listing" /wt >replayed 2>said
    same_tree "$1" 'by under before its program'
    rm replayed
    if command -v inotifywait >/dev/null; then
        "$under" --quick script -- sh -c 'trap "sh \"\$listing\" /wt >\"\$here/replayed\"; exit" TERM
            inotifywait -q -m -r /wt >"$here/events" & wait' 2>said
        # (the listing opens files, and makes none)
        [ $? = 0 ] && grep -q CREATE events
        check "$1, watched" "$(cat said)"
        same_tree "$1" 'by under at rest'
    fi
    [ -x "$program" ] || return
    /usr/bin/python3 "$tests/run_listing.py" "$program" script recorded >replayed 2>said
    same_tree "$1" 'by run'
}

# Two recordings are the same but for what a shell text takes away.   twice OPTION..
twice() {
    record --out again "$@" -- sh -ec "cd /wt; $text" >said 2>&1
    sh -c "$random" <script >one
    sh -c "$random" <again | diff one - >differs
    check "$name, recorded twice" "$(cut -c 1-100 differs | head -n 4)"
}

# Records a shell text, and replays it. RANDOM takes away what two recordings have not in common.
#   try NAME PROGRAM RANDOM TEXT OPTION..
try() {
    name=$1 random=$3 text=$4
    if ! command -v "$2" >/dev/null; then
        echo "left out $name: there is no $2"
        return
    fi
    shift 4
    record --out script "$@" -- sh -ec "cd /wt; $text
        sh \"\$listing\" /wt >\"\$here/recorded\"" >said 2>&1
    [ $? = 0 ] && [ -s recorded ] && [ "$(wc -l <script)" -gt 8 ]
    check "$name is recorded" "$(cat said)"
    replay "$name"
    twice "$@"
}

files=500 seeds=5
[ -z "${3-}" ] || seeds=40
mkdir -p in/d/e 'in/a name' repository
echo one >in/d/one
ln in/d/one in/d/e/again
seq 20000 >in/d/e/numbers
echo run >'in/a name/100%'
chmod 750 in/d/one
chmod 2711 in/d
: >in/empty
tar -cf in.tar -C in .
(cd repository && git -c init.defaultBranch=main init -q && for i in $(seq "$files"); do
    mkdir -p "$((i % 7))"
    echo "file $i" >"$((i % 7))/$i"
done && git add -A && git commit -qm one && git checkout -qb other && git rm -rq 3 && git mv 1 8 &&
    for i in 0 2; do for it in "$i"/*; do echo more >>"$it"; done; done && git add -A && git commit -qm two &&
    git checkout -q main && git gc -q) || echo 'left out a repository: git made none'
[ -x "$program" ] || echo 'left out replays by run: the program is not built'

# (git and rsync have random names, an index of git notes the number of the mount's device and a clone that of its process,
# sqlite3 has random numbers in its journal, and rsync two processes that change files)
names='sed -E "s/(tmp_[a-z]*_|\.git\/t)[A-Za-z0-9]{6}/\1/g; s/((\.keep|index\.lock) 0 ).*/\1/"'
try 'git init and commit' git "$names" 'git -c init.defaultBranch=main init -q r; cd r; cp -r "$here/in" .
    git add -A; git commit -qm one; test -z "$(git status --porcelain)"'
try 'git clone' git "$names" 'git clone -q "file://$here/repository" r; git clone -q "$here/repository" s'
try 'git checkout of a branch' git "$names" 'git checkout -q other; test ! -e 3; test -e 8' --from repository
try 'cp -a' cp cat 'cp -a "$here/in" in; cp -a in copy'
try 'rsync' rsync 'sed -E "s/\/\.([^ /]*)\.[A-Za-z0-9]{6}/\/.\1/g" | sort' 'rsync -a "$here/in/" a/; echo more >a/d/one; rsync -a --delete "$here/in/" a/'
try 'tar x' tar cat 'tar -xf "$here/in.tar"'
try 'mv of directories' mv cat 'mkdir -p a/b c; echo 1 >a/b/f; mv a c/a; cp -r "$here/in" .; mv in c/a/b; mv c/a/b z; mv -T z c/a/b'
try 'sqlite3' sqlite3 'sed -E "s/^(write [^ ]*-journal [0-9]* ).*/\1/"' 'for i in 1 2 3; do
    echo "create table t$i(a); insert into t$i values (1), (2), (3);" | sqlite3 db; done'
if command -v python3 >/dev/null && command -v inotifywait >/dev/null; then
    printf '%s\n' 'mkdir /d 755' >set_up
    record --out script set_up -- sh -c 'echo 1 >/wt/d/f; mv /wt/d/f /wt/d/g; rm /wt/d/g'
    python3 "$tests/../../explore/main.py" --runner "$under" --command watchtree --seeds 1..3 --check true --out failures \
        script -- inotifywait -q -m /wt/d >said 2>&1
    check 'a recording is a script of explore' "$(cat said)"
fi
wrong=
for seed in $(seq "$seeds"); do
    record --out script -- sh -c 'python3 "$1/random_calls.py" /wt "$2" 300 >/dev/null && sh "$listing" /wt >"$here/recorded"' \
        sh "$tests" "$seed" 2>said && grep -vxe -- script >set_up && "$under" set_up -- sh "$listing" /wt >replayed 2>said &&
        cmp -s recorded replayed || { wrong=$seed; break; }
done
[ -z "$wrong" ]
check "random calls of $seeds seeds" "seed $wrong: $(diff recorded replayed | head -n 5; cat said)"

if command -v git >/dev/null && command -v inotifywait >/dev/null; then
    sed -n 's/^    \.\/watchtree \(record\|under\) /\1 /p' "$tests/../../../docs/RECORD.md" |
        sed "s|^record |'$under' --record |; s|^under |'$under' |" >example
    sh example >printed 2>said
    [ "$(wc -l <example)" = 2 ] && grep -qx '/wt/r/.git/ CREATE config.lock' printed
    check 'the example of docs/RECORD.md' "$(head -n 3 printed said)"
fi

# ---- the script itself

# What is printed is as wanted.   same NAME FILE WANTED
same() {
    printf '%s\n' "$3" | diff "$2" - >differs
    check "$1" "$(cat differs said)"
}

record --out script --from in -- sh -c 'rmdir /wt/d; rm /wt/empty; ls /wt/d >/dev/null; cat /wt/d/one' >said 2>&1
same '--from: modes, hard links, names of any bytes' script "chmod / $(stat -c %a in)
mkdir /a%20name 755
create /a%20name/100%25 644
write /a%20name/100%25 0 72756e0a
mkdir /d 2711
mkdir /d/e 755
create /d/e/again 750
write /d/e/again 0 6f6e650a
create /d/e/numbers 644
write /d/e/numbers 0 $(xxd -p in/d/e/numbers | tr -d '\n')
link /d/e/again /d/one
create /empty 644
--
unlink /empty"
mkdir odd
ln -s nowhere odd/link
mkfifo odd/fifo
truncate -s 16777217 odd/long
record --out odd.script --from odd -- true 2>said
[ $? = 125 ] && grep -q 'odd/link is a symbolic link' said && grep -q 'odd/fifo is a FIFO' said &&
    grep -q 'odd/long is longer than 16 MiB' said && grep -q 'cannot hold 3 of the files of odd' said && [ ! -e odd.script ]
check '--from: what a tree cannot hold is named and refused' "$(cat said)"
printf '%s\n' 'create /d/f 600' cut 'create /d/g 600' -- 'unlink /d/f' >set_up
record --out script --from in set_up -- mv /wt/d/f /wt/h >said 2>&1
[ $? = 123 ] && [ "$(tail -n 4 script)" = "$(printf '%s\n' 'create /d/f 600' 'create /d/g 600' -- 'rename2 /d/f /h 1')" ]
check '--from and a script with a cut, whose last line the program does not wait for' "$(tail -n 4 script said)"
record --out script --limit 20000 --from in --dir "$here/in" -- rm "$here/in/empty" >said 2>&1
[ $? = 0 ] && [ -e in/empty ] && [ "$(tail -n 1 script)" = 'unlink /empty' ]
check '--from of the directory at which the tree is mounted' "$(cat said)"

(cd odd && rm -f ./* && record --from . -- true >script 2>../said)
same '--from of the directory that has the script' odd/script "chmod / $(stat -c %a odd)
--"

text='echo 12345678 >/wt/f; echo more >>/wt/f; echo 1 >/wt/g; truncate -s 3 /wt/g'
record --out full -- sh -c "$text" 2>said
record --out script --contents 4 -- sh -c "$text" 2>>said
same '--contents: the last byte of a longer write' script '--
create /f 644
write /f 8 0a
write /f 13 0a
create /g 644
write /g 0 310a
truncate /g 3
write /g 0 -'
if command -v inotifywait >/dev/null; then
    for it in full script; do "$under" --quick --out "$it.out" "$it" -- inotifywait -q -m /wt 2>said; done
    [ -s full.out/stdout ] && cmp -s full.out/stdout script.out/stdout && cmp -s full.out/listing script.out/listing
    check '--contents: the events and the sizes stay' "$(diff full.out/stdout script.out/stdout; cat said)"
fi
if command -v inotifywait >/dev/null; then
    record --looks -- sh -c 'mkdir -p /wt/d/e; rmdir /wt/d; echo 1 >/wt/f; cat /wt/f; inotifywait -q -t 1 -e modify /wt/f' \
        >script 2>said
    [ $? = 2 ] && [ "$(cut -d ' ' -f 1 script | tr '\n' ' ')" = '-- mkdir mkdir rmdir create write cat init watch close ' ]
    check '--looks, of a program that watches and ends by itself' "$(cat script said)"
    printf '%s\n' 'mkdir /d 755' -- 'create /d/f 644' 'unlink /d/f' >set_up
    record --end TERM --out script set_up -- inotifywait -q -m -e create /wt/d >said 2>&1
    [ $? = 0 ] && [ "$(cat said)" = '/wt/d/ CREATE f' ] && cmp -s set_up script
    check 'a script, and a watcher that is ended' "$(cat script said)"
fi
record -- sh -c 'echo printed; echo 1 >/wt/f; exit 7' >script 2>said
[ $? = 7 ] && grep -qx printed said
check 'the status of the program, and what it prints' "$(cat said)"
same 'the script on standard output' script '--
create /f 644
write /f 0 310a'
export calls='
import ctypes, mmap, os, socket
def attempt(call, *words):
    try:
        call(*words)
    except OSError:
        pass
attempt(os.pwrite, os.open("f", os.O_WRONLY), b"b", 1 << 24)
attempt(os.setxattr, "f", "user.a", b"b")
open("g", "w").write("g")
attempt(mmap.mmap, os.open("g", os.O_RDWR), 1)
ctypes.CDLL(None).renameat2(-100, b"g", -100, b"h", 4)
attempt(socket.socket(socket.AF_UNIX).bind, "s")'
record -- sh -c 'cd /wt; : >f; ln -s a "b
b"; mkfifo c; chown 1 f; fallocate -l 5 f; truncate -s 17000000 f; python3 -c "$calls"' \
    >script 2>said
names=$(sed -n 's/^watchtree record: after line [0-9]*: \([a-z0-9]* [^ ]*\): a tree cannot hold it.*/\1/p' said | tr '\n' ',')
# (of another user than root the kernel refuses the chown, and does not ask)
owner='chown /f,'
[ "$(id -u)" = 0 ] || owner=
[ "$names" = "symlink /b%0ab,mknod /c,${owner}fallocate /f,truncate /f,write /f,setxattr /f,renameat2 /g,bind /s," ]
check 'each call that cannot be recorded is named' "$names $(cat said)"
grep -qx 'watchtree record: mmap /wt/g with MAP_SHARED: a tree has none, .*' said
check 'a mapping that others would see written is named' "$(cat said)"

# ---- a script that is too long, or ends early

{ record -- sh -c 'cd /wt; for i in $(seq 100); do echo 1 >f$i; done' 2>said; echo "$?" >status; } | head -n 1 >script
[ "$(cat status)" = 125 ] && grep -q 'standard output: Broken pipe: the recording ends after [1-9][0-9]* lines$' said
check 'a pipe that nobody reads' "$(cat status said)"

text='head -c 600000 /dev/zero >/wt/f'
record --out script -- sh -c "$text" 2>said
[ $? = 125 ] && grep -q 'script has 1200029 bytes, .* 1048576: .* with --contents 0 it has 36$' said
check 'a script that is too long' "$(cat said)"
record --out script --contents 1000 -- sh -c "$text" >said 2>&1
check 'the same without contents' "$(cat said)"

# Each line of a script is whole, and runs.
is_whole() {
    grep -vxe -- script >set_up
    [ -s script ] && [ "$(tail -c 1 script | xxd -p)" = 0a ] && "$under" set_up -- true 2>said.run
}

text='cd /wt; for i in $(seq 1000); do seq 300 >f$i; done; while :; do :; done'
if [ "$(id -u)" = 0 ] && unshare -m true 2>/dev/null; then
    mkdir disk
    unshare -m sh -c 'mount -t tmpfs -o size=64k tmpfs disk && timeout 100 "$1" --record --out disk/script -- sh -c "$2"
        echo "$?" >status; cp disk/script .' sh "$under" "$text" >said 2>&1
    grep -q 'disk/script: No space left on device: the recording ends after [1-9][0-9]* lines$' said &&
        [ "$(cat status)" = 125 ] && [ "$(wc -l <script)" -gt 10 ] && is_whole
    check 'a full disk: the lines before are whole' "$(cat said said.run; wc script)"
else
    echo 'left out a full disk: it wants root and unshare'
fi
for signal in 2 15; do
    # (a shell starts what is in the background with SIGINT ignored)
    rm -f script
    env --default-signal=INT "$under" --record --out script -- sh -c "$text" 2>said &
    tool=$!
    await grep -q '^create /f20 ' script
    kill "-$signal" "$tool"
    wait "$tool"
    [ $? = $((128 + signal)) ] && grep -q "signal $signal ended the program" said && is_whole
    check "a program that signal $signal ends: the lines before are whole" "$(cat said said.run)"
done
mkfifo lines
env --default-signal=INT "$under" --record --out script lines -- true 2>said &
tool=$!
exec 3>lines
echo 'create /f 644' >&3
await grep -q '^create /f 644' script
kill -INT "$tool"
wait "$tool"
[ $? = 130 ] && grep -q 'signal 2 ended the run before the program started' said
check 'a signal before the program starts' "$(cat said)"
same 'the lines before that are there' script 'create /f 644'
exec 3>&-
