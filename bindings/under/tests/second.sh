#!/bin/sh
# Two programs, one of which changes the tree while the other one watches (--and): second.sh UNDER ROOM [LONG]. Prints
# `ok NAME`, `FAILED NAME: WHY` or `left out NAME: WHY` for each.
set -u
. "$(dirname -- "$0")/checks"
tests=$(CDPATH='' cd -- "$(dirname -- "$0")" && pwd)
under=$1
cd "$2" || exit 1
if ! command -v inotifywait >/dev/null; then
    echo "left out all of it: there is no inotifywait (inotify-tools)"
    exit 0
fi
export LC_ALL=C GIT_CONFIG_GLOBAL=/dev/null GIT_CONFIG_SYSTEM=/dev/null
export GIT_AUTHOR_NAME=a GIT_AUTHOR_EMAIL=a@b GIT_COMMITTER_NAME=a GIT_COMMITTER_EMAIL=a@b
export GIT_AUTHOR_DATE='@1000000000 +0000' GIT_COMMITTER_DATE='@1000000000 +0000'
# What the second programs copy.
export here="$PWD"

# What was printed is as wanted.   same NAME PRINTED WANTED
same() {
    [ "$2" = "$3" ]
    check "$1" "$2"
}

# ---- each in turn
echo 'mkdir /d 755' >script
: >empty
# shellcheck disable=SC2016
{
    same 'mkdir -p: each directory is watched before the next one is made' \
        "$("$under" script -- inotifywait -q -m -r -e create /wt/d --and mkdir -p /wt/d/a/b/c 2>&1)" \
        "$(printf '%s\n' '/wt/d/ CREATE,ISDIR a' '/wt/d/a/ CREATE,ISDIR b' '/wt/d/a/b/ CREATE,ISDIR c')"
    same 'a shell: each call in turn' "$("$under" script -- inotifywait -q -m -r -e create,move,delete /wt/d \
        --and sh -c 'cd /wt/d; echo 1 >f; mv f g; mkdir e; mv g e/h; rm -r e' 2>&1)" \
        "$(printf '%s\n' '/wt/d/ CREATE f' '/wt/d/ MOVED_FROM f' '/wt/d/ MOVED_TO g' '/wt/d/ CREATE,ISDIR e' \
            '/wt/d/ MOVED_FROM g' '/wt/d/e/ MOVED_TO h' '/wt/d/e/ DELETE h' '/wt/d/ DELETE,ISDIR e')"
    same 'without a script' "$("$under" -- inotifywait -q -m -e create /wt --and touch /wt/f 2>&1)" '/wt/ CREATE f'
    "$under" --out out script -- inotifywait -q -m -e create /wt/d --and \
        sh -c 'echo told; echo wrong >&2; echo 1 >/wt/d/f; exit 1' >said 2>&1
    same '--out' "$(cat said out/stdout out/and.stdout out/and.stderr out/schedule)" \
        "$(printf '%s\n' 'watchtree under: the second program, sh, ended with status 1' '/wt/d/ CREATE f' told wrong \
            'mkdir /d 755' -- '#@ and 3')"
    same 'the trace' "$(sed 's/^ok [0-9]*$/ok/' out/trace)" "$(printf '%s\n' '> mkdir /d 755' ok '> --' '# instance 1' \
        '# watch 1 /d 0x100: 1' '& create /d/f' '< 1 wd 1 CREATE name f' '& write /d/f' '& release /d/f' \
        '# close 1' '# ended by signal 15')"
    same 'what it left behind goes on' "$("$under" script -- inotifywait -q -m -e create,delete /wt/d --and \
        sh -c '{ for i in 1 2 3; do echo >/wt/d/$i; done; rm /wt/d/2; } & exit' 2>&1)" \
        "$(printf '/wt/d/ CREATE %s\n' 1 2 3; echo '/wt/d/ DELETE 2')"
    same 'it waits for what the client does' "$("$under" script -- sh -c 'inotifywait -q -e create /wt/d; touch /wt/answer
        inotifywait -q -e create /wt/d; inotifywait -q /wt' --and \
        sh -c 'touch /wt/d/1; until test -e /wt/answer; do :; done; touch /wt/d/2' 2>&1)" \
        "$(printf '/wt/d/ CREATE %s\n' 1 2)"
}

# ---- who is on its way to sleep is not at rest
if compile 'who is on its way to sleep' "$tests/drowsy.c" ./drowsy; then
    printf '%s\n' 'mkdir /d 755' -- 'create /d/1 644' 'create /d/2 644' 'create /d/3 644' 'create /d/4 644' >lines
    same 'on its way to sleep: a client' "$("$under" lines -- ./drowsy --count /wt/d 4 2>&1)" "$(seq 0 4)"
    # shellcheck disable=SC2016
    same 'on its way to sleep: one of two processes' "$("$under" script -- inotifywait -q -m -e create /wt/d \
        --and sh -c '"$here"/drowsy 60 touch /wt/d/1 & touch /wt/d/2; wait' 2>&1)" "$(printf '/wt/d/ CREATE %s\n' 1 2)"
fi

# ---- how runs end
# shellcheck disable=SC2016
watch='inotifywait -q -m -e create /wt/d'
# The status of a run, and what it said.   ends NAME STATUS MESSAGE WORDS..
ends() {
    name=$1 wanted=$2 message=$3
    shift 3
    timeout 100 "$under" "$@" >out.said 2>said
    status=$?
    # (an empty message is none)
    # A program that is ended while it prints may leave the front of a line before the message.
    [ "$status" = "$wanted" ] && if [ -n "$message" ]; then grep -qe "watchtree under: $message" said; else [ ! -s said ]; fi
    check "$name" "status $status: $(cat said)"
}
# (the words are several)
# shellcheck disable=SC2086,SC2016
{
    ends 'it ended with 0' 0 '' script -- $watch --and touch /wt/d/f
    ends 'it failed' 123 'the second program, sh, ended with status 3$' script -- $watch --and sh -c 'touch /wt/d/f; exit 3'
    ends 'it was killed' 123 'the second program, sh, was ended by signal 9$' script -- $watch --and \
        sh -c 'touch /wt/d/f; kill -9 $$'
    ends 'there is no such program' 127 'nosuch: No such file' script -- $watch --and nosuch
    ends 'it cannot be executed' 126 '/etc/passwd: ' script -- $watch --and /etc/passwd
    ends 'the client ends first' 123 'the second program, sh, was not over$' script -- inotifywait -q -e create /wt/d --and \
        sh -c 'for i in 1 2 3 4 5 6 7 8 9; do touch /wt/d/$i; done'
    ends 'the client fails' 7 'the second program, touch, was not over$' script -- sh -c 'exit 7' --and touch /wt/d/f
    ends 'nothing is delivered' 122 'nothing was delivered: ' script -- inotifywait -q -m -e delete /wt/d --and touch /wt/d/f
    ends 'it changes nothing' 122 'nothing was delivered: the second program changed nothing' script -- $watch --and true
    ends 'it sleeps for longer than --stall' 124 'stalled: ' --stall 500 script -- $watch --and sleep 30
    ends 'it has no inotify' 0 'the second program has no inotify: ' script -- $watch --and \
        sh -c 'inotifywait -q -t 1 /wt/d; touch /wt/d/f'
    ends 'no program behind --and' 125 '--and: there is no program' script -- $watch --and
    printf '%s\n' 'mkdir /d 755' -- 'create /d/f 644' >wrong
    ends 'a script with lines' 125 'line 3: with --and the second program makes' wrong -- $watch --and true
    printf '%s\n' 'mkdir /d 755' -- '#@ and 3' >turns
    ends 'turns without a second program' 125 'line 3: turns of a second program, and there is none' --schedule turns -- $watch
    printf '%s\n' '#@ and 3' 'mkdir /d 755' -- >turns
    ends 'turns in the set-up' 125 'line 1: turns of a second program before' --schedule turns -- $watch --and true
    mkfifo fifo
    ends 'a live script' 125 '--and: fifo is not a file' fifo -- $watch --and true <>fifo
}

# ---- nothing stays behind, whichever process is killed
# Kills a process of a run, the tool or the Nth below it, while a call of the second program waits.   killed NAME N STATUS
killed() {
    rm -f out.said
    "$under" --end none script -- sh -c 'inotifywait -q -e create /wt/d; exec sleep 85' --and \
        sh -c 'touch /wt/d/f; setsid sleep 84 & touch /wt/d/g; sleep 85' >out.said 2>said &
    tool=$!
    await grep -q CREATE out.said
    tasks=$(below "$tool")
    victim=$tool
    [ "$2" = 0 ] || victim=$(echo "$tasks" | sed -n "$2p")
    kill -9 "$victim"
    wait "$tool" 2>/dev/null
    status=$?
    # (the words are several)
    # shellcheck disable=SC2086
    [ "$status" = "$3" ] && await gone $tasks
    check "killed: $1" "status $status: $(cat said; ps -o pid,args -p "$(echo $tasks | tr ' ' ,)" 2>&1)"
}
killed 'the tool' 0 137
killed 'the process with the tree' 2 125
killed 'the supervisor of the client' 3 125
killed 'the client' 4 137
killed 'the supervisor of the second program' 5 125
killed 'the keeper of the second program' 6 125

# ---- locks: who waits for one of the other program lets it go on
cat >lists.py <<'END_OF_PROGRAM'
"""Lists a directory at each record, and at first: lists.py DIRECTORY. It prints each name once."""
import ctypes, os, sys
library, seen = ctypes.CDLL(None), set()
fd = library.inotify_init1(0)
library.inotify_add_watch(fd, os.fsencode(sys.argv[1]), 0x100)
while True:
    new = sorted(set(os.listdir(sys.argv[1])) - seen)
    seen.update(new)
    print(*new, flush=True)
    os.read(fd, 65536)
END_OF_PROGRAM
# (names without a slash: the directory is locked while the call waits)
# shellcheck disable=SC2016
relative='cd /wt/d && for i in 1 2 3 4 5 6; do mkdir $i || exit; done'
for seed in '' 1 2 3 4 5 6 7 8; do
    rm -rf out
    # (a word or none)
    # shellcheck disable=SC2086
    timeout 60 "$under" --stall 3000 ${seed:+--seed $seed} --out out script -- /usr/bin/python3 lists.py /wt/d \
        --and sh -c "$relative" 2>said
    status=$?
    [ "$status" = 0 ] && [ "$(tr -s '\n ' '\n' <out/stdout | sort | tr -d '\n')" = 123456 ]
    check "a directory that both have${seed:+, seed $seed}" "status $status: $(cat said out/stdout)"
    [ -n "$seed" ] || continue
    timeout 60 "$under" --out again --schedule out/schedule -- /usr/bin/python3 lists.py /wt/d --and sh -c "$relative" 2>>said
    [ "$?" = "$status" ] && diff -r out again >differs
    check "the same again, seed $seed" "$(head -n 10 differs)"
    rm -rf again
done

# ---- one trace in each run
runs=20
[ -z "${3-}" ] || runs=60
mkdir -p in/d/e 'in/a name' repository
echo one >in/d/one
ln in/d/one in/d/e/again
seq 2000 >in/d/e/numbers
echo run >'in/a name/100%'
chmod 750 in/d/one
(cd repository && git -c init.defaultBranch=main init -q && for i in 1 2 3 4 5 6; do mkdir -p "$((i % 3))"
    echo "file $i" >"$((i % 3))/$i"
done && git add -A && git commit -qm one && git checkout -qb other && git rm -rq 2 && git mv 1 8 && git commit -qm two &&
    git checkout -q main && git gc -q) 2>/dev/null

# Traces are the same but for what SED takes away.   every NAME PROGRAM SED TEXT OPTION..
every() {
    name=$1 random=$3 text=$4
    if ! command -v "$2" >/dev/null; then
        echo "left out $name: there is no $2"
        return
    fi
    shift 4
    rm -f first
    wrong=
    for i in $(seq "$runs"); do
        rm -rf out
        timeout 300 "$under" --quick --out out "$@" script -- inotifywait -q -m -r /wt/d --and sh -ec "cd /wt/d; $text" 2>said
        status=$?
        sed -E "$random" out/trace >trace
        [ -e first ] || cp trace first
        { [ "$status" = 0 ] && [ "$(grep -c '^&' trace)" -ge 4 ] && cmp -s first trace; } || { wrong=$i; break; }
    done
    [ -z "$wrong" ]
    check "$name: one trace in $runs runs" "run $wrong, status $status: $(cat said; diff first trace | head -n 8)"
}
# (git and rsync have random names, and git notes the number of the mount's device)
names='s/(tmp_[a-z]*_|\.git\/t|name t)[A-Za-z0-9]{6}/\1/g'
every 'sh and mv' sh '' 'mkdir -p a/b c; echo 1 >a/b/f; mv a c/a; echo 2 >>c/a/b/f; rm -r c'
every 'cp -a' cp '' 'cp -a "$here/in" in; cp -a in copy'
every 'rsync' rsync 's/\/\.([^ /]*)\.[A-Za-z0-9]{6}/\/.\1/g; s/ \.([^ /]*)\.[A-Za-z0-9]{6}/ .\1/g' 'rsync -a "$here/in/" a/; echo more >a/d/one; rsync -a a/ b/'
every 'git init and commit' git "$names" 'git -c init.defaultBranch=main init -q r; cd r; cp -r "$here/in" .; git add -A; git commit -qm one'
every 'git clone and checkout' git "$names" 'git clone -q "$here/repository" r; cd r; git checkout -q other'
every 'four processes at once' sh '' 'for i in 1 2 3 4; do (mkdir $i; echo $i >$i/f; mv $i/f $i/g) & done; wait'
every 'a seed' sh '' 'mkdir -p a/b c; echo 1 >a/b/f; mv a c/a; echo 2 >>c/a/b/f; rm -r c' --seed 3

# ---- a race of a real client
if command -v python3 >/dev/null; then
    # (what is made in a directory that is not watched yet is lost)
    cat >judge <<'END_OF_CHECK'
grep -qx '/wt/d/a/b/ CREATE,ISDIR c' "$WT_OUT/stdout"
END_OF_CHECK
    python3 "$tests/../../explore/main.py" --runner "$under" --command watchtree --seeds 1..40 --first --check "sh '$PWD/judge'" \
        --out failures --replays 20 script -- inotifywait -q -m -r -e create /wt/d --and mkdir -p /wt/d/a/b/c >said 2>&1
    status=$?
    [ "$status" = 1 ] && grep -q '^at rest: 3 turns of the second program, .*, the check passes$' said &&
        grep -q '^replayed 20 times, failed 20 times$' said && grep -q '^ *second   mkdir /d/a' said
    check 'explore: inotifywait -r loses what mkdir -p makes' "status $status: $(cat said)"
    "$under" --quick --out again --schedule failures/shrunk.schedule -- inotifywait -q -m -r -e create /wt/d --and mkdir -p /wt/d/a/b/c 2>said
    cmp -s again/schedule failures/shrunk.schedule && ! WT_OUT=again sh judge
    check 'explore: the shrunk schedule by under' "$(cat said; diff again/schedule failures/shrunk.schedule)"
    python3 "$tests/../../explore/main.py" --runner "$under" --command watchtree --moves 1 --check "sh '$PWD/judge'" \
        --out moved script -- inotifywait -q -m -r -e create /wt/d --and mkdir -p /wt/d/a/b/c >said 2>&1
    [ $? = 1 ] && grep -q '^shrunk by .*: 1 line, 1 move$' said
    check 'explore: the same by moves' "$(cat said)"
fi
