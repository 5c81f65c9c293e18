#!/bin/sh
# How runs end: nothing stays behind, whichever process is killed, and each signal comes once: ends.sh UNDER. Prints `ok NAME`,
# `FAILED NAME: WHY` or `left out NAME: WHY` for each.
set -u
. "$(dirname -- "$0")/checks"
under=$1
room=$(mktemp -d)
trap 'touch "$room/stop"; rm -rf "$room"' EXIT
cd "$room" || exit 1

mkfifo held
: >empty

# Starts a command as the leader of a process group. The FIFO is open in each process of it, but the supervisor.   start WORDS..
start() {
    rm -f started
    timeout 60 cat held >/dev/null &
    reader=$!
    exec 7>held
    env --default-signal setsid "$@" >out 2>err &
    tool=$!
    exec 7>&-
}

# Whether all processes of it are gone: the FIFO ends.   ended NAME
ended() {
    wait "$reader"
    check "$1" "processes are left; $(cat out err)"
}

# The first process that a process started.
# shellcheck disable=SC2046
child() { set -- $(cat /proc/"$1"/task/*/children) && echo "${1-}"; }

# What stays behind of a tool that gets SIGKILL once the program made the file `started`.   killed NAME PROGRAM-OF-SH
killed() {
    start "$under" --end none empty -- sh -c "$2"
    await test -e started || echo "FAILED $1: it did not start: $(cat err)"
    kill -9 "$tool"
    wait "$tool" 2>/dev/null
    ended "$1"
}

# ---- SIGKILL
killed 'killed: a session of its own' 'setsid sh -c "touch started; sleep 84" & sleep 85'
if unshare -m true 2>/dev/null; then
    killed 'killed: a mount namespace of its own' 'unshare -m sh -c "touch started; sleep 84" & sleep 85'
    killed 'killed: without /proc' 'umount -l /proc && touch started; sleep 84 & sleep 85'
    start "$under" empty -- sh -c 'umount -l /proc; sleep 84 & exit 3'
    wait "$tool"
    [ "$?" = 3 ]
    check 'the status without /proc' "$(cat err)"
    ended 'what is left behind without /proc'
else
    echo 'left out mount namespaces: they want root'
fi
if unshare -Urpf true 2>/dev/null; then
    killed 'killed: a PID namespace of its own' 'unshare -Urpf sh -c "touch started; sleep 84 & sleep 83" & sleep 85'
else
    echo 'left out a PID namespace: it wants user namespaces'
fi
# (a process that starts another one and ends, which does the same; without the mend one of ten may stay)
for i in 1 2 3 4 5 6 7 8 9 10; do
    killed "killed: a chain of processes, $i" 'next() { [ -e stop ] || next & exit 0; }; (next) & touch started; sleep 85'
done
touch stop

# What stays behind if the processes are killed that WHICH prints, and the status.   beside NAME STATUS WHICH
beside() {
    start "$under" --end none empty -- sh -c 'setsid sh -c "touch started; sleep 84" & sleep 85'
    await test -e started
    keeper=$(child "$tool")
    worker=$(child "$keeper")
    supervisor=$(child "$worker")
    # (so that killall(1) of the tool's name leaves it)
    [ "$(cat "/proc/$keeper/comm")" = wt-keeper ]
    check "the name of the keeper: $1" "$(cat "/proc/$keeper/comm")"
    # (the words are several)
    # shellcheck disable=SC2046
    kill -9 $(eval "echo $3") 2>/dev/null
    wait "$tool" 2>/dev/null
    status=$?
    [ "$status" = "$2" ]
    check "the status: $1" "status $status: $(cat err)"
    ended "$1"
}
# shellcheck disable=SC2016
{
    beside 'the keeper is killed' 125 '$keeper'
    beside 'the worker is killed' 125 '$worker'
    beside 'the supervisor is killed' 125 '$supervisor'
    beside 'the front and the keeper are killed' 137 '$tool $keeper'
    beside 'all are killed but the keeper' 137 '$tool $worker $supervisor'
    beside 'all are killed but the front' 125 '$keeper $worker $supervisor'
}

# ---- --seeds: where the folders of the runs are is in the name of the program's output, and in the environment of a check
# shellcheck disable=SC2016
run='out=$(readlink /proc/$$/fd/1); echo "$out" >folder; setsid sleep 84 & touch started; sleep 85'
# shellcheck disable=SC2016
judge='echo "$WT_OUT/stdout" >folder; setsid sleep 84 & touch started; sleep 85'

# The folder of all runs.
folder() { dirname "$(dirname "$(cat folder)")"; }

# A signal to the parent of runs, and the status.   seeds NAME SIGNAL STATUS WORDS..
seeds() {
    name=$1 signal=$2 wanted=$3
    shift 3
    start "$under" --seeds 1..3 --end none "$@"
    await test -e started
    [ -d "$(folder)" ]
    check "$name: there is a folder" "$(folder)"
    kill -s "$signal" "$tool"
    wait "$tool" 2>/dev/null
    status=$?
    [ "$status" = "$wanted" ]
    check "$name: the status" "status $status: $(cat out err)"
    ended "$name"
    await test ! -e "$(folder)"
    check "$name: no folder" "$(ls -R "$(folder)" 2>&1)"
}
seeds 'a run of --seeds, and its parent is killed' KILL 137 empty -- sh -c "$run"
seeds 'a check, and its parent is killed' KILL 137 --check "$judge" empty -- true
seeds 'SIGTERM in a run of --seeds' TERM 143 empty -- sh -c "trap 'echo program >told; exit 1' TERM; $run & wait"
[ "$(cat told)" = program ]
check 'SIGTERM goes to the program of --seeds' "$(cat told)"
seeds 'SIGTERM in a check' TERM 143 --check "trap 'echo check >told; exit 1' TERM; $judge & wait" empty -- true
[ "$(cat told)" = check ]
check 'SIGTERM goes to the check' "$(cat told)"
# shellcheck disable=SC2016
start "$under" --seeds 1..2 --end none empty -- sh -c 'setsid sleep 84 & echo $! >sleeper; touch started; sleep 85'
await test -e started
sleeper=$(cat sleeper)
rm started
kill -9 "$(child "$(child "$(child "$tool")")")"
await test -e started
! kill -0 "$sleeper" 2>/dev/null
check 'a worker of --seeds is killed: the next run starts when all of it has ended' "$sleeper"
kill "$tool"
wait "$tool"
above=$(sed -n 's/^seed 1 fails (status 125): //p' out)
[ -e "$above/trace" ] && grep -q 'the tool was ended by signal 9' err
check 'the status: a worker of --seeds is killed' "$(cat out err)"
[ -z "$above" ] || rm -rf "$(dirname "$above")"
ended 'a worker of --seeds is killed'
start "$under" --seeds 1..2 empty -- sh -c 'exit 3'
wait "$tool"
above=$(sed -n 's/^seed 1 fails (status 3): //p' out)
[ -e "$above/trace" ] && [ "$(tail -n 1 out)" = '2 of 2 seeds fail' ]
check 'what a seed that fails left is kept' "$(cat out)"
[ -z "$above" ] || rm -rf "$(dirname "$above")"
ended 'runs that fail'

# ---- each signal that is sent once comes once, and senders are gone
cat >count.py <<'END'
"""count.py WHOM COUNT: COUNT processes send one signal each to a process or a group, and are gone. Prints how many came.

Without COUNT others send it. A second signal to the tool, which is passed on behind all others, is the end."""
import os, signal, sys
ONE, LAST = signal.SIGRTMIN + 1, signal.SIGRTMIN + 2
signal.pthread_sigmask(signal.SIG_BLOCK, (ONE, LAST))
open("started", "w").close()
while not os.path.exists("tool"):
    os.sched_yield()
tool = int(open("tool").read())
for _ in range(int(sys.argv[2]) if len(sys.argv) > 2 else 0):
    child = os.fork()
    if child == 0:
        os.kill(tool if sys.argv[1] == "tool" else int(sys.argv[1]), ONE)
        os._exit(0)
    os.waitpid(child, 0)
if len(sys.argv) > 2:
    os.kill(tool, LAST)
came = []
while LAST not in came and None not in came:
    it = signal.sigtimedwait((ONE, LAST), 60)
    came.append(it and it.si_signo)
print(came.count(ONE), "" if LAST in came else " and no last one", sep="")
END
cat >burst.py <<'END'
"""Processes send a signal to their group that is not queued, so that two may become one. Prints how many came that nobody sent."""
import os, signal
ONE, LAST = signal.SIGUSR1, signal.SIGRTMIN + 2
signal.pthread_sigmask(signal.SIG_BLOCK, (ONE, LAST))
open("started", "w").close()
while not os.path.exists("tool"):
    os.sched_yield()
tool, late = int(open("tool").read()), 0
for _ in range(20):
    for _ in range(8):
        if os.fork() == 0:
            for _ in range(300):
                os.kill(0, ONE)
            os._exit(0)
    for _ in range(8):
        os.wait()
    signal.sigtimedwait((ONE,), 0)
    os.kill(tool, LAST)
    while signal.sigtimedwait((ONE, LAST), 60).si_signo != LAST:
        late += 1
print(late)
END

# What the counting program prints.   counts NAME WANTED WORDS..
counts() {
    name=$1 wanted=$2
    shift 2
    rm -f tool.new tool
    start "$under" "$@"
    echo "$tool" >tool.new
    mv tool.new tool
    await test -e started
    [ -z "${sends-}" ] || $sends
    wait "$tool"
    status=$?
    [ "$status" = 0 ] && [ "$(cat out)" = "$wanted" ]
    check "$name" "status $status: $(cat out err)"
    ended "$name: nothing is left"
}
counts 'signals of the run to its process group' 200 empty -- /usr/bin/python3 count.py 0 200
counts 'signals that become one' 0 empty -- /usr/bin/python3 burst.py
counts 'signals of the run to the tool' 200 empty -- /usr/bin/python3 count.py tool 200

# Signals from outside, of senders that are gone, and the last one.
outside() {
    for i in 1 2 3 4 5 6 7 8 9 10 11 12 13 14 15 16 17 18 19 20; do (kill -s RTMIN+1 -- "$whom"); done
    kill -s RTMIN+2 "$tool"
}
to_tool() { whom=$tool; outside; }
to_group() { whom=-$tool; outside; }
sends=to_tool
counts 'signals from outside to the tool' 20 empty -- /usr/bin/python3 count.py
sends=to_group
counts 'signals from outside to its process group' 20 empty -- /usr/bin/python3 count.py
counts 'signals to the group, which the program left' 20 empty -- sh -c 'exec setsid /usr/bin/python3 count.py'
