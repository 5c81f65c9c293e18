#!/bin/sh
# Scripts that come faster than their lines happen: live.sh UNDER ROOM. Prints `ok NAME`, `FAILED NAME: WHY` or
# `left out NAME: WHY` for each.
set -u
. "$(dirname -- "$0")/checks"
under=$1
cd "$2" || exit 1
if ! command -v inotifywait >/dev/null; then
    echo "left out all of it: there is no inotifywait (inotify-tools)"
    exit 0
fi

# Lines that write BYTES bytes each, COUNT of them.   lines COUNT BYTES
lines() {
    /usr/bin/python3 -c 'import sys
print("mkdir /d 755\ncreate /d/f 644\n--")
for _ in range(int(sys.argv[1])):
    print("write /d/f 0 " + "61" * int(sys.argv[2]))' "$1" "$2"
}

mkfifo script
lines 80 32768 >script &
timeout 200 "$under" script -- inotifywait -q -m -e modify /wt/d >out 2>err
status=$?
wait
[ "$status" = 0 ] && [ "$(grep -c 'MODIFY f' out)" = 80 ]
check 'a writer that has 5 MiB of lines ready' "status $status, $(grep -c MODIFY out) records: $(cat err)"
lines 2 1000000 | timeout 200 "$under" - -- inotifywait -q -m -e modify /wt/d >out 2>err
status=$?
[ "$status" = 0 ] && [ "$(grep -c 'MODIFY f' out)" = 2 ]
check 'lines of 2,000,000 bytes' "status $status, $(grep -c MODIFY out) records: $(cat err)"
lines 1 1500000 2>writer | timeout 200 "$under" - -- inotifywait -q -m -e modify /wt/d >out 2>err
status=$?
[ "$status" = 125 ] && grep -q '^watchtree under: -: a line is too long$' err
check 'a line of 3,000,000 bytes' "status $status: $(cat err)"

# The lines are in the pipe before the run begins, and the pipe stays open.
cat >full.py <<'END_OF_PROGRAM'
"""Fills a FIFO, and then runs the rest of its words."""
import fcntl, os, subprocess, sys
SET_PIPE_SIZE = 1031
fd = os.open("script", os.O_RDWR)
fcntl.fcntl(fd, SET_PIPE_SIZE, 1 << 20)
lines = b"mkdir /d 755\ncreate /d/f 644\n--\n" + (b"write /d/f 0 " + b"61" * 8000 + b"\n") * 40 + b"half a line"
if os.write(fd, lines) != len(lines):
    sys.exit("the pipe is too small")
sys.exit(subprocess.run(sys.argv[1:], check=False).returncode)
END_OF_PROGRAM
timeout 200 /usr/bin/python3 full.py "$under" --out left script -- true >out 2>err
status=$?
[ "$status" = 123 ] && grep -q ': 40 lines did not happen$' err && [ "$(grep -c '^write' left/schedule)" = 40 ]
check 'lines that came and did not happen' "status $status, $(grep -c '^write' left/schedule) left: $(cat err)"
