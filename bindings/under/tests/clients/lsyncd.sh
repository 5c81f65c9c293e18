#!/bin/sh
# lsyncd mirrors a directory to a disk; what is there at the end is printed: lsyncd.sh DIRECTORY ROOM
mkdir "$2/target"
cat >"$2/lsyncd.conf" <<END
settings { nodaemon = true, inotifyMode = "CloseWrite or Modify" }
sync { default.rsync, source = "$1", target = "$2/target", delay = 0 }
END
lsyncd "$2/lsyncd.conf" >"$2/lsyncd.log" 2>&1 &
trap 'trap "" TERM; kill $!; wait; cd "$2/target" && find . | sort && cat end; exit 0' TERM
wait
