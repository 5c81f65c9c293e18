#!/bin/sh
# lsyncd mirrors a directory to a disk. At the end what is there is printed, as `+ PATH`: lsyncd.sh DIRECTORY
room=$(mktemp -d)
mkdir "$room/target"
cat >"$room/conf" <<END
settings { nodaemon = true }
sync { default.rsync, source = "$1", target = "$room/target", delay = 0 }
END
lsyncd "$room/conf" >"$room/log" 2>&1 &
trap 'trap "" TERM; kill $!; wait; cd "$room/target" && find . -mindepth 1 | sed "s|^\.|+ $1|"; rm -rf "$room"; exit 0' TERM
wait
