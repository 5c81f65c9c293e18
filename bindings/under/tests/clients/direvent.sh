#!/bin/sh
# direvent runs a command for each event of a directory, recursively: direvent.sh DIRECTORY ROOM
cat >"$2/direvent.conf" <<END
watcher {
    path "$1" recursive;
    command "echo \${genev_name} \${sysev_name} \$file >>$2/told";
    option (shell);
}
END
: >"$2/told"
direvent --foreground "$2/direvent.conf" >"$2/direvent.log" 2>&1 &
trap 'trap "" TERM; kill $!; wait; cat "$2/told"; exit 0' TERM
wait
