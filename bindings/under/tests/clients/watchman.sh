#!/bin/sh
# A watchman server, which the first command starts, sends a client the events that it subscribed to: watchman.sh DIRECTORY ROOM
directory=$1
room=$2/state
mkdir -m 700 "$room"
echo '{}' >"$room/config"
export WATCHMAN_CONFIG_FILE="$room/config"
ask() {
    watchman --no-save-state --sockname="$room/sock" --logfile="$room/log" --pidfile="$room/pid" --no-pretty "$@"
}
ask watch "$directory"
echo "[\"subscribe\", \"$directory\", \"all\", {\"fields\": [\"name\", \"exists\", \"type\"]}]" | ask -p -j
