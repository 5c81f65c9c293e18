#!/bin/sh
# Clients of inotify, beside the same on a disk: clients.sh UNDER ROOM
exec /usr/bin/python3 "$(dirname -- "$0")/clients.py" --jobs 3 "$1"
