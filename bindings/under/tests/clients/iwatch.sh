#!/bin/sh
# iwatch prints each event of a directory, recursively: iwatch.sh DIRECTORY
exec iwatch -r -e all_events "$1" 2>&1
