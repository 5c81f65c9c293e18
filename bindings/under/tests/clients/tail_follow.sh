#!/bin/sh
# tail -F follows a file that is written, replaced and written again: tail_follow.sh FILE
exec tail -F "$1" 2>&1
