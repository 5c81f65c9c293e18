#!/bin/sh
# inotify-hookable runs a command when something changes in a directory: inotify_hookable.sh DIRECTORY
exec inotify-hookable --watch-directories "$1" --buffer-time 1 --on-modify-command 'echo changed'
