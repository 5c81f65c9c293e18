#!/bin/sh
# inoticoming runs a command for each file that is finished in a directory: inoticoming.sh DIRECTORY
exec inoticoming --foreground --initialsearch "$1" echo told '{}' \;
