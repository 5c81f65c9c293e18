#!/bin/sh
# A recursive watcher that only watches new directories loses entries under some seed, and one that also looks into them
# under none: seeds.sh UNDER ROOM [LONG]
set -u
. "$(dirname -- "$0")/checks"
tests=$(dirname -- "$0")
under=$1
room=$2
compile 'static programs' "$tests/recursive.c" "$room/recursive" -static || exit 0
last=30
[ -z "${3-}" ] || last=100
# (a word or none)
# shellcheck disable=SC2086
seeds() {
    timeout 900 "$under" --settle 30 --seeds "1..$last" --check "sh '$tests/race-check'" "$tests/race.script" -- \
        "$room/recursive" /wt/d $1 2>&1 | grep -v '^watchtree under: ' | tail -n 2
}
said=$(seeds '')
case $said in
    "0 of "*) echo "FAILED the wrong watcher: $said" ;;
    *" of $last seeds fail") echo "ok the wrong watcher: ${said##*
}" ;;
    *) echo "FAILED the wrong watcher: $said" ;;
esac
said=$(seeds correct)
if [ "$said" = "0 of $last seeds fail" ]; then echo "ok the right watcher: $said"; else echo "FAILED the right watcher: $said"; fi
