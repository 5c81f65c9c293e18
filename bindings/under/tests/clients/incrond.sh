#!/bin/sh
# incrond runs a command for each event of a directory, by a table of the system: incrond.sh DIRECTORY ROOM
mkdir "$2/system" "$2/users"
printf '%s\n' "system_table_dir = $2/system" "user_table_dir = $2/users" "pidfile_dir = $2" \
    "lockfile_dir = $2" "lockfile_name = incrond" >"$2/incron.conf"
printf '#!/bin/sh\necho "$@" >>"%s"\n' "$2/told" >"$2/note"
chmod 755 "$2/note"
echo "$1 IN_ALL_EVENTS $2/note \$% \$#" >"$2/system/all"
: >"$2/told"
incrond -n -f "$2/incron.conf" >"$2/incrond.log" 2>&1 &
trap 'trap "" TERM; kill $!; wait; cat "$2/told"; exit 0' TERM
wait
