#!/bin/sh
# Links that are planted in the folder of --out: planted.sh UNDER. Nothing is written through one of them, and a line
# says what is in the way. Where this is root, the program that plants them is once root and once another user, whom the
# folder belongs to. Prints `ok NAME`, `FAILED NAME: WHY` or `left out NAME: WHY` for each.
set -u
. "$(dirname -- "$0")/checks"
under=$1
room=$(mktemp -d)
trap 'rm -rf "$room"' EXIT
chmod 755 "$room"
cd "$room" || exit 1
printf '%s\n' 'mkdir /d 755' 'create /d/f 644' >script

# A file and a folder that nothing may be written into, and a folder for --out in a folder of the program's user.
fresh() {
    rm -rf base target folder
    mkdir base base/out folder
    echo kept >target
    [ -z "$as" ] || chown 65534:65534 base base/out
}

# A run whose program has these words of a shell as its only ones, in the folder `base`.   run PROGRAM [OPTION..]
run() {
    program=$1
    shift
    # (the words are several)
    # shellcheck disable=SC2086
    timeout 60 "$under" --out base/out "$@" script -- \
        $as sh -c "cd '$room/base' && { $program; }" >said 2>err </dev/null
    status=$?
}

# Nothing was written into the file and the folder, and the run ended as wanted, with a line or none (`-`).
#   kept NAME STATUS PATTERN
kept() {
    if [ "$(cat target)" != kept ]; then
        echo "FAILED $1$who: into the file was written $(head -n 3 target | tr '\n' ' ')"
    elif [ -n "$(find folder -mindepth 1)" ]; then
        echo "FAILED $1$who: in the folder is $(find folder -mindepth 1 | tr '\n' ' ')"
    elif [ "$status" != "$2" ] || { [ "$3" != - ] && ! grep -q "$3" err said; }; then
        echo "FAILED $1$who: status $status: $(head -n 3 err | tr '\n' ' ')"
    else
        echo "ok $1$who"
    fi
}

during() {
    for name in trace schedule stdout stderr; do
        fresh
        run "rm -f out/$name; ln -s '$room/target' out/$name"
        kept "a link in place of $name" 125 "somebody moved .*/base/out/$name away during the run"
    done
    fresh
    run "ln -s '$room/target' out/listing"
    kept 'a link that is called listing' 125 'somebody made .*/base/out/listing during the run'
    fresh
    run "ln -s '$room/folder' out/tree"
    kept 'a link that is called tree' 125 'somebody made .*/base/out/tree during the run'
    fresh
    run "ln -s '$room/folder/none' out/tree"
    kept 'a link to nothing that is called tree' 125 'somebody made .*/base/out/tree during the run'
    fresh
    run "mkdir out/tree; ln -s '$room/folder' out/tree/d"
    kept 'a folder that is called tree, with a link' 125 'somebody made .*/base/out/tree during the run'
    fresh
    run "mv out away; ln -s '$room/folder' out"
    kept 'a link in place of the folder' 125 'base/out was moved away'
    fresh
    run "[ -e out/2 ] || ln -s '$room/folder' out/2" --seeds 1..2
    kept 'a link in place of the folder of a seed' 1 'seed 2 fails (status 125)'
}

before() {
    for name in trace schedule stdout stderr listing; do
        fresh
        ln -s "$room/target" "base/out/$name"
        run 'touch started'
        [ ! -e base/started ] || status=started
        kept "a link of earlier in place of $name" 125 "base/out/$name is no regular file"
        fresh
        ln target "base/out/$name"
        run 'ls /wt'
        kept "a hard link of earlier in place of $name" 0 -
    done
    fresh
    ln -s "$room/folder/none" base/out/tree
    run 'touch started'
    [ ! -e base/started ] || status=started
    kept 'a link to nothing of earlier in place of tree' 125 'base/out/tree is there already'
    fresh
    mkfifo base/out/trace
    run 'touch started'
    kept 'a FIFO in place of trace' 125 'base/out/trace is no regular file'
}

# What a user relies on: the files of an earlier run are replaced once its `tree` is gone, and what else is there stays.
again() {
    fresh
    echo own >base/out/own
    run 'echo first'
    rm -r base/out/tree
    run 'echo second'
    [ "$status" = 0 ] && [ "$(cat base/out/stdout)" = second ] && [ "$(cat base/out/own)" = own ] &&
        [ "$(cd base/out/tree && find . | sort | paste -sd ' ')" = '. ./d ./d/f' ] || status=wrong
    kept 'a second run with the same folder' 0 -
}

as='' who=''
during
before
again
if [ "$(id -u)" != 0 ] || ! command -v setpriv >/dev/null; then
    echo 'left out links of another user: it wants root and setpriv'
    exit 0
fi
as=$other who=', by another user'
during
before
