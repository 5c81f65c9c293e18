# A file that is made, written, renamed and unlinked in a watched directory, with a read of its events.
echo 'mkdir /d 755'
echo 'init'
echo 'watch 1 /d 0xfff'
[ "$1" = setup ] && exit
awk 'BEGIN {
    for (i = 0; i < 10000; i++) {
        print "create /d/f 644"
        print "write /d/f 0 6162"
        print "rename /d/f /d/g"
        print "unlink /d/g"
        print "read 1 4096"
    }
}'
