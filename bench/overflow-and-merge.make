# A queue that is full: events that are merged with the last one, and events that are lost.
echo 'create /f 644'
echo 'create /g 644'
echo 'init 16'
echo 'watch 1 / 0x2'
[ "$1" = setup ] && exit
awk 'BEGIN {
    for (i = 0; i < 17000; i++) {
        print "truncate /f 1"
        print "truncate /f 1"
        print "truncate /g 1"
        if (i % 100 == 99) print "read 1 4096"
    }
}'
