# An instance with 8,192 watches, and changes of the files that it watches.
echo 'init'
awk 'BEGIN {
    for (i = 0; i < 8192; i++) {
        print "create /" i " 644"
        print "watch 1 /" i " 0x2"
    }
}'
[ "$1" = setup ] && exit
awk 'BEGIN {
    for (i = 0; i < 30000; i++) {
        print "truncate /" i % 8192 " 1"
        if (i % 64 == 63) print "read 1 4096"
    }
}'
