# A directory with ten thousand files below it, renamed back and forth.
echo 'mkdir /a 755'
awk 'BEGIN {
    for (i = 0; i < 100; i++) {
        print "mkdir /a/d" i " 755"
        for (j = 0; j < 100; j++) print "create /a/d" i "/f" j " 644"
    }
}'
[ "$1" = setup ] && exit
awk 'BEGIN { for (i = 0; i < 20000; i++) { print "rename /a /b"; print "rename /b /a" } }'
