# Two directories with ten thousand files below each, exchanged over and over.
awk 'BEGIN {
    for (i = 0; i < 2; i++) {
        print "mkdir /a" i " 755"
        for (j = 0; j < 10000; j++) print "create /a" i "/f" j " 644"
    }
}'
[ "$1" = setup ] && exit
awk 'BEGIN { for (i = 0; i < 30000; i++) print "rename2 /a0 /a1 2" }'
