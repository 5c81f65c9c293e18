# Changes of two files that 128 instances watch, each of which is then read.
echo 'mkdir /d 755'
echo 'create /d/f 644'
echo 'create /d/g 644'
awk 'BEGIN { for (i = 1; i <= 128; i++) { print "init"; print "watch " i " /d 0x2" } }'
[ "$1" = setup ] && exit
awk 'BEGIN {
    for (i = 0; i < 200; i++) {
        for (j = 0; j < 32; j++) print "truncate /d/" (j % 2 ? "f" : "g") " 1"
        for (j = 1; j <= 128; j++) print "read " j " 4096"
    }
}'
