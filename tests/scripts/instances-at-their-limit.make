# As many instances as may be open, and one more. The numbers of closed instances are not given again. Of the 128 that are
# open then, the first and the last watch a file, and only they are notified; of one that is closed nothing is read.
awk 'BEGIN {
    for (i = 0; i < 129; i++) print "init 1"
    print "close 1\ninit 1\nread 1 16\nclose 129"
    print "init 1\ncreate /f 644\nwatch 130 /f 0x2\nwatch 2 /f 0x2\ntruncate /f 3"
    for (i = 2; i <= 128; i++) print "read " i " 16"
    print "read 130 16\nread 130 16\nclose 2\ntruncate /f 0\nread 2 16\nread 130 16"
}'
