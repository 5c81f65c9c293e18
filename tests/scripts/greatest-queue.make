# As many events wait as the greatest queue takes, no two neighbours equal, and two more.
awk 'BEGIN {
    print "create /a 644\ncreate /b 644\ninit 65535\nwatch 1 /a 0x4\nwatch 1 /b 0x4"
    for (i = 0; i < 65537; i++) print (i % 2 ? "chmod /b 1" : "chmod /a 1")
    print "read 1 1048560\nhex 1 4096\nread 1 16"
}'
