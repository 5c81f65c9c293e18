# 8,192 watches of an instance, and one more.
awk 'BEGIN {
    print "init"
    for (i = 1; i <= 8193; i++) printf "create /%x 644\n", i
    for (i = 1; i <= 8193; i++) printf "watch 1 /%x 0x4\n", i
    print "watch 1 /1 0x2\nunwatch 1 1\nwatch 1 /2001 0x4\nwatch 1 /1 0x4\ninit\nwatch 2 /1 0x4"
}'
