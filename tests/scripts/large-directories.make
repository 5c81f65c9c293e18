# A directory of 10,000 files is renamed back and forth a hundred times, and then exchanged with another such directory a
# hundred times: each file is found below the new path at once, and not below the old one. Exchanged once more with a
# watch on the root, it raises four events, and none for its descendants.
awk 'BEGIN {
    print "mkdir /a 755\nmkdir /b 755\nmkdir /e 755"
    for (i = 0; i < 10000; i++) print "create /a/" i " 644"
    for (i = 0; i < 10000; i++) print "create /b/" i " 600"
    for (i = 0; i < 100; i++) print "rename /a /e/a\nstat /e/a/9999\nstat /a/9999\nrename /e/a /a\nstat /a/0\nstat /e/a"
    for (i = 0; i < 100; i++) print "rename2 /a /b 2\nstat /a/9999\nstat /b/0"
    print "init\nwatch 1 / 0xfff\nwatch 1 /a/0 0xfff\nrename2 /a /b 2\nread 1 4096\nstat /a/9999\nstat /b/0"
}'
