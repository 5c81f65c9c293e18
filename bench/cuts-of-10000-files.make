# Cuts in a tree of 10,000 files.
awk 'BEGIN { for (i = 0; i < 10000; i++) print "create /" i " 644" }'
[ "$1" = setup ] && exit
awk 'BEGIN { for (i = 0; i < 100; i++) print "cut" }'
