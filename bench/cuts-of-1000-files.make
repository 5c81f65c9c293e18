# Cuts in a tree of 1,000 files.
awk 'BEGIN { for (i = 0; i < 1000; i++) print "create /" i " 644" }'
[ "$1" = setup ] && exit
awk 'BEGIN { for (i = 0; i < 1000; i++) print "cut" }'
