# Cuts in a tree of 10 files.
awk 'BEGIN { for (i = 0; i < 10; i++) print "create /" i " 644" }'
[ "$1" = setup ] && exit
awk 'BEGIN { for (i = 0; i < 20000; i++) print "cut" }'
