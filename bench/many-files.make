# Files in a hundred directories, made one after another.
awk 'BEGIN { for (i = 0; i < 100; i++) print "mkdir /d" i " 755" }'
[ "$1" = setup ] && exit
awk 'BEGIN { for (i = 0; i < 45000; i++) print "create /d" i % 100 "/f" i " 644" }'
