# 100,000 calls on unwatched files.
echo 'create /f 644'
[ "$1" = setup ] && exit
awk 'BEGIN { for (i = 0; i < 50000; i++) { print "chmod /f 7"; print "stat /f" } }'
