# Calls on a file whose path is eight names deep, in a watched directory, with a read of its events.
path=
for name in home user src project crates engine module; do
    path=$path/$name
    echo "mkdir $path 755"
done
echo 'init'
echo "watch 1 $path 0xfff"
[ "$1" = setup ] && exit
awk -v at="$path" 'BEGIN {
    for (i = 0; i < 2000; i++) {
        print "create " at "/old.txt 644"
        print "write " at "/old.txt 0 6162"
        print "stat " at "/old.txt"
        print "chmod " at "/old.txt 600"
        print "rename " at "/old.txt " at "/new.txt"
        print "cat " at "/new.txt 0 16"
        print "unlink " at "/new.txt"
        print "read 1 4096"
    }
}'
