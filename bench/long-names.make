# Calls on a file whose path has three names of 28 bytes each, in a watched directory, with a read of its events.
top=/a-directory-with-a-long-name
path=$top/another-one-within-the-first
echo "mkdir $top 755"
echo "mkdir $path 755"
echo 'init'
echo "watch 1 $path 0xfff"
[ "$1" = setup ] && exit
awk -v at="$path" 'BEGIN {
    for (i = 0; i < 1000; i++) {
        print "create " at "/the-old-name-of-the-file.txt 644"
        print "write " at "/the-old-name-of-the-file.txt 0 6162"
        print "stat " at "/the-old-name-of-the-file.txt"
        print "chmod " at "/the-old-name-of-the-file.txt 600"
        print "rename " at "/the-old-name-of-the-file.txt " at "/the-new-name-of-the-file.txt"
        print "cat " at "/the-new-name-of-the-file.txt 0 16"
        print "unlink " at "/the-new-name-of-the-file.txt"
        print "read 1 4096"
    }
}'
