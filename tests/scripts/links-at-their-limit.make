# A file of 65,000 paths, and one path more.
awk 'BEGIN {
    print "create /f 644"
    for (i = 1; i < 65000; i++) printf "link /f /l%x\n", i
    print "link /f /g\nstat /f\nunlink /l1\nlink /f /g\nlink /f /h\nstat /g"
}'
