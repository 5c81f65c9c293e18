# A pathname of 4,096 bytes.
long=/$(head -c 4095 /dev/zero | tr '\0' a)
echo "rename x $long"
echo "rename $long x"
echo "link /none $long"
echo "link /none x"
echo "link /none /n"
