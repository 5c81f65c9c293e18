# Prints the events that Filesys::Notify::Simple reports for a directory, recursively.
use strict;
use warnings;
use Filesys::Notify::Simple;
$| = 1;
my $watcher = Filesys::Notify::Simple->new([$ARGV[0]]);
$watcher->wait(sub { print "$_->{path}\n" for @_ }) while 1;
