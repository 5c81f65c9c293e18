# Prints the events that Linux::Inotify2 reports for a directory.
use strict;
use warnings;
use Linux::Inotify2;
$| = 1;
my $inotify = Linux::Inotify2->new or die $!;
$inotify->watch($ARGV[0], IN_ALL_EVENTS, sub { printf "%x %s\n", $_[0]->mask, $_[0]->fullname }) or die $!;
$inotify->poll while 1;
