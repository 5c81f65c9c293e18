# Prints the events that File::ChangeNotify reports for a directory, recursively.
use strict;
use warnings;
use File::ChangeNotify;
$| = 1;
my $watcher = File::ChangeNotify->instantiate_watcher(directories => [$ARGV[0]]);
while (my @events = $watcher->wait_for_events) {
    printf "%s %s\n", $_->type, $_->path for @events;
}
