# Prints the events that listen reports for a directory, recursively.
require 'listen'
$stdout.sync = true
listener = Listen.to(ARGV[0]) { |modified, added, removed| puts "modified #{modified.sort} added #{added.sort} removed #{removed.sort}" }
listener.start
sleep
