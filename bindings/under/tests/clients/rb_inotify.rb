# Prints the events that rb-inotify reports for a directory, recursively.
require 'rb-inotify'
$stdout.sync = true
notifier = INotify::Notifier.new
notifier.watch(ARGV[0], :create, :delete, :modify, :move, :attrib, :recursive) { |event| puts "#{event.flags.join(',')} #{event.absolute_name}" }
notifier.run
