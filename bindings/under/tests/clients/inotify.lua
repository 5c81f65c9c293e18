-- Prints the events that lua-inotify reports for a directory.
local inotify = require 'inotify'
local handle = assert(inotify.init())
assert(handle:addwatch(arg[1], inotify.IN_ALL_EVENTS))
io.stdout:setvbuf 'line'
for event in handle:events() do
    print(string.format('%x %s', event.mask, event.name or ''))
end
