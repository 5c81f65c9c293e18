// Prints the events that Node's fs.watch reports for a directory.
require('fs').watch(process.argv[2], (kind, name) => console.log(kind, name));
