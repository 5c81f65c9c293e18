// Prints the events that chokidar reports for a directory, recursively.
const dir = process.argv[2];
require('chokidar').watch(dir).on('all', (kind, path) => console.log(kind, path)).on('ready', () => console.log('ready'));
