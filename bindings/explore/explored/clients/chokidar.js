// What chokidar says of a directory, as `+ PATH` and `- PATH`: chokidar.js DIRECTORY. A file that is made again within 100 ms after it
// was deleted is only changed, as its documentation says, so a change says that the file is there.
const { watch } = require('chokidar');
const signs = { add: '+', addDir: '+', change: '+', unlink: '-', unlinkDir: '-' };
watch(process.argv[2]).on('all', (kind, path) => signs[kind] && console.log(signs[kind], path));
