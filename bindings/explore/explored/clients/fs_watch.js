// What Node's recursive fs.watch says of a directory, as `+ PATH` and `- PATH`: fs_watch.js DIRECTORY. An event names a path, and
// whether it is there the program has to look. When fs.watch has returned it looks for a file `watching`, which the trace shows.
const fs = require('fs');
const directory = process.argv[2];
fs.watch(directory, { recursive: true }, (kind, name) => {
    const path = `${directory}/${name}`;
    console.log(fs.existsSync(path) ? '+' : '-', path);
});
fs.existsSync(`${directory}/watching`);
