"""The clients of inotify that `clients.py` starts, each beside its script.

In the words of a start {d} is the watched directory, {root} the directory that stands for the root, `{room}` a folder of
the run outside the tree, {here} the folder of the clients' sources, and {bin} that of what was built from them."""
import collections

Case = collections.namedtuple("Case", "name packages start script tells but varies any_order build settle debounce options root")


def case(name, packages, start, script="basic", tells="end", but="", varies=None, any_order=False, build=None, settle=300,
         debounce=100, options="", root=False):
    """A client.

    packages   Debian's packages; the version is that of the first
    start      words of a shell
    `tells`    words that must be in what it prints
    but        classes of LINUX.md by which it may differ from a disk
    varies     a pattern of what no two runs print alike
    any_order  it has threads or processes of its own, whose lines come in any order
    build      how it is built, in words of a shell
    options    of the runner besides
    root       whether it wants root
    """
    return Case(name, packages.split(), start, script, tells.split(), but.split(), varies, any_order, build, settle, debounce,
                options.split(), root)


PYTHON = "/usr/bin/python3 {here}/"
GO = "cd {bin} && GO111MODULE=off GOPATH=/usr/share/gocode GOCACHE={bin}/cache CGO_ENABLED=0 go build -o {bin}/"
C = "cc -O1 -Wall -Werror -o {bin}/"

CASES = [
    # Programs
    case("inotifywait", "inotify-tools", "inotifywait -q -e create {d}", "one", tells="a"),
    case("inotifywait -m", "inotify-tools", "inotifywait -q -m {d}"),
    case("inotifywait -m -r", "inotify-tools", "inotifywait -q -m -r {d}", but="list-events", tells="x end"),
    case("inotifywait -t", "inotify-tools", "inotifywait -t 1 {d} 2>&1; echo status $?", "still", tells="status 2", settle=2000),
    case("inotifywatch", "inotify-tools", "inotifywatch -v {d} 2>&1", tells="total"),
    case("inotifywatch -r", "inotify-tools", "inotifywatch -r -e create,delete,move {d} 2>&1", tells="total"),
    case("entr", "entr", "echo {d}/f | entr -n -p echo changed", "file", tells="changed", debounce=400, settle=500),
    case("entr -d", "entr", "echo {d}/f | entr -n -d echo changed; echo status $?", "added", tells="status 2", debounce=500, settle=1000),
    case("tail -F", "coreutils", "sh {here}/tail_follow.sh {d}/f", "file", tells="1 2 3 4 5"),
    case("fswatch", "fswatch", "fswatch -m inotify_monitor -x -l 0.1 {d}"),
    case("fswatch -r", "fswatch", "fswatch -m inotify_monitor -x -r -l 0.1 --event Created --event Updated "
         "--event Removed --event MovedFrom --event MovedTo {d}", tells="x end"),
    case("gio monitor", "libglib2.0-bin", "gio monitor {d}"),
    case("direvent", "direvent", "sh {here}/direvent.sh {d} {room}", any_order=True),
    case("lsyncd", "lsyncd rsync", "sh {here}/lsyncd.sh {d} {room}", tells="x end", settle=1500, debounce=1500),
    case("incrond", "incron", "sh {here}/incrond.sh {d} {room}", any_order=True, options="--outside=ignore",
         root=True),
    case("watchman", "watchman", "sh {here}/watchman.sh {d} {room}", "parted", tells="x end",
         varies=r'^.*"is_fresh_instance":true.*\n|"(clock|since)":"[^"]*",'),
    case("reflex", "reflex", "cd {d} && reflex echo {{}}", any_order=True, settle=1500),
    case("inotify-hookable", "inotify-hookable", "sh {here}/inotify_hookable.sh {d}", "parted", tells="changed"),
    case("iwatch", "iwatch", "sh {here}/iwatch.sh {d}", but="list-events", varies=r"^\[[^]]*\] "),
    case("inoticoming", "inoticoming", "sh {here}/inoticoming.sh {d}"),
    case("inotifyd", "toybox", "toybox inotifyd - {d}"),
    # Python
    case("watchdog, Observer", "python3-watchdog", PYTHON + "watchdog_observer.py {d}", tells="x end", settle=1500,
         debounce=1200),
    case("pyinotify", "python3-pyinotify", PYTHON + "pyinotify_notifier.py {d}", tells="x end", but="list-events"),
    case("python3-inotify", "python3-inotify", PYTHON + "inotify_adapters.py {d}", tells="x end", but="list-events",
         settle=1500),
    case("aionotify", "python3-aionotify", PYTHON + "aionotify_watcher.py {d}"),
    case("twisted, INotify", "python3-twisted", PYTHON + "twisted_inotify.py {d}", tells="x end", but="list-events"),
    case("PyQt5, QFileSystemWatcher", "python3-pyqt5", PYTHON + "qt_watcher.py {d}", tells="directory file", any_order=True),
    case("Gio.FileMonitor", "python3-gi", PYTHON + "gio_monitor.py {d}"),
    # Node, Java, Go, Rust
    case("Node, fs.watch", "nodejs", "node {here}/fs_watch.js {d}"),
    case("chokidar", "node-chokidar", "NODE_PATH=/usr/share/nodejs node {here}/chokidar.js {d}", "parted", tells="x end"),
    case("Java, WatchService", "openjdk-17-jdk-headless", "java -cp {bin} Watch {d}", build="javac -d {bin} {here}/Watch.java"),
    case("Go, system calls", "golang-go", "{bin}/syscalls {d}", build=GO + "syscalls {here}/syscalls.go"),
    case("fsnotify", "golang-github-fsnotify-fsnotify-dev", "{bin}/fsnotify {d}", build=GO + "fsnotify {here}/fsnotify.go"),
    case("rjeczalik/notify", "golang-github-rjeczalik-notify-dev", "{bin}/notify-go {d}",
         build=GO + "notify-go {here}/notify.go", tells="x end", any_order=True),
    case("Rust, inotify", "librust-inotify+stream-dev", "{bin}/inotify-rs {d}", build="sh {here}/crate inotify {bin}"),
    case("Rust, notify", "librust-notify-dev", "{bin}/notify-rs {d}", build="sh {here}/crate notify {bin}", tells="x end"),
    # Ruby, Perl, Lua, OCaml
    case("rb-inotify", "ruby-rb-inotify", "ruby {here}/rb_inotify.rb {d}", tells="x end"),
    case("listen", "ruby-listen", "ruby {here}/listen.rb {d}", "parted", tells="x end", settle=1500, debounce=500),
    case("Linux::Inotify2", "liblinux-inotify2-perl", "perl {here}/inotify2.pl {d}"),
    case("File::ChangeNotify", "libfile-changenotify-perl", "perl {here}/change_notify.pl {d}", tells="x end"),
    case("Filesys::Notify::Simple", "libfilesys-notify-simple-perl", "perl {here}/notify_simple.pl {d}"),
    case("lua-inotify", "lua-inotify lua5.3", "lua5.3 {here}/inotify.lua {d}"),
    case("OCaml, inotify", "libinotify-ocaml-dev ocaml-nox", "{bin}/inotify-ml {d}", varies=r" cookie=[0-9]+",
         build="cp {here}/inotify.ml {bin}/client.ml && cd {bin} && "
               "ocamlfind ocamlopt -package unix,inotify -linkpkg client.ml -o inotify-ml"),
    # C
    case("libev, ev_stat", "libev-dev", "{bin}/ev_stat {d}/f", "file", tells="is", build=C + "ev_stat {here}/ev_stat.c -lev"),
    case("libuv, uv_fs_event", "libuv1-dev", "{bin}/uv_fs_event {d}", build=C + "uv_fs_event {here}/uv_fs_event.c -luv"),
    case("libinotifytools", "libinotifytools0-dev", "{bin}/inotifytools {d}", but="list-events",
         build=C + "inotifytools {here}/inotifytools.c -linotifytools"),
    case("Emacs, file-notify", "emacs-nox", "emacs -Q --batch -l {here}/file_notify.el {d} 2>&1"),
]
