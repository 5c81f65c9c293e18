// What fsnotify says of a directory, as `+ PATH` and `- PATH`: fsnotify_walk DIRECTORY. A new directory is watched first and
// then walked, as fsnotify watches no directory recursively.
package main

import (
	"fmt"
	"io/fs"
	"os"
	"path/filepath"

	"github.com/fsnotify/fsnotify"
)

var watcher *fsnotify.Watcher

// Watches each directory, and prints what is in it.
func add(root string) {
	filepath.WalkDir(root, func(path string, entry fs.DirEntry, err error) error {
		if err != nil {
			return nil
		}
		fmt.Println("+", path)
		if entry.IsDir() {
			watcher.Add(path)
		}
		return nil
	})
}

func main() {
	var err error
	if watcher, err = fsnotify.NewWatcher(); err != nil {
		fmt.Println(err)
		os.Exit(1)
	}
	add(os.Args[1])
	for event := range watcher.Events {
		if event.Has(fsnotify.Create) {
			fmt.Println("+", event.Name)
			add(event.Name)
		}
		if event.Has(fsnotify.Remove) || event.Has(fsnotify.Rename) {
			fmt.Println("-", event.Name)
		}
	}
}
