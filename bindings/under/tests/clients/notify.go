// Prints the events that rjeczalik/notify reports for a directory, recursively.
package main

import (
	"fmt"
	"os"

	"github.com/rjeczalik/notify"
)

func main() {
	events := make(chan notify.EventInfo, 100)
	if err := notify.Watch(os.Args[1]+"/...", events, notify.All); err != nil {
		fmt.Println(err)
		os.Exit(1)
	}
	for event := range events {
		fmt.Println(event.Event(), event.Path())
	}
}
