// What rjeczalik/notify says of a directory with "/...", as `+ PATH` and `- PATH`: notify-go DIRECTORY
package main

import (
	"fmt"
	"os"

	"github.com/rjeczalik/notify"
)

func main() {
	events := make(chan notify.EventInfo, 1000)
	kinds := []notify.Event{notify.InCreate, notify.InMovedTo, notify.InDelete, notify.InMovedFrom}
	if err := notify.Watch(os.Args[1]+"/...", events, kinds...); err != nil {
		fmt.Println(err)
		os.Exit(1)
	}
	for event := range events {
		sign := "-"
		if event.Event() == notify.InCreate || event.Event() == notify.InMovedTo {
			sign = "+"
		}
		fmt.Println(sign, event.Path())
	}
}
