// Prints the events that the kernel reports for a directory, by Go's own system calls: a static program without the C library.
package main

import (
	"fmt"
	"os"
	"strings"
	"syscall"
	"unsafe"
)

func main() {
	fd, err := syscall.InotifyInit1(syscall.IN_CLOEXEC)
	if err == nil {
		_, err = syscall.InotifyAddWatch(fd, os.Args[1], syscall.IN_ALL_EVENTS)
	}
	if err != nil {
		fmt.Println(err)
		os.Exit(1)
	}
	var buffer [65536]byte
	for {
		count, err := syscall.Read(fd, buffer[:])
		if err != nil {
			fmt.Println(err)
			os.Exit(1)
		}
		for at := 0; at < count; {
			event := (*syscall.InotifyEvent)(unsafe.Pointer(&buffer[at]))
			at += syscall.SizeofInotifyEvent
			name := strings.TrimRight(string(buffer[at:at+int(event.Len)]), "\x00")
			at += int(event.Len)
			fmt.Printf("%#x %s\n", event.Mask, name)
		}
	}
}
