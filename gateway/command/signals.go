package command

import (
	"os/signal"
	"syscall"
	_ "unsafe" // for go:linkname
)

// inherited has what was set for each signal when this program was started: 1 is SIG_IGN. The runtime puts its own handlers
// in place of it before any code of ours runs, and keeps it here alone.
//
//go:linkname inherited runtime.fwdSig
var inherited [65]uintptr

const ignored = 1

// keepIgnored ignores the signals again that were ignored at the start, for the program that replaces this one.
func keepIgnored() {
	for number, action := range inherited {
		if action == ignored {
			signal.Ignore(syscall.Signal(number))
		}
	}
}
