// Desk is the program of the command line. It reads foreign files and talks to the network; it evaluates nothing itself:
// each answer comes from the engine, a program that it runs beside itself.
package main

import (
	"os"
	"runtime"

	"gateway/command"
)

// The main goroutine stays on the main thread, so that an engine that is to end with its parent ends with the whole
// process, and not with one of its threads.
func init() { runtime.LockOSThread() }

func main() { os.Exit(command.Run(os.Args[1:])) }
