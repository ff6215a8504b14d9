package command

import (
	"os"
	"runtime/debug"
)

// A program that passes lines on lets its heap grow to five times what is in use before a collection, and collects more often
// only past linesHeap. GOGC and GOMEMLIMIT override this.
const (
	linesGarbage = 400 // percent
	linesHeap    = 192 << 20
)

// collectSeldom makes collections of the heap rarer.
func collectSeldom() {
	if os.Getenv("GOGC") == "" && os.Getenv("GOMEMLIMIT") == "" {
		debug.SetGCPercent(linesGarbage)
		debug.SetMemoryLimit(linesHeap)
	}
}
