// Package logs writes a program's log: each line has a time, a level and the program's name.
package logs

import (
	"fmt"
	"io"
	"sync"
	"time"
)

// A Level says what a line is for.
type Level string

// The levels.
const (
	Info    Level = "info"    // normal operation
	Warning Level = "warning" // problems that the program handles
	Error   Level = "error"   // problems that need attention
)

// timeForm is the format of a line's time, in UTC.
const timeForm = "2006-01-02T15:04:05.000Z"

// A Log writes lines. New makes one.
type Log struct {
	to     *target
	prefix string
}

// A target takes the whole lines of several logs.
type target struct {
	mutex  sync.Mutex
	output io.Writer
}

// New returns the log of a program.
func New(output io.Writer, program string) *Log {
	return &Log{to: &target{output: output}, prefix: program + ": "}
}

// Of returns a log whose lines begin with what.
func (l *Log) Of(what string) *Log { return &Log{to: l.to, prefix: l.prefix + what + ": "} }

// OfPartition returns the log of a partition: a number, or more.
func (l *Log) OfPartition(partition any) *Log { return l.Of(fmt.Sprintf("partition %v", partition)) }

// Info writes a line with that level, as do Warning and Error.
func (l *Log) Info(form string, words ...any) { l.write(Info, form, words) }

// Warning writes a line.
func (l *Log) Warning(form string, words ...any) { l.write(Warning, form, words) }

// Error writes a line.
func (l *Log) Error(form string, words ...any) { l.write(Error, form, words) }

func (l *Log) write(level Level, form string, words []any) {
	line := fmt.Sprintf("%s %s %s%s\n", time.Now().UTC().Format(timeForm), level, l.prefix, fmt.Sprintf(form, words...))
	l.to.mutex.Lock()
	defer l.to.mutex.Unlock()
	_, _ = io.WriteString(l.to.output, line) // a log without a reader ends no program
}
