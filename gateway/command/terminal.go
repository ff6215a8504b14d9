package command

import (
	"fmt"
	"io"
	"os"
	"strings"
	"sync"
	"time"

	"golang.org/x/sys/unix"
)

// isTerminal reports whether a stream is a terminal that shows more than plain lines.
func isTerminal(stream io.Writer) bool {
	file, is := stream.(*os.File)
	if !is || os.Getenv("TERM") == "dumb" {
		return false
	}
	_, err := unix.IoctlGetTermios(int(file.Fd()), unix.TCGETS)
	return err == nil
}

// ANSI colours.
const (
	red    = "31"
	green  = "32"
	yellow = "33"
)

// painted returns a text in a colour, if the stream is a terminal and the environment variable NO_COLOR is not set.
func painted(stream io.Writer, colour, text string) string {
	if os.Getenv("NO_COLOR") != "" || !isTerminal(stream) {
		return text
	}
	return "\x1b[" + colour + "m" + text + "\x1b[0m"
}

const (
	// progressAfter is the time until progress is shown, progressEvery the time between updates.
	progressAfter = time.Second
	progressEvery = 200 * time.Millisecond
	eraseLine     = "\r\x1b[K"
)

// A progress shows the progress of a long run on a terminal. On other streams its methods do nothing.
type progress struct {
	to   io.Writer
	what string
	// done is how much is done, of total in these units; total 0 means unknown.
	done  func() int64
	total int64
	unit  unit
	begun time.Time
	end   chan struct{}
	ended sync.WaitGroup
	once  sync.Once
}

// A unit is the unit of a progress.
type unit struct {
	name string
	// size is how many counted things are one unit.
	size float64
}

var (
	megabytes = unit{"MB", 1e6}
	files     = unit{"files", 1}
)

// showProgress shows progress until it is stopped; nil if the stream is no terminal.
func showProgress(to io.Writer, what string, of unit, total int64, done func() int64) *progress {
	if !isTerminal(to) {
		return nil
	}
	p := &progress{to: to, what: what, done: done, total: total, unit: of, begun: time.Now(), end: make(chan struct{})}
	p.ended.Add(1)
	go p.run()
	return p
}

// stop ends the display and erases its line.
func (p *progress) stop() {
	if p == nil {
		return
	}
	p.once.Do(func() { close(p.end) })
	p.ended.Wait()
}

func (p *progress) run() {
	defer p.ended.Done()
	tick := time.NewTicker(progressEvery)
	defer tick.Stop()
	isShown := false
	for {
		select {
		case <-p.end:
			if isShown {
				fmt.Fprint(p.to, eraseLine)
			}
			return
		case now := <-tick.C:
			if passed := now.Sub(p.begun); passed >= progressAfter {
				isShown = true
				fmt.Fprint(p.to, eraseLine, p.line(p.done(), passed))
			}
		}
	}
}

// line says what is done, how fast, and how long the rest takes.
func (p *progress) line(done int64, passed time.Duration) string {
	var text strings.Builder
	fmt.Fprintf(&text, "%s: %s", p.what, p.amount(done))
	if p.total > 0 {
		fmt.Fprintf(&text, " of %s %s (%d %%)", p.amount(p.total), p.unit.name, done*100/p.total)
	} else if p.unit.size != 1 {
		fmt.Fprintf(&text, " %s", p.unit.name)
	}
	if rate := float64(done) / passed.Seconds(); done > 0 && p.total > 0 {
		left := time.Duration(float64(p.total-done) / rate * float64(time.Second))
		fmt.Fprintf(&text, ", %.1f %s/s, %v left", rate/p.unit.size, p.unit.name, left.Round(time.Second))
	}
	return text.String()
}

func (p *progress) amount(n int64) string {
	if p.unit.size == 1 {
		return fmt.Sprint(n)
	}
	return fmt.Sprintf("%.1f", float64(n)/p.unit.size)
}

// readProgress shows how much of a file has been read, by any process, as they share its offset. It is nil if the input is not
// a regular file, or if output goes to the same terminal.
func readProgress(errs, out io.Writer, what string, input *source) *progress {
	file, is := input.Reader.(*os.File)
	if !is || isTerminal(out) {
		return nil
	}
	about, err := file.Stat()
	if err != nil || !about.Mode().IsRegular() {
		return nil
	}
	return showProgress(errs, what, megabytes, about.Size(), func() int64 {
		at, err := unix.Seek(int(file.Fd()), 0, io.SeekCurrent)
		if err != nil {
			return 0
		}
		return at
	})
}
