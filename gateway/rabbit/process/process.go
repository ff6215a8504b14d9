// Package process runs an engine process, desk serve, for a partition.
package process

import (
	"bufio"
	"errors"
	"fmt"
	"io"
	"strconv"
	"sync"

	"gateway/engine"
	"gateway/rabbit/line"
)

// keptBytes is how much of the end of an answer is kept that is too long: enough for its ticket.
const keptBytes = 64

// usualBytes is the length of most answers at most, roomBytes the room for some of them.
const (
	usualBytes = 512
	roomBytes  = 32 << 10
)

// Capacity is how many requests of one client the engine evaluates at a time.
const Capacity = 64

// An Answer is a line of the engine. If it is too long, only its beginning and end are kept.
type Answer struct {
	Text    []byte
	TooLong bool
}

// Options says which program runs, and how.
type Options struct {
	Path    string
	Workers int
	Longest int    // how many bytes an answer may have
	Memory  uint64 // the limit of the engine's address space in bytes; 0 means none
}

// A Process is an engine process. Its lines wait in memory until the engine reads them.
type Process struct {
	running *engine.Running
	answers chan []Answer
	longest int

	mutex   sync.Mutex
	wake    *sync.Cond
	waiting [][]byte // given, and not yet written
	ended   bool
	err     error // why it ended; read it once answers is closed
}

// Start starts the engine.
func Start(options Options) (*Process, error) {
	running, err := engine.Begin(options.Path, options.Memory, "serve", "--clients", strconv.Itoa(line.Clients), "--workers",
		strconv.Itoa(options.Workers), "--capacity", strconv.Itoa(Capacity))
	if err != nil {
		return nil, err
	}
	p := &Process{running: running, answers: make(chan []Answer, 16), longest: options.Longest}
	p.wake = sync.NewCond(&p.mutex)
	go p.write(running.In())
	go p.read(running.Out())
	return p, nil
}

// Give gives the engine lines, without their newlines.
func (p *Process) Give(lines [][]byte) {
	p.mutex.Lock()
	p.waiting = append(p.waiting, lines...)
	p.mutex.Unlock()
	p.wake.Signal()
}

// Answers has the engine's answers. It is closed once the engine has ended.
func (p *Process) Answers() <-chan []Answer { return p.answers }

// Err returns why the engine ended. Call it once Answers is closed.
func (p *Process) Err() error { return p.err }

// End ends the engine. Its last answers may be lost.
func (p *Process) End() {
	p.running.Kill()
	p.stopWriting()
	go func() {
		for range p.answers { // so that its reader ends
		}
	}()
}

func (p *Process) stopWriting() {
	p.mutex.Lock()
	p.ended = true
	p.mutex.Unlock()
	p.wake.Signal()
}

func (p *Process) write(input io.WriteCloser) {
	defer input.Close()
	output := bufio.NewWriterSize(input, 256<<10)
	for {
		lines := p.next()
		if lines == nil {
			return
		}
		for _, text := range lines {
			output.Write(text)
			output.WriteByte('\n')
		}
		if output.Flush() != nil {
			return // the engine has ended, which its reader reports
		}
	}
}

// next waits for lines to write; nil means that none will come.
func (p *Process) next() [][]byte {
	p.mutex.Lock()
	defer p.mutex.Unlock()
	for len(p.waiting) == 0 && !p.ended {
		p.wake.Wait()
	}
	if p.ended {
		return nil
	}
	lines := p.waiting
	p.waiting = nil
	return lines
}

func (p *Process) read(output io.Reader) {
	reader := bufio.NewReaderSize(output, 256<<10)
	var batch []Answer
	var room []byte // for the texts of several answers, which is faster
	for {
		if cap(room)-len(room) < usualBytes {
			room = make([]byte, 0, roomBytes)
		}
		next, err := p.readAnswer(reader, room[len(room):len(room):len(room)+usualBytes])
		if err != nil {
			break
		}
		batch = append(batch, next)
		room = room[:len(room)+min(len(next.Text), usualBytes)]
		if reader.Buffered() == 0 || len(batch) >= 256 {
			p.answers <- batch
			batch = nil
		}
	}
	if batch != nil {
		p.answers <- batch
	}
	p.stopWriting()
	p.err = errors.New("the engine ended")
	if err := p.running.Wait(); err != nil {
		p.err = fmt.Errorf("the engine ended: %w", err)
	}
	close(p.answers)
}

func min(a, b int) int {
	if a < b {
		return a
	}
	return b
}

// readAnswer reads an answer. Its text goes into the room if that suffices.
func (p *Process) readAnswer(reader *bufio.Reader, room []byte) (Answer, error) {
	a := Answer{Text: room}
	for {
		piece, err := reader.ReadSlice('\n')
		if err != nil && !errors.Is(err, bufio.ErrBufferFull) {
			return a, err
		}
		whole := err == nil
		if whole {
			piece = piece[:len(piece)-1]
		}
		a.Text = append(a.Text, piece...)
		a.TooLong = a.TooLong || len(a.Text) > p.longest
		if a.TooLong && len(a.Text) > 2*keptBytes {
			a.Text = append(a.Text[:keptBytes:keptBytes], a.Text[len(a.Text)-keptBytes:]...)
		}
		if whole {
			a.Text = a.Text[:len(a.Text):len(a.Text)] // the rest of the room is for others
			return a, nil
		}
	}
}
