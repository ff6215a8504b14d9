package calls

import (
	"io"
	"sync"
)

// A feed is an input to which lines are added without waiting.
type feed struct {
	mutex  sync.Mutex
	wake   *sync.Cond
	text   []byte
	closed bool
}

func newFeed() *feed {
	f := &feed{}
	f.wake = sync.NewCond(&f.mutex)
	return f
}

// add adds lines.
func (f *feed) add(lines []byte) {
	f.mutex.Lock()
	f.text = append(f.text, lines...)
	f.mutex.Unlock()
	f.wake.Signal()
}

// close ends the feed.
func (f *feed) close() {
	f.mutex.Lock()
	f.closed = true
	f.mutex.Unlock()
	f.wake.Signal()
}

// Read returns what is there, once something is.
func (f *feed) Read(to []byte) (int, error) {
	f.mutex.Lock()
	defer f.mutex.Unlock()
	for len(f.text) == 0 && !f.closed {
		f.wake.Wait()
	}
	if len(f.text) == 0 {
		return 0, io.EOF
	}
	n := copy(to, f.text)
	if f.text = f.text[n:]; len(f.text) == 0 {
		f.text = nil
	}
	return n, nil
}
