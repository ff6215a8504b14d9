package journal

import (
	"crypto/sha256"
	"fmt"
)

// batchBytes is about the most bytes in a batch's texts, unless its last entry is long.
const batchBytes = 256 << 10

// A batch is consecutive entries that are checked against the chain together.
type batch struct {
	// texts has for each entry the sum before it and its text.
	texts []byte
	parts []part
	// faults has the findings, once done is closed.
	faults []Fault
	done   chan struct{}
}

// A part is an entry of a batch.
type part struct {
	path string
	line int
	at   link
	// end is the end of its text.
	end int
	// misplaced says what is wrong with its place, or "".
	misplaced string
}

// add adds an entry with the sum before it. Without that sum its text can't be checked.
func (b *batch) add(it *Read, before *link, misplaced string) {
	if before != nil {
		b.texts = append(b.texts, before.sum[:]...)
		b.texts = append(b.texts, it.text...)
	}
	b.parts = append(b.parts, part{it.Path, it.Line, it.at, len(b.texts), misplaced})
}

// check checks the entries.
func (b *batch) check() {
	defer close(b.done)
	begin := 0
	for at := range b.parts {
		it := &b.parts[at]
		text := b.texts[begin:it.end]
		begin = it.end
		if it.misplaced != "" {
			b.faults = append(b.faults, Fault{it.path, it.line, it.misplaced})
		}
		if len(text) > 0 && sha256.Sum256(text) != it.at.sum {
			said := fmt.Sprintf("entry %d is not what was recorded, or the one before it is not", it.at.n)
			b.faults = append(b.faults, Fault{it.path, it.line, said})
		}
		if len(b.faults) >= mostFaults {
			return
		}
	}
}

// A checker checks batches in parallel while the next one is read, up to a fixed number of batches.
type checker struct {
	next *batch
	// free are batches to fill, filled those being checked, in order.
	free, filled chan *batch
	faults       []Fault
	ended        chan struct{}
}

func newChecker(count int) *checker {
	c := &checker{free: make(chan *batch, count), filled: make(chan *batch, count), ended: make(chan struct{})}
	for n := 0; n < count; n++ {
		c.free <- &batch{}
	}
	go c.collect()
	return c
}

// add adds the next entry, as batch.add does.
func (c *checker) add(it *Read, before *link, misplaced string) {
	if c.next == nil {
		c.next = <-c.free
		c.next.done = make(chan struct{})
	}
	c.next.add(it, before, misplaced)
	if len(c.next.texts) >= batchBytes {
		c.hand()
	}
}

// hand sends the batch to be checked.
func (c *checker) hand() {
	if c.next == nil {
		return
	}
	go c.next.check()
	if c.next.isLong() {
		<-c.next.done
	}
	c.filled <- c.next
	c.next = nil
}

// isLong reports whether the batch takes much memory: then no other is filled in parallel, and it is not reused.
func (b *batch) isLong() bool { return cap(b.texts) > 4*batchBytes }

// collect takes the findings, batch by batch.
func (c *checker) collect() {
	defer close(c.ended)
	for b := range c.filled {
		<-b.done
		c.faults = append(c.faults, b.faults...)
		if len(c.faults) > mostFaults {
			c.faults = c.faults[:mostFaults]
		}
		if b.isLong() {
			b.texts = nil
		}
		c.free <- &batch{texts: b.texts[:0], parts: b.parts[:0]}
	}
}

// end waits for all batches, and returns the faults.
func (c *checker) end() []Fault {
	c.hand()
	close(c.filled)
	<-c.ended
	return c.faults
}
