package sender

import (
	"bufio"
	"bytes"
	"context"
	"errors"
	"io"

	"gateway/rabbit/bus"
	"gateway/rabbit/line"
)

// An inputLine is a line of the input, without its newline.
type inputLine struct {
	text    []byte
	tooLong bool // it was not kept
}

// A batch has lines that were at hand together.
type batch struct {
	lines []inputLine
	err   error // why no more lines come; io.EOF at the end
}

// readInput reads the input in batches of what is at hand.
func readInput(ctx context.Context, input io.Reader) <-chan batch {
	batches := make(chan batch, 2)
	go func() {
		defer close(batches)
		reader := bufio.NewReaderSize(input, bus.MessageBytes)
		for {
			next := readBatch(reader)
			select {
			case batches <- next:
			case <-ctx.Done():
				return
			}
			if next.err != nil {
				return
			}
		}
	}()
	return batches
}

func readBatch(reader *bufio.Reader) batch {
	var b batch
	size := 0
	for {
		next, err := readLine(reader)
		if len(next.text) > 0 || next.tooLong || err == nil {
			b.lines = append(b.lines, next)
		}
		b.err = err
		size += len(next.text)
		if err != nil || reader.Buffered() == 0 || size >= bus.MessageBytes || len(b.lines) >= bus.MessageLines {
			return b
		}
	}
}

// readLine reads a line. Nothing is kept of one that is too long.
func readLine(reader *bufio.Reader) (inputLine, error) {
	var next inputLine
	for {
		piece, err := reader.ReadSlice('\n')
		if !next.tooLong {
			next.text = append(next.text, piece...)
		}
		if len(next.text) > line.MaximumBytes+2 {
			next.text, next.tooLong = nil, true
		}
		if errors.Is(err, bufio.ErrBufferFull) {
			continue
		}
		next.text = bytes.TrimSpace(next.text)
		return next, err
	}
}
