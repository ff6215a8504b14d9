package engine

import (
	"bufio"
	"errors"
	"fmt"
	"io"
	"strings"
	"testing"
)

// pieces are the results of successive reads.
type pieces []string

func (p *pieces) Read(to []byte) (int, error) {
	if len(*p) == 0 {
		return 0, io.EOF
	}
	n := copy(to, (*p)[0])
	*p = (*p)[1:]
	return n, nil
}

// resultLine returns the line of a lane's result with this ticket.
func resultLine(ticket int) string {
	return fmt.Sprintf("{\"client\":\"lane1\",\"result\":1,\"ticket\":%d}\n", ticket)
}

// Lines that came together are read together, and nothing waits for an incomplete line.
func TestReadReplies(t *testing.T) {
	half := resultLine(3)[:9]
	many := ""
	for ticket := 4; ticket < 4+mostReplies; ticket++ {
		many += resultLine(ticket)
	}
	from := bufio.NewReaderSize(&pieces{resultLine(0), resultLine(1) + resultLine(2) + half, resultLine(3)[9:] + many}, 64<<10)
	next := uint64(0)
	for at, due := range []int{1, 2, mostReplies, 1} {
		replies, err := readReplies(from, nil)
		if err != nil || len(replies) != due {
			t.Fatalf("read %d: %d replies, and %d are due (%v)", at, len(replies), due, err)
		}
		for _, r := range replies {
			if r.lane != 1 || r.ticket != next {
				t.Errorf("read %d: lane %d, ticket %d, and ticket %d is due", at, r.lane, r.ticket, next)
			}
			next++
		}
	}
	if replies, err := readReplies(from, nil); len(replies) != 0 || !errors.Is(err, io.EOF) {
		t.Errorf("at the end: %d replies, %v", len(replies), err)
	}
}

// Lines before one that no engine would write are returned all the same.
func TestReadRepliesBeforeAStrangeOne(t *testing.T) {
	from := bufio.NewReader(strings.NewReader(resultLine(0) + "strange\n" + resultLine(1)))
	replies, err := readReplies(from, nil)
	if len(replies) != 1 || err == nil || errors.Is(err, io.EOF) {
		t.Errorf("%d replies, %v", len(replies), err)
	}
}

func TestNumber(t *testing.T) {
	for _, it := range []struct {
		text string
		due  uint64
		is   bool
	}{
		{"0", 0, true},
		{"15", 15, true},
		{"9999999999999999999", 9_999_999_999_999_999_999, true},
		{"99999999999999999999", 0, false},
		{"", 0, false},
		{"-1", 0, false},
		{"1}", 0, false},
	} {
		if n, is := number([]byte(it.text)); n != it.due || is != it.is {
			t.Errorf("%q is %d, %v", it.text, n, is)
		}
	}
}
