package journal

import (
	"bytes"
	"crypto/sha256"
	"encoding/hex"
	"hash"
	"strconv"
)

// A link is a place in the chain: an entry's number, and the sum over it and all before it. The first entry has number 1, after
// zeros.
type link struct {
	n   uint64
	sum [sha256.Size]byte
}

// Parts of the line about an entry.
const (
	numberKey = `{"n":`
	chainKey  = `,"chain":"`
	closeKey  = `","close":true}`
	// tailLength is the length of the line's end, from the comma before its chain, without the newline.
	tailLength = len(chainKey) + 2*sha256.Size + len(closeKey)
)

// An Entry is what is recorded at once.
type Entry struct {
	// Asked is the request's line with its newline, or empty.
	Asked []byte
	// About has the members of the line about it, without braces, such as `"id":"7"`; or is empty.
	About []byte
}

func (e *Entry) size() int { return len(e.Asked) + len(e.About) + tailLength + len(numberKey) + 20 }

// A chainer adds entries to a text.
type chainer struct {
	hash hash.Hash
	at   link
}

func newChainer(at link) *chainer { return &chainer{sha256.New(), at} }

// add adds the chain's next entry.
func (c *chainer) add(to []byte, e *Entry) []byte {
	start := len(to)
	to = append(to, e.Asked...)
	to = append(to, numberKey...)
	to = strconv.AppendUint(to, c.at.n+1, 10)
	if len(e.About) > 0 {
		to = append(to, ',')
		to = append(to, e.About...)
	}
	c.at = c.next(to[start:])
	to = append(to, chainKey...)
	to = append(to, make([]byte, 2*sha256.Size)...)
	hex.Encode(to[len(to)-2*sha256.Size:], c.at.sum[:])
	to = append(to, closeKey...)
	return append(to, '\n')
}

// next returns the link of an entry with this text, which doesn't include its chain.
func (c *chainer) next(text []byte) link {
	next := link{n: c.at.n + 1}
	c.hash.Reset()
	c.hash.Write(c.at.sum[:])
	c.hash.Write(text)
	c.hash.Sum(next.sum[:0])
	return next
}

// linkIn reads the number and the chain from a line about an entry, without its newline; false for other lines.
func linkIn(line []byte) (at link, is bool) {
	if len(line) < tailLength+len(numberKey) || !bytes.HasPrefix(line, []byte(numberKey)) {
		return link{}, false
	}
	tail := line[len(line)-tailLength:]
	if !bytes.HasPrefix(tail, []byte(chainKey)) || !bytes.HasSuffix(tail, []byte(closeKey)) {
		return link{}, false
	}
	if _, err := hex.Decode(at.sum[:], tail[len(chainKey):len(chainKey)+2*sha256.Size]); err != nil {
		return link{}, false
	}
	for _, c := range line[len(numberKey):] {
		if c == ',' {
			return at, at.n > 0
		}
		if c < '0' || c > '9' || at.n > mostEntries {
			break
		}
		at.n = 10*at.n + uint64(c-'0')
	}
	return link{}, false
}

// mostEntries is more than any journal has.
const mostEntries = 1 << 60

// sumOf reads a hexadecimal sum.
func sumOf(text string) (sum [sha256.Size]byte, is bool) {
	if len(text) != 2*sha256.Size {
		return sum, false
	}
	_, err := hex.Decode(sum[:], []byte(text))
	return sum, err == nil
}

// String returns the sum in hexadecimal.
func (l link) String() string { return hex.EncodeToString(l.sum[:]) }

// IsAbout reports whether a line is about an entry.
func IsAbout(line []byte) bool {
	_, is := linkIn(bytes.TrimRight(line, "\r\n"))
	return is
}
