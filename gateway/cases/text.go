package cases

import (
	"bufio"
	"bytes"
	"encoding/binary"
	"errors"
	"io"
	"unicode/utf16"
	"unicode/utf8"
)

// bufferSize is how much is read at once.
const bufferSize = 256 << 10

// byteOrderMark is UTF-8's.
var byteOrderMark = []byte("\xef\xbb\xbf")

// decoded returns a stream as UTF-8 without a byte order mark. UTF-16 is recognized by its mark, or by a zero next to the first
// byte. A stream without these and without UTF-8's mark is Windows-1252 if isANSI.
func decoded(from io.Reader, isANSI bool) *bufio.Reader {
	buffered := bufio.NewReaderSize(from, bufferSize)
	begin, _ := buffered.Peek(3)
	switch {
	case bytes.Equal(begin, byteOrderMark):
		_, _ = buffered.Discard(len(byteOrderMark))
	case len(begin) >= 2 && begin[0] == 0xff && begin[1] == 0xfe:
		_, _ = buffered.Discard(2)
		return fromUTF16(buffered, binary.LittleEndian)
	case len(begin) >= 2 && begin[0] == 0xfe && begin[1] == 0xff:
		_, _ = buffered.Discard(2)
		return fromUTF16(buffered, binary.BigEndian)
	case len(begin) >= 2 && begin[0] != 0 && begin[1] == 0:
		return fromUTF16(buffered, binary.LittleEndian)
	case len(begin) >= 2 && begin[0] == 0 && begin[1] != 0:
		return fromUTF16(buffered, binary.BigEndian)
	case isANSI:
		return bufio.NewReaderSize(&ansiReader{buffered}, bufferSize)
	}
	return buffered
}

// ansiLetters are the characters of Windows-1252 from 0x80 to 0x9f; a blank means none.
var ansiLetters = []rune("€ ‚ƒ„…†‡ˆ‰Š‹Œ Ž  ‘’“”•–—˜™š›œ žŸ")

// An ansiReader reads Windows-1252 as UTF-8.
type ansiReader struct{ from *bufio.Reader }

func (r *ansiReader) Read(to []byte) (int, error) {
	made := to[:0]
	for cap(to)-len(made) >= utf8.UTFMax {
		c, err := r.from.ReadByte()
		switch {
		case err != nil && len(made) > 0:
			return len(made), nil
		case err != nil:
			return 0, err
		case c < 0x80 || c > 0x9f:
			made = utf8.AppendRune(made, rune(c))
		case ansiLetters[c-0x80] == ' ':
			made = append(made, noText)
		default:
			made = utf8.AppendRune(made, ansiLetters[c-0x80])
		}
	}
	return len(made), nil
}

func fromUTF16(from *bufio.Reader, order binary.ByteOrder) *bufio.Reader {
	return bufio.NewReaderSize(&utf16Reader{from: from, order: order}, bufferSize)
}

// noText is not valid UTF-8. It replaces invalid UTF-16, so that this is refused at its place.
const noText = 0xff

// A utf16Reader reads UTF-16 as UTF-8.
type utf16Reader struct {
	from  *bufio.Reader
	order binary.ByteOrder
	// high is the first half of a surrogate pair, or 0.
	high rune
	err  error
}

// mostBytes is the most bytes that one unit adds: for a half without another, and a character.
const mostBytes = 1 + utf8.UTFMax

func (r *utf16Reader) Read(to []byte) (n int, _ error) {
	made := to[:0]
	for cap(to)-len(made) >= mostBytes && r.err == nil {
		var unit [2]byte
		read, err := io.ReadFull(r.from, unit[:])
		if err != nil {
			if r.err = io.EOF; !errors.Is(err, io.EOF) && !errors.Is(err, io.ErrUnexpectedEOF) {
				r.err = err
			}
			if read == 1 || r.high != 0 {
				made = append(made, noText)
			}
			break
		}
		made = r.add(made, rune(r.order.Uint16(unit[:])))
	}
	if len(made) > 0 {
		return len(made), nil
	}
	return 0, r.err
}

// add adds the characters of a unit.
func (r *utf16Reader) add(to []byte, unit rune) []byte {
	high := r.high
	r.high = 0
	switch {
	case high != 0 && unit >= 0xdc00 && unit <= 0xdfff:
		return utf8.AppendRune(to, utf16.DecodeRune(high, unit))
	case high != 0:
		to = append(to, noText)
	}
	switch {
	case unit >= 0xd800 && unit <= 0xdbff:
		r.high = unit
	case unit >= 0xdc00 && unit <= 0xdfff:
		to = append(to, noText)
	default:
		to = utf8.AppendRune(to, unit)
	}
	return to
}

// A lineReader splits a stream into lines.
type lineReader struct {
	from *bufio.Reader
	// back is read before the stream.
	back       []byte
	isBackLong bool
	// number is that of the last line read.
	number int
	// read is the number of bytes read.
	read int64
}

// next adds the next line to a text, with its line end. Of a line over MaxRow bytes it adds the beginning, and isLong is true.
func (r *lineReader) next(to []byte) (_ []byte, isLong bool, err error) {
	if len(r.back) == 0 {
		return r.fromStream(to)
	}
	line := r.back
	if at := bytes.IndexByte(line, '\n'); at >= 0 {
		line = line[:at+1]
	}
	r.back = r.back[len(line):]
	r.number++
	return append(to, line...), r.isBackLong && len(r.back) == 0, nil
}

// putBack puts back the last lines read. If isLong, more of the last one was skipped.
func (r *lineReader) putBack(text []byte, isLong bool) {
	r.number -= bytes.Count(text, []byte("\n"))
	if text[len(text)-1] != '\n' {
		r.number--
	}
	r.back, r.isBackLong = append(append([]byte(nil), text...), r.back...), isLong
}

func (r *lineReader) fromStream(to []byte) (_ []byte, isLong bool, err error) {
	for added := 0; ; {
		piece, err := r.from.ReadSlice('\n')
		r.read += int64(len(piece))
		if room := MaxRow + 2 - added; len(piece) > room {
			isLong, piece = true, piece[:room]
		}
		to, added = append(to, piece...), added+len(piece)
		switch {
		case err == nil, errors.Is(err, io.EOF) && added > 0:
			r.number++
			return to, isLong, nil
		case !errors.Is(err, bufio.ErrBufferFull):
			return to, isLong, err
		}
	}
}

// withoutEnd returns a line without its line end.
func withoutEnd(line []byte) []byte {
	line = bytes.TrimSuffix(line, []byte("\n"))
	return bytes.TrimSuffix(line, []byte("\r"))
}
