package tell

import "io"

// mostKept limits the bytes kept while a text is only measured.
const mostKept = 4 << 20

// A page is a text being written to out. Without out it is counted, and kept while it is short.
type page struct {
	kept  []byte
	count int
	out   io.Writer
}

func (p *page) Write(text []byte) (int, error) {
	p.count += len(text)
	switch {
	case p.out != nil:
		return p.out.Write(text)
	case p.count <= mostKept:
		p.kept = append(p.kept, text...)
	}
	return len(text), nil
}

func (p *page) WriteString(text string) {
	if p.out == nil {
		if p.count += len(text); p.count <= mostKept {
			p.kept = append(p.kept, text...)
		}
		return
	}
	_, _ = io.WriteString(p, text)
}

func (p *page) addByte(c byte) { _, _ = p.Write([]byte{c}) }

func (p *page) addRune(letter rune) { p.WriteString(string(letter)) }

// String returns the text if it is short.
func (p *page) String() string { return string(p.kept) }

// isLong reports whether the text has more bytes than an explanation may.
func (p *page) isLong() bool { return p.count > mostExplained }
