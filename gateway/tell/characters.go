package tell

import "unicode/utf8"

// blockBytes is the number of bytes counted together.
const blockBytes = 1024

// A lineIndex counts characters in a text's lines. It reads the text once, on first use, so a spot far into a long line costs
// no more than any other.
type lineIndex struct {
	text []byte
	// starts holds the offsets of the lines.
	starts []int
	// further holds, for each block, how many bytes before it continue a character.
	further []int
}

// characters returns a spot's column in characters; the spot has it in bytes.
func (x *lineIndex) characters(spot Spot) int {
	x.read()
	if spot.Line < 1 || spot.Line > len(x.starts) || spot.Column < 1 {
		return spot.Column
	}
	start := x.starts[spot.Line-1]
	end := start + spot.Column - 1
	if end > len(x.text) {
		return spot.Column
	}
	return spot.Column - x.furtherBefore(end) + x.furtherBefore(start)
}

func (x *lineIndex) read() {
	if x.starts != nil {
		return
	}
	x.starts = []int{0}
	count := 0
	for at, c := range x.text {
		if at%blockBytes == 0 {
			x.further = append(x.further, count)
		}
		if c == '\n' {
			x.starts = append(x.starts, at+1)
		}
		if !utf8.RuneStart(c) {
			count++
		}
	}
	x.further = append(x.further, count)
}

// furtherBefore returns how many bytes before an offset continue a character.
func (x *lineIndex) furtherBefore(offset int) int {
	block := offset / blockBytes
	count := x.further[block]
	for _, c := range x.text[block*blockBytes : offset] {
		if !utf8.RuneStart(c) {
			count++
		}
	}
	return count
}
