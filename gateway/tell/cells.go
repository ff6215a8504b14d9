package tell

import (
	"fmt"
	"sort"
	"strings"
)

// A cell holds the values of one column in a finding.
type cell struct {
	null, yes, no, parted bool
	numbers               []span
	words                 []string
	runs                  []textRun
	// allBut means every text except words.
	allBut bool
}

// A textRun holds the texts between two others, both excluded; a nil end is open.
type textRun struct{ above, below *string }

// A factCell holds the values of one column in a finding, as the engine writes them.
type factCell struct {
	Null   bool   `json:"null"`
	True   bool   `json:"true"`
	False  bool   `json:"false"`
	Parted bool   `json:"parted"`
	From   *int64 `json:"from"`
	To     *int64 `json:"to"`
	// Texts lists words of the column.
	Texts []string `json:"texts"`
	// TextsBut lists the words of the column that the cell lacks; it has all other texts.
	TextsBut *[]string `json:"texts_but"`
	// But lists the words between Above and Below that the cell lacks; it has the other texts between them. A nil end is open.
	But          *[]string `json:"but"`
	Above, Below *string
}

// values returns the cell as it is reported.
func (f *factCell) values() cell {
	c := cell{null: f.Null, yes: f.True, no: f.False, parted: f.Parted, words: f.Texts}
	if f.From != nil && f.To != nil {
		c.numbers = []span{{*f.From, *f.To}}
	}
	switch {
	case f.TextsBut != nil:
		c.allBut, c.words = true, without(*f.TextsBut, setOf(f.Texts))
	case f.But != nil && f.Above == nil && f.Below == nil:
		c.allBut, c.words = true, without(*f.But, setOf(f.Texts))
	case f.But != nil:
		c.runs = runs(f.Above, f.Below, *f.But, setOf(f.Texts))
		c.words = without(f.Texts, setOf(*f.But))
		c.joinLeast()
	}
	return c
}

// without returns the texts that are not in others.
func without(texts []string, others set) (left []string) {
	for _, text := range texts {
		if !others[text] {
			left = append(left, text)
		}
	}
	return left
}

// runs returns the texts between above and below, split at the words there that are not in own.
func runs(above, below *string, but []string, own set) (all []textRun) {
	for at := range but {
		if word := &but[at]; !own[*word] {
			all, above = appendRun(all, textRun{above, word}), word
		}
	}
	return appendRun(all, textRun{above, below})
}

// appendRun adds a run unless it is empty: nothing is below the empty text, nor between a text and the same text with U+0000
// appended.
func appendRun(all []textRun, r textRun) []textRun {
	isVoid := r.below != nil && (r.above == nil && *r.below == "" || r.above != nil && *r.below == *r.above+"\x00")
	if isVoid {
		return all
	}
	return append(all, r)
}

// joinLeast joins the empty text with a run that begins right after it.
func (c *cell) joinLeast() {
	if len(c.words) == 0 || c.words[0] != "" || len(c.runs) == 0 || c.runs[0].above == nil || *c.runs[0].above != "" {
		return
	}
	c.runs[0].above, c.words = nil, c.words[1:]
	if c.runs[0].below == nil {
		c.allBut, c.words, c.runs = true, nil, nil
	}
}

// covers reports whether the cell has all values of these kinds.
func (c *cell) covers(k kinds) bool {
	hasNumbers := len(c.numbers) > 0 && c.numbers[0] == span{least, greatest}
	hasTexts := c.allBut && len(c.words) == 0
	return (!k.numbers || hasNumbers) && (!k.texts || hasTexts) && (!k.truths || c.yes && c.no) && (!k.null || c.null) &&
		(!k.parted || c.parted)
}

// hasOthers reports whether the cell has values of other kinds.
func (c *cell) hasOthers(k kinds) bool {
	hasTexts := c.allBut || len(c.words) > 0 || len(c.runs) > 0
	return c.null && !k.null || (c.yes || c.no) && !k.truths || len(c.numbers) > 0 && !k.numbers || hasTexts && !k.texts ||
		c.parted && !k.parted
}

// mostPieces limits the number ranges, and the texts, reported for a column.
const mostPieces = 8

// text returns the column's values, such as "<= -1 or null".
func (c *cell) text() string {
	if c.covers(everyKind) {
		return "any"
	}
	var parts []string
	for at, numbers := range c.numbers {
		if at < mostPieces {
			parts = append(parts, numbers.text())
		}
	}
	parts = append(moreOf(parts, len(c.numbers)), c.textWords()...)
	for _, value := range []struct {
		is   bool
		word string
	}{{c.yes, "true"}, {c.no, "false"}, {c.null, "null"}, {c.parted, "a list or a context"}} {
		if value.is {
			parts = append(parts, value.word)
		}
	}
	return strings.Join(parts, " or ")
}

// moreOf adds how many pieces are left out.
func moreOf(parts []string, count int) []string {
	if count > mostPieces {
		return append(parts, fmt.Sprintf("%d more", count-mostPieces))
	}
	return parts
}

func (s span) text() string {
	switch {
	case s.low == s.high:
		return fmt.Sprint(s.low)
	case s.low <= least && s.high == greatest:
		return "any number"
	case s.low <= least:
		return fmt.Sprintf("<= %d", s.high)
	case s.high == greatest:
		return fmt.Sprintf(">= %d", s.low)
	}
	return fmt.Sprintf("[%d..%d]", s.low, s.high)
}

func (c *cell) textWords() []string {
	if c.allBut {
		return []string{c.allButText()}
	}
	var parts []string
	stretches := c.stretches()
	for at, s := range stretches {
		if at < mostPieces {
			parts = append(parts, s.text())
		}
	}
	return moreOf(parts, len(stretches))
}

func (c *cell) allButText() string {
	text := "any text"
	for at, word := range c.words {
		switch {
		case at == 0:
			text += " but " + quoted(word)
		case at < mostPieces:
			text += ", " + quoted(word)
		}
	}
	if more := len(c.words) - mostPieces; more > 0 {
		text += fmt.Sprintf(" and %d more", more)
	}
	return text
}

// A stretch holds the texts from low to high. A nil low means all texts up to high, a nil high all from low.
type stretch struct {
	low, high       *string
	hasLow, hasHigh bool
}

// stretches returns the words and the runs in order, each run with the words at its ends.
func (c *cell) stretches() []stretch {
	ends, found := set{}, set{}
	for _, r := range c.runs {
		for _, end := range []*string{r.above, r.below} {
			if end != nil {
				ends[*end] = true
			}
		}
	}
	var all []stretch
	for at := range c.words {
		if word := &c.words[at]; ends[*word] {
			found[*word] = true
		} else {
			all = append(all, stretch{word, word, true, true})
		}
	}
	for _, r := range c.runs {
		all = append(all, stretch{r.above, r.below, r.above != nil && found[*r.above], r.below != nil && found[*r.below]})
	}
	sort.SliceStable(all, func(i, j int) bool { return all[i].begin() < all[j].begin() })
	return all
}

func (s stretch) begin() string {
	if s.low == nil {
		return ""
	}
	return *s.low
}

func (s stretch) text() string {
	switch {
	case s.low == nil && s.high == nil:
		return "any text"
	case s.high == nil && s.hasLow:
		return "from " + quoted(*s.low)
	case s.high == nil:
		return "after " + quoted(*s.low)
	case s.low == nil && s.hasHigh:
		return "up to " + quoted(*s.high)
	case s.low == nil:
		return "before " + quoted(*s.high)
	case *s.low == *s.high:
		return quoted(*s.low)
	}
	words := map[[2]bool][2]string{
		{true, true}: {"from ", " up to "}, {true, false}: {"from ", " and before "},
		{false, true}: {"after ", " and up to "}, {false, false}: {"between ", " and "},
	}[[2]bool{s.hasLow, s.hasHigh}]
	return words[0] + quoted(*s.low) + words[1] + quoted(*s.high)
}
