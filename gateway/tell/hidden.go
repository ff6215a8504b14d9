package tell

import (
	"fmt"
	"strings"
	"unicode"

	"gateway/lines"
)

const hiddenLetter = "hidden letter"

// A hiddenText is a text of the model with letters that can't be seen or that change the direction of text.
type hiddenText struct {
	place   Place
	letters []rune
}

// hiddenLetters reports texts that look different from what they are. Line ends and tabs can be seen.
func (r *report) hiddenLetters() {
	s := hiddenTexts{doc: r.file.doc}
	s.look(r.file.root)
	for _, it := range s.found {
		names := make([]string, len(it.letters))
		for at, letter := range it.letters {
			names[at] = fmt.Sprintf("U+%04X", letter)
		}
		r.warning(hiddenLetter, it.place, r.file.position(it.place), "it has "+strings.Join(names, ", ")+", which isn't seen")
	}
	r.moreWarnings(hiddenLetter, s.count-len(s.found))
}

// A hiddenTexts searches for such texts.
type hiddenTexts struct {
	doc   *lines.Document
	place Place
	found []hiddenText
	count int
}

// look looks at a value and its parts, in order.
func (s *hiddenTexts) look(part lines.Node) {
	switch s.doc.Kind(part) {
	case '"':
		text, _ := s.doc.Text(part)
		letters := hiddenIn(text)
		if len(letters) == 0 {
			return
		}
		s.count++
		if len(s.found) < mostPlaces {
			s.found = append(s.found, hiddenText{s.place.with(), letters})
		}
	case '[':
		for at, item := range s.doc.Items(part) {
			s.within(index(at), item)
		}
	case '{':
		members, _ := s.doc.InOrder(part)
		for _, member := range members {
			s.within(key(member.Key), member.Value)
		}
	}
}

func (s *hiddenTexts) within(step Step, part lines.Node) {
	s.place = append(s.place, step)
	s.look(part)
	s.place = s.place[:len(s.place)-1]
}

// hiddenIn returns the hidden letters of a text, each once, in order.
func hiddenIn(text string) []rune {
	var letters []rune
	for _, letter := range text {
		isSeen := letter >= ' ' && letter < 0x7f || strings.ContainsRune("\t\n\r", letter)
		if !isSeen && unicode.Is(hidden, letter) && !strings.ContainsRune(string(letters), letter) {
			letters = append(letters, letter)
		}
	}
	return letters
}
