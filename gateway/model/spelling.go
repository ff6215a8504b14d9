package model

import (
	"encoding/json"
	"fmt"
	"strings"
)

// A Spelling maps a model's words to a file's names. Words without a name are spelled as they are.
type Spelling struct {
	Names, Locals map[string]string
	// Texts are the file's texts, by JSON Pointer, where the model has others.
	Texts map[string]string
	// Places has the pointers of the places for which the file has an id, a name or a text.
	Places map[string]bool
	// tables has the pointers of tables with such texts, columns those of their input columns: the table's, /when/ and a
	// number.
	tables, columns map[string]bool
}

// ReadSpelling returns the spelling with these names and places, as an import writes them; places may be nil.
func ReadSpelling(names, locals map[string]string, places json.RawMessage) (Spelling, error) {
	s := Spelling{Names: names, Locals: locals, Texts: map[string]string{}, Places: map[string]bool{}, tables: map[string]bool{},
		columns: map[string]bool{}}
	if places == nil {
		return s, nil
	}
	var all map[string]struct{ Text string }
	if err := json.Unmarshal(places, &all); err != nil {
		return s, fmt.Errorf("reading the places of the file: %w", err)
	}
	for pointer, place := range all {
		s.Places[pointer] = true
		if place.Text != "" {
			s.Texts[pointer] = place.Text
			s.note(pointer)
		}
	}
	return s, nil
}

// note notes the table and column of a cell with a text.
func (s *Spelling) note(pointer string) {
	if table, cell, is := strings.Cut(pointer, "/rules/"); is {
		s.tables[table] = true
		if _, column, is := strings.Cut(cell, "/when/"); is {
			s.columns[table+"/when/"+column] = true
		}
	}
}

// At returns the expression at a place as in the file.
func (s Spelling) At(pointer, expression string) string {
	if text, is := s.Texts[pointer]; is {
		return text
	}
	return s.Text(expression)
}

// IsOfFile reports whether the file has a word: words made by the translation are not in it.
func (s Spelling) IsOfFile(word string) bool {
	_, named := s.Names[word]
	_, local := s.Locals[word]
	return named || local || len(s.Names) == 0
}

// Name returns the name of a word.
func (s Spelling) Name(word string) string {
	if name, is := s.Names[word]; is {
		return name
	}
	if name, is := s.Locals[word]; is {
		return name
	}
	return word
}

// Text returns an expression with the file's names instead of words.
func (s Spelling) Text(expression string) string {
	if len(s.Names) == 0 {
		return expression
	}
	var made strings.Builder
	for at := 0; at < len(expression); {
		end := at + 1
		switch c := expression[at]; {
		case c == '"':
			end = afterQuotes(expression, at)
		case isOfWord(c):
			for end < len(expression) && isOfWord(expression[end]) {
				end++
			}
			made.WriteString(s.Name(expression[at:end]))
			at = end
			continue
		}
		made.WriteString(expression[at:end])
		at = end
	}
	return made.String()
}

// afterQuotes returns the end of a quoted text that begins at a place.
func afterQuotes(expression string, at int) int {
	for at++; at < len(expression) && expression[at] != '"'; at++ {
		if expression[at] == '\\' {
			at++
		}
	}
	if at >= len(expression) {
		return len(expression)
	}
	return at + 1
}

func isOfWord(c byte) bool {
	return c == '_' || c >= '0' && c <= '9' || c|0x20 >= 'a' && c|0x20 <= 'z' || c >= 0x80
}
