package profile

import (
	"fmt"
	"strings"

	"gateway/feel"
)

// mostWord is how many bytes a word of the model may have.
const mostWord = 64

// reserved are the words that the model can't use as names.
var reserved = map[string]bool{
	"if": true, "then": true, "else": true, "and": true, "or": true, "not": true, "between": true, "null": true,
	"true": true, "false": true,
}

// words is the table of names and words.
type words struct {
	// byName has the word of each canonical name, names the name as the file spells it.
	byName map[string]string
	names  map[string]string
	// locals has the name, as the file spells it, of each word that occurs within one decision.
	locals map[string]string
	taken  map[string]bool
	// next has the number to try next after a word that was taken.
	next map[string]int
}

func newWords() *words {
	return &words{byName: map[string]string{}, names: map[string]string{}, locals: map[string]string{},
		taken: map[string]bool{}, next: map[string]int{}}
}

// of returns the word of a name, and gives one to a new name.
func (w *words) of(name string) string {
	canonical := feel.Canonical(name)
	if word, found := w.byName[canonical]; found {
		return word
	}
	word := w.free(asWord(name))
	w.byName[canonical] = word
	w.names[word] = spelled(name)
	return word
}

// spelled returns a name as the file spells it, with blanks trimmed and collapsed.
func spelled(name string) string { return strings.Join(strings.Fields(name), " ") }

// declare gives words to names, first to those that are words already, so that they keep their own.
func (w *words) declare(names []string) {
	for _, name := range names {
		if name == asWord(name) {
			w.of(name)
		}
	}
	for _, name := range names {
		w.of(name)
	}
}

// fresh returns a word that no name has.
func (w *words) fresh(base string) string { return w.free(asWord(base) + "_1") }

// local returns a fresh word for a name of the file within one decision, such as a parameter's.
func (w *words) local(name string) string {
	word := w.fresh(name)
	w.locals[word] = spelled(name)
	return word
}

// free returns the word, or the first successor that isn't taken.
func (w *words) free(word string) string {
	base := strings.TrimSuffix(word, "_1")
	candidate := word
	for n := w.next[base]; w.taken[candidate] || reserved[candidate]; n++ {
		suffix := fmt.Sprintf("_%d", n+2)
		stem := base
		if len(stem)+len(suffix) > mostWord {
			stem = stem[:mostWord-len(suffix)]
		}
		if tried := w.next[stem]; tried > n {
			// Longer words with the same truncated stem took the ones in between.
			n = tried - 1
			continue
		}
		candidate = stem + suffix
		w.next[base], w.next[stem] = n+1, n+1
	}
	w.taken[candidate] = true
	return candidate
}

// forgetFresh frees the fresh words, so that a second pass takes the same ones.
func (w *words) forgetFresh() {
	w.next, w.locals = map[string]int{}, map[string]string{}
	w.taken = make(map[string]bool, len(w.names))
	for word := range w.names {
		w.taken[word] = true
	}
}

// latin spells letters beyond ASCII in ASCII.
var latin = strings.NewReplacer(
	"ä", "ae", "ö", "oe", "ü", "ue", "Ä", "Ae", "Ö", "Oe", "Ü", "Ue", "ß", "ss",
	"æ", "ae", "Æ", "Ae", "ø", "o", "Ø", "O", "å", "a", "Å", "A", "œ", "oe", "Œ", "Oe",
	"á", "a", "à", "a", "â", "a", "ã", "a", "ç", "c", "Ç", "C",
	"é", "e", "è", "e", "ê", "e", "ë", "e", "É", "E", "È", "E", "Ê", "E",
	"í", "i", "ì", "i", "î", "i", "ï", "i", "ñ", "n", "Ñ", "N",
	"ó", "o", "ò", "o", "ô", "o", "õ", "o", "ú", "u", "ù", "u", "û", "u", "ý", "y",
	"č", "c", "š", "s", "ž", "z", "Č", "C", "Š", "S", "Ž", "Z", "ł", "l", "Ł", "L", "ő", "o", "ű", "u", "€", "euro")

// asWord spells a name with the letters, digits and underscores of a word.
func asWord(name string) string {
	var word strings.Builder
	for _, r := range latin.Replace(spelled(name)) {
		switch {
		case r >= 'a' && r <= 'z', r >= 'A' && r <= 'Z', r == '_':
			word.WriteRune(r)
		case r >= '0' && r <= '9':
			if word.Len() == 0 {
				word.WriteByte('_')
			}
			word.WriteRune(r)
		default:
			word.WriteByte('_')
		}
	}
	made := word.String()
	if made == "" {
		return "_"
	}
	if len(made) > mostWord {
		made = made[:mostWord]
	}
	return made
}
