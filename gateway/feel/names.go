package feel

import "strings"

// A Scope has the names that a text may use. A name in an inner scope hides the same name in an outer one. Of two names
// that begin alike the longer one is taken, in any scope it is.
type Scope struct {
	parent *Scope
	first  branch
	// count is how many names it has, starts has the marks of their first tokens.
	count  int
	starts uint64
	// long has what follows the first tokens of long names.
	long stems
}

// mark returns one of 64 bits for a token.
func mark(token string) uint64 {
	sum := uint(len(token))
	for i := 0; i < len(token) && i < 8; i++ {
		sum = 31*sum + uint(token[i])
	}
	return 1 << (sum % 64)
}

// mostTried is how many branches are searched one by one. For more there is a table.
const mostTried = 4

// branch is the names of a scope by their first token, then by the next.
type branch struct {
	// few are the first branches by their tokens, next has the others.
	few  []fork
	next map[string]*branch
	// ends is true if a name ends here, spelled is how it was written where declared.
	ends    bool
	spelled string
}

// A fork is a token with the branch after it.
type fork struct {
	token string
	to    *branch
}

// NewScope returns a scope inside another one, which may be nil.
func NewScope(parent *Scope, names ...string) *Scope {
	s := &Scope{parent: parent}
	for _, name := range names {
		s.Add(name)
	}
	return s
}

// Add puts a name into scope. A name that can't be cut into tokens can't be written in a text, and is left out.
func (s *Scope) Add(name string) {
	if isPlainWord(name) {
		at := s.first.grown(name)
		at.ends, at.spelled = true, name
		s.count++
		s.starts |= mark(name)
		return
	}
	all := nameTokens(name)
	if len(all) == 0 {
		return
	}
	at := &s.first
	for i, t := range all {
		if i == mostFollowed {
			at = s.long.add(name, all, at)
			break
		}
		at = at.grown(name[t.start:t.end])
	}
	at.ends, at.spelled = true, strings.Join(strings.Fields(name), " ")
	s.count++
	s.starts |= mark(name[all[0].start:all[0].end])
}

// after returns the branch after a token; nil if there is none.
func (b *branch) after(token string) *branch {
	for i := range b.few {
		if b.few[i].token == token {
			return b.few[i].to
		}
	}
	if b.next == nil {
		return nil
	}
	return b.next[token]
}

// grown returns the branch after a token, and makes it if necessary.
func (b *branch) grown(token string) *branch {
	if found := b.after(token); found != nil {
		return found
	}
	made := &branch{}
	if len(b.few) < mostTried {
		b.few = append(b.few, fork{token, made})
		return made
	}
	if b.next == nil {
		b.next = map[string]*branch{}
	}
	b.next[token] = made
	return made
}

// Canonical returns a name as FEEL compares it: its tokens separated by one blank. Names with the same canonical form
// are the same name.
func Canonical(name string) string {
	if isPlainWord(name) {
		return name
	}
	all := nameTokens(name)
	if len(all) == 0 {
		return strings.Join(strings.Fields(name), " ")
	}
	words := make([]string, 0, len(all))
	for _, t := range all {
		words = append(words, name[t.start:t.end])
	}
	return strings.Join(words, " ")
}

// isPlainWord reports whether a name is one word of ASCII letters, digits and underscores, and so one token.
func isPlainWord(name string) bool {
	for i := 0; i < len(name); i++ {
		switch c := name[i]; {
		case c >= 'a' && c <= 'z', c >= 'A' && c <= 'Z', c == '_':
		case c >= '0' && c <= '9' && i > 0:
		default:
			return false
		}
	}
	return name != ""
}

// nameTokens returns the tokens of a name without the end of the text; none if it can't be cut.
func nameTokens(name string) []token {
	if strings.Contains(name, "//") || strings.Contains(name, "/*") {
		return nil
	}
	all, fault := tokens(name)
	if fault != nil {
		return nil
	}
	return all[:len(all)-1]
}

// longest returns the length in tokens and the declared spelling of the longest name that begins at a token; 0 if there
// is none.
func (s *Scope) longest(r *reading, at, end int) (int, string) {
	best, spelled := 0, ""
	if at >= end {
		return best, spelled
	}
	first := mark(r.spell(r.all[at]))
	for ; s != nil; s = s.parent {
		if s.starts&first == 0 {
			continue
		}
		taken, found := s.longestHere(r, at, end)
		if taken > best {
			best, spelled = taken, found
		}
	}
	return best, spelled
}

// longestHere returns longest for this scope alone.
func (s *Scope) longestHere(r *reading, at, end int) (best int, spelled string) {
	b := &s.first
	for i := at; i < end; i++ {
		if i-at == mostFollowed {
			if found := s.long.find(r, at, end); found != nil && s.isName(r, at, found) {
				return found.size, found.branch.spelled
			}
			return best, spelled
		}
		b = b.after(r.spell(r.all[i]))
		if b == nil {
			return best, spelled
		}
		if b.ends {
			best, spelled = i+1-at, b.spelled
		}
	}
	return best, spelled
}

// isName reports whether the tokens at a place are those of a name found by its hash.
func (s *Scope) isName(r *reading, at int, found *stem) bool {
	b := &s.first
	for i := at; i < at+found.size && b != nil; i++ {
		b = b.after(r.spell(r.all[i]))
	}
	return b == found.branch
}

// hasShorter reports whether a shorter name ends within the tokens of a name.
func (s *Scope) hasShorter(r *reading, at, end int) bool {
	taken, _ := s.longest(r, at, end-1)
	return taken > 0
}

// keywords begin or divide forms, so names that aren't in scope end before them.
var keywords = map[string]bool{
	"if": true, "then": true, "else": true, "for": true, "in": true, "return": true, "some": true, "every": true,
	"satisfies": true, "and": true, "or": true, "not": true, "between": true, "true": true, "false": true, "null": true,
	"function": true, "external": true, "instance": true,
}

// builtins are FEEL's own functions with names of more than one word.
var builtins = NewScope(nil, "date and time", "years and months duration", "string length", "upper case", "lower case",
	"substring before", "substring after", "starts with", "ends with", "list contains", "insert before", "index of",
	"distinct values", "met by", "overlaps before", "overlaps after", "finished by", "started by", "get value",
	"get entries", "day of year", "day of week", "month of year", "week of year", "string join", "context put",
	"context merge", "list replace", "round up", "round down", "round half up", "round half down", "is defined",
	"get or else")
