package feel

import (
	"math/rand"
	"strings"
	"testing"
)

// followed returns longest, by following each name of a scope separately.
func followed(s *Scope, names map[*Scope][]string, r *reading, at int) (best int) {
	for ; s != nil; s = s.parent {
		for _, name := range names[s] {
			words := strings.Fields(name)
			is := len(words) <= len(r.all)-at
			for i := 0; is && i < len(words); i++ {
				is = r.spell(r.all[at+i]) == words[i]
			}
			if is && len(words) > best {
				best = len(words)
			}
		}
	}
	return best
}

// TestLongNames asks for the names at each token of texts of few letters, among many names that begin alike, some of
// them added between two questions.
func TestLongNames(t *testing.T) {
	random := rand.New(rand.NewSource(5))
	text := func(most int) string {
		var words []string
		for i := 0; i <= random.Intn(most); i++ {
			words = append(words, strings.Repeat("a ", random.Intn(most/2+1))+string(rune('a'+random.Intn(2))))
		}
		return strings.Join(words, " ")
	}
	for round := 0; round < 100; round++ {
		outer := NewScope(nil)
		s := NewScope(outer)
		names := map[*Scope][]string{}
		for asked := 0; asked < 6; asked++ {
			for i := 0; i < 4; i++ {
				in := []*Scope{s, outer}[random.Intn(2)]
				name := text(10)
				if all := names[in]; len(all) > 0 && random.Intn(2) == 0 {
					words := strings.Fields(all[random.Intn(len(all))])
					name = strings.Join(words[:1+random.Intn(len(words))], " ")
				}
				in.Add(name)
				names[in] = append(names[in], name)
			}
			source := text(20)
			all, fault := tokens(source)
			if fault != nil {
				t.Fatal(fault)
			}
			r := &reading{source: source, all: all}
			for at := range all {
				if came, _ := s.longest(r, at, len(all)); came != followed(s, names, r, at) {
					t.Fatalf("at %d of %q came %d, and %d is due, of %v", at, source, came, followed(s, names, r, at), names)
				}
			}
		}
	}
}
