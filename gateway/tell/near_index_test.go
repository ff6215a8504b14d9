package tell

import (
	"math/rand"
	"strings"
	"testing"
)

// TestNearIndex finds in an index what comparing one by one finds.
func TestNearIndex(t *testing.T) {
	draw := rand.New(rand.NewSource(1))
	word := func() string {
		letters := make([]byte, draw.Intn(7))
		for at := range letters {
			letters[at] = "abc\xff"[draw.Intn(4)]
		}
		return string(letters)
	}
	found := 0
	for turn := 0; turn < 2_000; turn++ {
		is, without := set{}, set{}
		for len(is) < fewNames+draw.Intn(60) {
			is[word()] = true
		}
		var names, left []string
		for name := range is {
			names = append(names, name)
			if draw.Intn(3) == 0 {
				without[name] = true
			} else {
				left = append(left, name)
			}
		}
		index := &nameIndex{names: names}
		for n := 0; n < 20; n++ {
			asked := word()
			due := nearIn(left, asked)
			if due != "" {
				found++
			}
			if got := index.near(asked, without); got != due {
				t.Fatalf("of %q without %v near %q is %q, and %q is due", names, without, asked, got, due)
			}
		}
	}
	if found < 1_000 {
		t.Errorf("only %d were near", found)
	}
}

// TestLongNames searches for names of one letter repeated, which match at each place.
func TestLongNames(t *testing.T) {
	var names []string
	for n := 0; n < fewNames+1; n++ {
		names = append(names, strings.Repeat("a", 20_000+3*n))
	}
	index := &nameIndex{names: names}
	if got := index.near(strings.Repeat("a", 20_004), nil); got != names[1] {
		t.Errorf("a name of %d bytes was found", len(got))
	}
}
