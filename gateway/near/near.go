// Package near finds the name that was meant where another one was written.
package near

import (
	"sort"
	"strings"
)

// mostCompared is how many characters of a name are compared.
const mostCompared = 100

// To is the one of some names that is nearest to a name; empty where none is near. A name is near that differs in case,
// blanks and signs alone, or by few letters: one, and one more for each further four.
func To(name string, names []string) string {
	sorted := append([]string(nil), names...)
	sort.Strings(sorted)
	best, found := 2+len(name)/4, ""
	for _, other := range sorted {
		if plain(other) == plain(name) {
			return other
		}
		if d := distance([]rune(plain(name)), []rune(plain(other)), best); d < best {
			best, found = d, other
		}
	}
	return found
}

// plain is a name in small letters without what is no letter and no digit.
func plain(name string) string {
	letters := strings.Map(func(r rune) rune {
		if strings.ContainsRune(" _-.:'\t\n", r) {
			return -1
		}
		return r
	}, strings.ToLower(name))
	if len(letters) > mostCompared {
		return strings.ToValidUTF8(letters[:mostCompared], "")
	}
	return letters
}

// distance counts the letters to put in, take out or change between two names; it is the limit where it is as much.
func distance(a, b []rune, limit int) int {
	if len(a)-len(b) >= limit || len(b)-len(a) >= limit {
		return limit
	}
	row := make([]int, len(b)+1)
	for j := range row {
		row[j] = j
	}
	for i := range a {
		diagonal := row[0]
		row[0] = i + 1
		for j := range b {
			change := diagonal
			if a[i] != b[j] {
				change++
			}
			diagonal = row[j+1]
			row[j+1] = least(change, row[j]+1, row[j+1]+1)
		}
	}
	return least(row[len(b)], limit, limit)
}

func least(a, b, c int) int {
	if b < a {
		a = b
	}
	if c < a {
		a = c
	}
	return a
}
