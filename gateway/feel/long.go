package feel

import (
	"hash/maphash"
	"math/bits"
)

// A text may have names of a thousand tokens in scope, and begin one at each of its tokens. So only the first tokens
// are followed one by one. How far the text follows some name is then found by bisection, on hashes of the names'
// beginnings, and the name found is compared with the text.

// mostFollowed is how many tokens of a name are followed one by one.
const mostFollowed = 16

// A stem is the beginning of a name, longer than mostFollowed tokens.
type stem struct {
	branch *branch
	// before is the stem without the last token; nil if that is followed one by one.
	before *stem
	size   int
	// longest is the longest stem within it that is a name, as of some version of the scope; nil if there is none.
	longest *stem
	version int
}

// stems are those of a scope by their hashes.
type stems struct {
	byHash  map[uint64]*stem
	longest int
	// version counts the names that are beginnings of earlier names.
	version int
}

// add adds a name's tokens, the first of which were followed to a branch, and returns the branch of the last one.
func (s *stems) add(name string, all []token, from *branch) *branch {
	if s.byHash == nil {
		s.byHash = map[uint64]*stem{}
	}
	var hash uint64
	var before *stem
	for i, t := range all {
		hash = hashed(hash, name[t.start:t.end])
		if i < mostFollowed {
			continue
		}
		found := s.byHash[hash]
		if found == nil {
			found = &stem{branch: from.grown(name[t.start:t.end]), before: before, size: i + 1, version: -1}
			s.byHash[hash] = found
		} else if i == len(all)-1 && !found.branch.ends {
			s.version++
		}
		before, from = found, found.branch
	}
	if len(all) > s.longest {
		s.longest = len(all)
	}
	return from
}

// name returns the longest name among a stem and its own beginnings.
func (s *stems) name(at *stem) *stem {
	var passed []*stem
	for at != nil && at.version != s.version && !at.branch.ends {
		passed = append(passed, at)
		at = at.before
	}
	if at != nil && !at.branch.ends {
		at = at.longest
	}
	for _, each := range passed {
		each.longest, each.version = at, s.version
	}
	return at
}

// find returns the longest name of more than mostFollowed tokens at a token of a text.
func (s *stems) find(r *reading, at, end int) *stem {
	if s.longest == 0 {
		return nil
	}
	sums := r.hashes()
	low, high := mostFollowed, s.longest
	if high > end-at {
		high = end - at
	}
	var found *stem
	for low < high {
		middle := (low + high + 1) / 2
		if next := s.byHash[sums.of(at, middle)]; next != nil {
			found, low = next, middle
		} else {
			high = middle - 1
		}
	}
	return s.name(found)
}

// A reading is a text with its tokens.
type reading struct {
	source string
	all    []token
	// kept are the hashes once needed.
	kept *sums
}

func (r *reading) spell(t token) string { return r.source[t.start:t.end] }

func (r *reading) hashes() *sums {
	if r.kept == nil {
		r.kept = &sums{make([]uint64, len(r.all)+1), make([]uint64, len(r.all)+1)}
		r.kept.powers[0] = 1
		for i, t := range r.all {
			r.kept.beginnings[i+1] = hashed(r.kept.beginnings[i], r.spell(t))
			r.kept.powers[i+1] = multiplied(r.kept.powers[i], base)
		}
	}
	return r.kept
}

// sums are the hashes of the beginnings of a text, and the powers of the base.
type sums struct{ beginnings, powers []uint64 }

// of returns the hash of some tokens.
func (s *sums) of(from, count int) uint64 {
	return reduced(s.beginnings[from+count] + modulus - multiplied(s.beginnings[from], s.powers[count]))
}

// modulus is a prime. base and seed differ in each process, so that no file can be made to collide.
const modulus = 1<<61 - 1

var (
	seed = maphash.MakeSeed()
	base = reduced(maphash.String(seed, "base")) | 1<<32
)

// hashed returns the hash of tokens and one more.
func hashed(before uint64, token string) uint64 {
	return reduced(multiplied(before, base) + reduced(maphash.String(seed, token)))
}

// reduced returns a number below 2^64 by the modulus.
func reduced(n uint64) uint64 {
	n = n&modulus + n>>61
	if n >= modulus {
		n -= modulus
	}
	return n
}

func multiplied(a, b uint64) uint64 {
	high, low := bits.Mul64(a, b)
	return reduced(low&modulus + (low>>61 | high<<3))
}
