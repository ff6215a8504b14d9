package tell

// fewNames is how many names are compared one by one.
const fewNames = 32

// A nameIndex finds the first of many names that is near another one. Near names are equal but for one place, so the index
// keeps sums of each name with each of its bytes left open. The time of a search doesn't grow with the number of names.
type nameIndex struct {
	names []string
	// whole and open map a sum to the last place of a name with it, and earlier links to the one before.
	whole, open map[uint64]int32
	earlier     []placed
}

// A placed is a name's place, and the place of the one before with the same sum; 0 for none.
type placed struct{ name, before int32 }

const (
	// base is the base of the sums: any large odd number.
	base uint64 = 0x9e3779b97f4a7c15
	// anyByte stands for a byte that is left open.
	anyByte uint64 = 257
)

// A sums holds the sums of a text's prefixes, and the powers of the base up to its length.
type sums struct {
	text          string
	heads, powers []uint64
}

func sumsOf(text string) *sums {
	s := &sums{text, make([]uint64, len(text)+1), make([]uint64, len(text)+2)}
	s.powers[0] = 1
	for at := range []byte(text) {
		s.heads[at+1] = s.heads[at]*base + uint64(text[at]) + 1
		s.powers[at+1] = s.powers[at] * base
	}
	s.powers[len(text)+1] = s.powers[len(text)] * base
	return s
}

// with returns the sum of the text with letters in place of the bytes between from and to.
func (s *sums) with(from, to int, letters ...uint64) uint64 {
	sum := s.heads[from]
	for _, it := range letters {
		sum = sum*base + it
	}
	rest := s.powers[len(s.text)-to]
	return sum*rest + s.heads[len(s.text)] - s.heads[to]*rest
}

func (x *nameIndex) make() {
	letters := 0
	for _, name := range x.names {
		letters += len(name)
	}
	x.whole, x.open = make(map[uint64]int32, len(x.names)), make(map[uint64]int32, letters)
	x.earlier = make([]placed, 1, 1+len(x.names)+letters)
	for place, name := range x.names {
		s := sumsOf(name)
		x.keep(x.whole, s.with(0, 0), place)
		for at := range []byte(name) {
			x.keep(x.open, s.with(at, at+1, anyByte), place)
		}
	}
}

func (x *nameIndex) keep(in map[uint64]int32, sum uint64, place int) {
	x.earlier = append(x.earlier, placed{int32(place), in[sum]})
	in[sum] = int32(len(x.earlier) - 1)
}

// near returns the first near name that is not in without, or "".
func (x *nameIndex) near(name string, without set) string {
	if len(x.names) <= fewNames {
		for _, other := range x.names {
			if !without[other] && isNear(other, name) {
				return other
			}
		}
		return ""
	}
	if x.whole == nil {
		x.make()
	}
	s, best := sumsOf(name), int32(len(x.names))
	// (a name of one letter matches at each of its places)
	tried := map[int32]bool{}
	try := func(at int32) {
		for ; at != 0; at = x.earlier[at].before {
			place := x.earlier[at].name
			if place >= best || tried[place] {
				continue
			}
			tried[place] = true
			if !without[x.names[place]] && isNear(x.names[place], name) {
				best = place
			}
		}
	}
	for at := 0; at <= len(name); at++ {
		try(x.open[s.with(at, at, anyByte)])
		if at < len(name) {
			try(x.open[s.with(at, at+1, anyByte)])
			try(x.whole[s.with(at, at+1)])
		}
		if at+1 < len(name) {
			try(x.whole[s.with(at, at+2, uint64(name[at+1])+1, uint64(name[at])+1)])
		}
	}
	if best == int32(len(x.names)) {
		return ""
	}
	return x.names[best]
}
