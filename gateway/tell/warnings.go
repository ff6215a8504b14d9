package tell

import (
	"fmt"

	"gateway/lines"
)

// warnings reports oddities in a valid model: repeated keys, texts with hidden letters, and then the rest.
func (r *report) warnings() {
	r.repeatedKeys()
	r.hiddenLetters()
	found, counts := oddities(r.file.model)
	reported := r.reportedByTables()
	for _, it := range found {
		if reported.has(it) {
			continue
		}
		r.warning(it.kind, it.place, r.file.position(it.place), it.said)
	}
	for _, kind := range oddKinds {
		r.moreWarnings(kind, counts[kind]-mostPlaces)
	}
	r.unusedDefaults()
}

func (r *report) warning(kind string, place Place, spot Spot, said string) {
	words := r.file.words(place)
	r.noticeAt(kindName(ofWarning, kind), Warning, spot, place.Pointer(), afterColon(words, said))
	r.put(func() string {
		return fmt.Sprintf("warning: %s%s\n", r.file.spotWords(spot), afterColon(words, said))
	}, func() string {
		return object(nil).text("warning", kind).text("pointer", place.Pointer()).text("place", words).text("said", said).
			position(spot).line()
	})
}

func (r *report) moreWarnings(kind string, more int) {
	if more <= 0 {
		return
	}
	r.put(func() string { return fmt.Sprintf("warning: and %d more: %s\n", more, kind) },
		func() string { return object(nil).text("warning", kind).number("more", more).line() })
	r.noticeAt(kindName(ofWarning, kind), Warning, r.file.whole(), "", fmt.Sprintf("and %d more places", more))
}

const repeatedKey = "repeated key"

// A repeat is the place of an object, and a key where it comes for the second time.
type repeat struct {
	place  Place
	key    string
	second lines.Node
}

// repeatedKeys reports the keys that an object of the model repeats, the model itself included.
func (r *report) repeatedKeys() {
	if second, ok := r.file.doc.Second(r.file.doc.Whole, "model"); ok {
		r.repeated(repeat{key: "model", second: second})
	}
	s := repeats{doc: r.file.doc}
	s.look(r.file.root)
	for _, it := range s.found {
		r.repeated(it)
	}
	r.moreWarnings(repeatedKey, s.count-len(s.found))
}

func (r *report) repeated(it repeat) {
	r.warning(repeatedKey, it.place, r.file.spot(it.second), "the key "+it.key+" stands more than once, and the last one counts")
}

// A repeats searches for repeated keys.
type repeats struct {
	doc   *lines.Document
	place Place
	found []repeat
	count int
}

// look looks at a value: first its keys, then its parts. Of members with one key only the last counts.
func (s *repeats) look(part lines.Node) {
	switch s.doc.Kind(part) {
	case '[':
		for at, item := range s.doc.Items(part) {
			s.within(index(at), item)
		}
	case '{':
		members, repeated := s.doc.InOrder(part)
		for _, it := range repeated {
			s.count++
			if len(s.found) < mostPlaces {
				s.found = append(s.found, repeat{s.place.with(), it.Key, it.Value})
			}
		}
		for _, member := range members {
			s.within(key(member.Key), member.Value)
		}
	}
}

func (s *repeats) within(step Step, part lines.Node) {
	s.place = append(s.place, step)
	s.look(part)
	s.place = s.place[:len(s.place)-1]
}
