package types

import (
	"fmt"
	"math/rand"
	"strings"
	"testing"

	"gateway/lines"
)

// TestNeeds are worked out by hand: of paths and a value, what is lacking.
func TestNeeds(t *testing.T) {
	const two = "a b b.c b.d"
	for _, it := range []struct{ paths, value, due string }{
		{"", `{}`, ""},
		{"", `null`, ""},
		{"a", `{"a":1}`, ""},
		{"a", `{"a":[null]}`, ""},
		{"a", `{"a":{"b":null}}`, ""},
		{"a", `{ "b" : [ ] , "a" : "" }`, ""},
		{"a", `{}`, "a missing"},
		{"a", `{"a":null}`, "a null"},
		{"a", `{"a": null }`, "a null"},
		{"a", `{"A":1}`, "a missing"},
		{"a", `{"a":null,"a":1}`, ""},
		{"a", `{"a":1,"a":null}`, "a null"},
		{"a", `{"\u0061":1}`, ""},
		{"a", `{"\u0061":null}`, "a null"},
		{"a", `{"b":"\"","a":1}`, ""},
		{"a", `{"b":"a\\","a":null}`, "a null"},
		{"a", `null`, "a missing"},
		{"a", `[{"a":1}]`, "a missing"},
		{"a", `"a"`, "a missing"},
		{two, `{"a":1,"b":{"c":1,"d":1}}`, ""},
		{two, `{"b":{"d":false,"c":[]},"a":{}}`, ""},
		{two, `{"b":{"d":1,"c":1}}`, "a missing"},
		{two, `{"a":1}`, "b missing"},
		{two, `{"a":1,"b":null}`, "b null"},
		{two, `{"a":1,"b":{}}`, "b.c missing"},
		{two, `{"a":1,"b":{"c":1,"d":null}}`, "b.d null"},
		{two, `{"a":1,"b":{"c":1},"b":{"c":1,"d":1}}`, ""},
		{two, `{"a":1,"b":{"c":1,"d":1},"b":{"c":1}}`, "b.d missing"},
		{two, `{"a":1,"b":{"c":1,"c":1}}`, "b.d missing"},
		{two, `{"a":1,"b":[{"c":1,"d":1}]}`, "b.c missing"},
		{two, `{"a":1,"b":7}`, "b.c missing"},
		{"b.c", `{"b":{}}`, "b.c missing"},
		{"b.c", `{}`, "b missing"},
		{"x.y.z x.y x", `{"x":{"y":{"z":null}}}`, "x.y.z null"},
		{"x x", `{"x":1}`, ""},
	} {
		if got := lacking(t, strings.Fields(it.paths), it.value); got != it.due {
			t.Errorf("%s of %q: %q, and %q is due", it.value, it.paths, got, it.due)
		}
	}
}

// lacking returns what a value lacks, in words, and says where the text is taken for one that has all, and isn't.
func lacking(t *testing.T, paths []string, text string) string {
	t.Helper()
	value, err := lines.Tree([]byte(text))
	if err != nil {
		t.Fatal(err)
	}
	needs := NeedsOf(paths)
	path, isNull := needs.Lacking(value)
	if needs.AreMet([]byte(text)) && path != nil {
		t.Errorf("%s of %q: what is seen of the text differs", text, paths)
	}
	switch {
	case path == nil:
		return ""
	case isNull:
		return strings.Join(path, ".") + " null"
	}
	return strings.Join(path, ".") + " missing"
}

// TestNeedsOfMany compares what is lacking with what each path leads to.
func TestNeedsOfMany(t *testing.T) {
	random, plain := rand.New(rand.NewSource(80)), 0
	for n := 0; n < 20_000; n++ {
		var paths []string
		for _, path := range []string{"a", "b", "a.a", "a.b", "a.a.a", "c"} {
			if random.Intn(3) == 0 {
				paths = append(paths, path)
			}
		}
		text := someValue(random, random.Intn(5))
		value, err := lines.Tree([]byte(text))
		if err != nil {
			t.Fatal(err)
		}
		isLacking := false
		for _, path := range paths {
			part := value
			for _, key := range strings.Split(path, ".") {
				object, _ := part.(map[string]any)
				part = object[key]
			}
			isLacking = isLacking || part == nil
		}
		if got := lacking(t, paths, text); (got != "") != isLacking {
			t.Errorf("%s of %q: lacks %q", text, paths, got)
		}
		if len(paths) > 0 && NeedsOf(paths).AreMet([]byte(text)) {
			plain++
		}
	}
	if plain < 200 {
		t.Errorf("what is needed was seen %d times", plain)
	}
}

// nested is an object with as many levels, and as many members in its innermost; and the paths to them all.
func nested(levels, members int) (text string, paths []string) {
	way := ""
	for level := 1; level < levels; level++ {
		text += `{"n":`
		way += "n"
		paths = append(paths, way)
		way += "."
	}
	inner := make([]string, members)
	for at := range inner {
		inner[at] = fmt.Sprintf(`"c%d":%d`, at, at)
		paths = append(paths, way+fmt.Sprintf("c%d", at))
	}
	return text + "{" + strings.Join(inner, ",") + "}" + strings.Repeat("}", levels-1), paths
}

// TestLargeNeeds has thousands of members, and many levels; the last one is missed too.
func TestLargeNeeds(t *testing.T) {
	for _, it := range [][2]int{{1, 9_999}, {20, 4_981}, {100, 1}, {1, 64}, {1, 65}} {
		text, paths := nested(it[0], it[1])
		needs := NeedsOf(paths)
		if count := needed(needs); count != len(paths) || !needs.AreMet([]byte(text)) {
			t.Errorf("%v: %d of %d, or what is needed isn't seen", it, count, len(paths))
		}
		last := fmt.Sprintf(`"c%d":`, it[1]-1)
		if got := lacking(t, paths, strings.Replace(text, last, `"other":`, 1)); got != paths[len(paths)-1]+" missing" {
			t.Errorf("%v: %q", it, got)
		}
	}
}

// needed counts all that is needed.
func needed(of *Needs) (count int) {
	of.Each(func(_ string, within *Needs) { count += 1 + needed(within) })
	return count
}

func BenchmarkNeeds(b *testing.B) {
	for _, it := range [][2]int{{1, 5}, {2, 50}, {20, 4_981}} {
		text, paths := nested(it[0], it[1])
		needs := NeedsOf(paths)
		b.Run(fmt.Sprint(it), func(b *testing.B) {
			b.SetBytes(int64(len(text)))
			for n := 0; n < b.N; n++ {
				needs.AreMet([]byte(text))
			}
		})
	}
}
