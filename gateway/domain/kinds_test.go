package domain

import (
	"encoding/json"
	"fmt"
	"math/big"
	"reflect"
	"strings"
	"testing"
	"time"

	"gateway/domain/domaintest"
	"gateway/lines"
)

// numbersOf words intervals as in mathematics.
func numbersOf(all []Interval) string {
	var words []string
	for _, it := range all {
		low, high := "[", "]"
		if it.LowOpen {
			low = "("
		}
		if it.HighOpen {
			high = ")"
		}
		words = append(words, strings.ReplaceAll(fmt.Sprint(low, it.Low, "..", it.High, high), "<nil>", ""))
	}
	return strings.Join(words, " ")
}

// TestKinds are worked out by hand: the numbers of a domain, its texts, its lists, and which of null, true, false and contexts it has.
func TestKinds(t *testing.T) {
	for _, it := range []struct{ domain, numbers, texts, lists, more string }{
		{"-", "[..]", "all but []", "all but []", "null true false contexts"},
		{"not(null)", "[..]", "all but []", "all but []", "true false contexts"},
		{">= 0", "[0..]", "[]", "[]", ""},
		{"(0..120)", "(0..120)", "[]", "[]", ""},
		{"[0..9], [10..19], null", "[0..9] [10..19]", "[]", "[]", "null"},
		{"[0..9], [9..19]", "[0..19]", "[]", "[]", ""},
		{"< 5, >= 5", "[..]", "[]", "[]", ""},
		{"< 5, > 5", "[..5) (5..]", "[]", "[]", ""},
		{"1, 2, 4", "[1..1] [2..2] [4..4]", "[]", "[]", ""},
		{"(1..3)", "(1..3)", "[]", "[]", ""},
		{"(1..2)", "", "[]", "[]", ""},
		{"[5..1]", "", "[]", "[]", ""},
		{">= -9223372036854775807", "[..]", "[]", "[]", ""},
		{"<= 9223372036854775807, true", "[..]", "[]", "[]", "true"},
		{"> -9223372036854775807", "(-9223372036854775807..]", "[]", "[]", ""},
		{"-9223372036854775807, 9223372036854775807", "[..-9223372036854775807] [9223372036854775807..]", "[]", "[]", ""},
		{"not(5)", "[..5) (5..]", "all but []", "all but []", "null true false contexts"},
		{"not(< 3)", "[3..]", "[]", "[]", ""},
		{`"b", "a"`, "", `["a","b"]`, "[]", ""},
		{`>= ""`, "", "all but []", "[]", ""},
		{`> ""`, "", `all but [""]`, "[]", ""},
		{`["a".."m"]`, "", "by order", "[]", ""},
		{`not("a", null)`, "[..]", `all but ["a"]`, "all but []", "true false contexts"},
		{"[1, 5]", "[1..1] [5..5]", "[]", "[[1,5]]", ""},
		{"not([1, 5])", "[..1) (1..5) (5..]", "all but []", "all but [[1,5]]", "null true false contexts"},
		{"[]", "", "[]", "[[]]", ""},
		{"1, < 9223372036854775807 + 1", "", "[]", "[]", ""},
	} {
		d, is := Read(it.domain)
		if !is {
			t.Fatalf("%s can't be read", it.domain)
		}
		k, more := d.Kinds(), []string{}
		for at, is := range []bool{k.Null, k.True, k.False, k.Contexts} {
			if is {
				more = append(more, []string{"null", "true", "false", "contexts"}[at])
			}
		}
		some := func(of Some) string {
			if of.ByOrder {
				return "by order"
			}
			return strings.Repeat("all but ", map[bool]int{true: 1}[of.Others]) + string(lines.Compact(nil, append([]any{}, of.Listed...)))
		}
		got := []string{numbersOf(k.Numbers), some(k.Texts), some(k.Lists), strings.Join(more, " ")}
		if due := []string{it.numbers, it.texts, it.lists, it.more}; !reflect.DeepEqual(got, due) {
			t.Errorf("%s: %q, and %q is due", it.domain, got, due)
		}
	}
	var every *Domain
	if any, _ := Read("-"); !reflect.DeepEqual(every.Kinds(), any.Kinds()) {
		t.Errorf("no domain is %+v", every.Kinds())
	}
}

// kindsHave reports whether a value is one of the kinds; texts by order count as both.
func kindsHave(k Kinds, tree any) (is, isOpen bool) {
	some := func(of Some) (bool, bool) {
		for _, one := range of.Listed {
			if reflect.DeepEqual(one, tree) {
				return !of.Others, false
			}
		}
		return of.Others, of.ByOrder
	}
	switch tree := tree.(type) {
	case nil:
		return k.Null, false
	case bool:
		return tree && k.True || !tree && k.False, false
	case string:
		return some(k.Texts)
	case []any:
		return some(k.Lists)
	case json.Number:
		at, _ := new(big.Int).SetString(tree.String(), 10)
		for _, it := range k.Numbers {
			low, high := big.NewInt(-lines.MaxNumber-1), new(big.Int).Lsh(big.NewInt(1), 64)
			if it.Low != nil {
				low.SetString(it.Low.(json.Number).String(), 10)
			}
			if it.High != nil {
				high.SetString(it.High.(json.Number).String(), 10)
			}
			below, above := at.Cmp(low), high.Cmp(at)
			if (below > 0 || below == 0 && !it.LowOpen) && (above > 0 || above == 0 && !it.HighOpen) {
				return true, false
			}
		}
		return false, false
	}
	return k.Contexts, false
}

// TestDrawnKinds compares the kinds of drawn domains with what lies in them.
func TestDrawnKinds(t *testing.T) {
	seed := time.Now().UnixNano()
	draw, asked, in := domaintest.New(seed), 0, 0
	for n := 0; n < 5_000; n++ {
		text := draw.Domain()
		d, is := Read(text)
		if !is {
			continue
		}
		k := d.Kinds()
		for m := 0; m < 30; m++ {
			value := draw.Value(2)
			of, is := tree(t, value), false
			due := d.Has(of)
			got, isOpen := kindsHave(k, of)
			if is = got != due && !isOpen; is {
				t.Fatalf("seed %d: %s in %q: %v, and %v is due", seed, value, text, got, due)
			}
			asked++
			if due {
				in++
			}
		}
	}
	if in < asked/10 || in > asked*9/10 {
		t.Errorf("seed %d: %d of %d lie in their domains", seed, in, asked)
	}
}

// TestLacking are worked out by hand: what is missing or null in a value, and what can't be null for it.
func TestLacking(t *testing.T) {
	const one, two = `x.a [0..9]; x.b.c "u"; x.b.d >= 0, null`, `x not(null); x.a [0..9], null`
	for _, it := range []struct{ domains, value, due string }{
		{`x [0..9]`, `5`, ""},
		{`x [0..9]`, `null`, "x null: x"},
		{`x [0..9]`, ``, "x missing: x"},
		{`x [0..9], null`, ``, ""},
		{one, `{"a":1,"b":{"c":"u"}}`, ""},
		{one, `{"a":1,"b":{"c":"w","d":null}}`, ""},
		{one, `{"b":{"c":"u"}}`, "x.a missing: x.a"},
		{one, `{"a":null,"b":{"c":"u"}}`, "x.a null: x.a"},
		{one, `{"a":1}`, "x.b missing: x.b.c"},
		{one, `{"a":1,"b":null}`, "x.b null: x.b.c"},
		{one, `{"a":1,"b":{}}`, "x.b.c missing: x.b.c"},
		{one, `{"a":1,"b":"u"}`, "x.b.c missing: x.b.c"},
		{one, `{"a":1,"b":[{"c":"u"},{}]}`, ""},
		{one, `7`, "x.a missing: x.a"},
		{one, `[]`, ""},
		{one, `null`, "x null: x.a"},
		{one, ``, "x missing: x.a"},
		{two, `{}`, ""},
		{two, `7`, ""},
		{two, `null`, "x null: x"},
		{`x -; x.a 5`, `{"a":null}`, "x.a null: x.a"},
	} {
		domains := map[string]string{}
		for _, part := range strings.Split(it.domains, "; ") {
			path, domain, _ := strings.Cut(part, " ")
			domains[path] = domain
		}
		places, _ := Places(domains)
		found, got := places["x"].Missing(), ""
		if it.value != "" {
			found = places["x"].Lacking(tree(t, it.value))
		}
		if found != nil {
			state := "missing"
			if found.IsNull {
				state = "null"
			}
			path := func(keys []string) string { return strings.Join(append([]string{"x"}, keys...), ".") }
			got = fmt.Sprintf("%s %s: %s", path(found.Path), state, path(found.Of))
		}
		if got != it.due {
			t.Errorf("%s of %s: %q, and %q is due", it.value, it.domains, got, it.due)
		}
	}
	places, _ := Places(map[string]string{"x.a": "[0..9]", "x.b.c": `"u"`, "x.b.d": "null", "x.e.f": "-"})
	if x := places["x"]; fmt.Sprint(x.Needed()) != "[a b b.c]" || !x.NeedsParts() || !x.IsNeeded() || x.MayBeList() || !x.Part("e").MayBeList() {
		t.Errorf("%v %v %v %v", x.Needed(), x.NeedsParts(), x.IsNeeded(), x.MayBeList())
	}
}
