package feel

import (
	"fmt"
	"reflect"
	"strings"
	"testing"
)

// spelled writes a tree with all its parentheses, for comparison in tests.
func spelled(n Node) string {
	switch n := n.(type) {
	case *Number:
		return n.Text
	case *String:
		return fmt.Sprintf("%q", n.Value)
	case *Boolean:
		return fmt.Sprint(n.Value)
	case *Null:
		return "null"
	case *Name:
		if !n.Known {
			return "unknown<" + n.Name + ">"
		}
		if n.Doubtful {
			return "doubtful<" + n.Name + ">"
		}
		return "<" + n.Name + ">"
	case *Input:
		return "?"
	case *Chain:
		text := "(" + spelled(n.Operands[0])
		for i, operator := range n.Operators {
			text += " " + operator + " " + spelled(n.Operands[i+1])
		}
		return text + ")"
	case *Binary:
		return "(" + spelled(n.Left) + " " + n.Operator + " " + spelled(n.Right) + ")"
	case *Negation:
		return "-" + spelled(n.Operand)
	case *Path:
		if n.Respelled {
			return spelled(n.Operand) + ".respelled<" + n.Name + ">"
		}
		return spelled(n.Operand) + ".<" + n.Name + ">"
	case *Range:
		low, high := "[", "]"
		if n.LowOpen {
			low = "("
		}
		if n.HighOpen {
			high = ")"
		}
		return low + spelled(n.Low) + ".." + spelled(n.High) + high
	case *Context:
		var entries []string
		for _, e := range n.Entries {
			entries = append(entries, "<"+e.Key+">: "+spelled(e.Value))
		}
		return "{" + strings.Join(entries, ", ") + "}"
	case *Unary:
		return n.Operator + spelled(n.Operand)
	}
	var inside []string
	for _, part := range parts(n) {
		inside = append(inside, spelled(part))
	}
	return strings.ToLower(reflect.TypeOf(n).Elem().Name()) + "[" + strings.Join(inside, ", ") + "]"
}

func TestExpressions(t *testing.T) {
	scope := NewScope(nil, "a", "b", "a-b", "net price", "net price of goods", "date and time of birth", "x y", "in stock", "is ok?",
		"net price-tax")
	members := NewScope(nil, "unit price", "net-weight")
	for text, due := range map[string]string{
		"1":                                      "1",
		".5 + 1.50":                              "(.5 + 1.50)",
		"a + b * -a - 1":                         "(<a> + (<b> * -<a>) - 1)",
		"a or b and a = b":                       "(<a> or (<b> and (<a> = <b>)))",
		"(a or b) and a":                         "((<a> or <b>) and <a>)",
		"2 ** 3 ** 2":                            "((2 ** 3) ** 2)",
		"-2 ** 2":                                "(-2 ** 2)",
		"a-b":                                    "<a - b>",
		"a - b":                                  "doubtful<a - b>",
		"(a) - (b)":                              "(<a> - <b>)",
		"b-a":                                    "(<b> - <a>)",
		"net   price":                            "<net price>",
		"net price of goods":                     "<net price of goods>",
		"net price of a":                         "",
		"net pric":                               "unknown<net pric>",
		"Summer + 1":                             "(unknown<Summer> + 1)",
		"TRUE":                                   "unknown<TRUE>",
		"date and time of birth":                 "<date and time of birth>",
		`date and time("x")`:                     `call[unknown<date and time>, "x"]`,
		"in stock and is ok?":                    "(<in stock> and <is ok?>)",
		"`net price` + 1":                        "(<net price> + 1)",
		"a.unit price + 1":                       "(<a>.<unit price> + 1)",
		"a.net-weight":                           "<a>.<net - weight>",
		"a.net - weight":                         "<a>.respelled<net - weight>",
		"a.`net - weight`":                       "<a>.<net - weight>",
		"a.unit  price":                          "<a>.<unit price>",
		"net price-tax":                          "<net price - tax>",
		"net price - tax":                        "doubtful<net price - tax>",
		"a.net-x":                                "",
		"a.b.c":                                  "<a>.<b>.<c>",
		"a[1].b":                                 "filter[<a>, 1].<b>",
		"a[item > 1]":                            "filter[<a>, (<item> > 1)]",
		"a in [1..5)":                            "in[<a>, [1..5)]",
		"a in ]1..5[ and b":                      "(in[<a>, (1..5)] and <b>)",
		"a in (1, < 3, [5..7])":                  "in[<a>, 1, <3, [5..7]]",
		"a in (1..5)":                            "in[<a>, (1..5)]",
		"a between 1 and 2 and b":                "(between[<a>, 1, 2] and <b>)",
		"if a then b else a or b":                "if[<a>, <b>, (<a> or <b>)]",
		"for x y in a, z in 1..3 return x y + z": "for[<a>, 1, 3, (<x y> + <z>)]",
		"some x in a satisfies x > 1":            "quantified[<a>, (<x> > 1)]",
		"function(c: number, d) c + d":           "function[(<c> + <d>)]",
		"a instance of list<number>":             "instanceof[<a>]",
		"a instance of date and time and b":      "(instanceof[<a>] and <b>)",
		"a instance of date and b":               "(instanceof[<a>] and <b>)",
		"a instance of years and months duration or b instance of days and  time duration": "(instanceof[<a>] or instanceof[<b>])",
		"f(a, 1)": "call[unknown<f>, <a>, 1]",
		"substring(string: \"a\", start position: 1)": `call[unknown<substring>, "a", 1]`,
		"{net x: 1, \"b c\": net x + 1}":              "{<net x>: 1, <b c>: (<net x> + 1)}",
		"{}":                                          "{}",
		"[1, [], [2]]":                                "list[1, list[], list[2]]",
		"[1..3]":                                      "[1..3]",
		"[(1)..(a + 1)]":                              "[1..(<a> + 1)]",
		`"a\u00e9\U01F600\n\t\"\\\'"`:                 `"aé😀\n\t\"\\'"`,
		`"\uD83D\uDE00"`:                              `"😀"`,
		`@"2020-01-01"`:                               "atliteral[]",
		"a /* x + */ + // y\n b":                      "(<a> + <b>)",
		"a\u00a0+\u3000b":                             "(<a> + <b>)",
		"a = b = a":                                   "((<a> = <b>) = <a>)",
		"not(a)":                                      "call[unknown<not>, <a>]",
		"true and null":                               "(true and null)",
	} {
		t.Run(text, func(t *testing.T) {
			node, fault := Expression(text, scope, members)
			if fault != nil {
				if due != "" && due != "fault" {
					t.Errorf("%s is due, and %v came", due, fault)
				}
				return
			}
			if got := spelled(node); due != "" && got != due {
				t.Errorf("%s is due, and %s came", due, got)
			}
		})
	}
}

func TestFaultsOfExpressions(t *testing.T) {
	for text, offset := range map[string]int{
		"": 0, "1 +": 3, "1 2": 2, "(1": 2, "[1, 2": 5, "{a 1}": 5, "if 1 then 2": 11, `"a`: 0, `"\d"`: 1, "1 + /* a": 4,
		"a..b": 1, "#": 0, "1..": 1, "for x return 1": 14, "then": 0, "@1": 1, `"\uD83D"`: 1, "[1..2": 5,
	} {
		node, fault := Expression(text, nil, nil)
		if fault == nil {
			t.Errorf("%q is read as %s", text, spelled(node))
		} else if fault.Offset != offset {
			t.Errorf("%q stops at %d: %v", text, fault.Offset, fault)
		}
	}
}

func TestTests(t *testing.T) {
	scope := NewScope(nil, "a", "not here")
	for text, due := range map[string]string{
		"-":               "anything[]",
		" - ":             "anything[]",
		"-1":              "-1",
		"< 5, >= a + 1":   "<5; >=(<a> + 1)",
		"not(1, < 3)":     "nottests[1, <3]",
		"not(1) or a":     "(call[unknown<not>, 1] or <a>)",
		"not (a)":         "nottests[<a>]",
		"not here":        "<not here>",
		`"a", "b,c"`:      `"a"; "b,c"`,
		"[1..2], (3..4]":  "[1..2]; (3..4]",
		"]1..2[, 5":       "(1..2); 5",
		"? > 3 and ? < 5": "((? > 3) and (? < 5))",
		"= 5":             "=5",
		"!= 5":            "!=5",
	} {
		t.Run(text, func(t *testing.T) {
			nodes, fault := Tests(text, scope, nil)
			if fault != nil {
				t.Fatal(fault)
			}
			var all []string
			for _, n := range nodes {
				all = append(all, spelled(n))
			}
			if got := strings.Join(all, "; "); got != due {
				t.Errorf("%s is due, and %s came", due, got)
			}
		})
	}
}

func TestDepthAndLengthAreBounded(t *testing.T) {
	for _, text := range []string{
		strings.Repeat("(", MostDepth+1) + "1" + strings.Repeat(")", MostDepth+1),
		strings.Repeat("-", 100_000) + "1", strings.Repeat("[", 100_000), strings.Repeat("{a:", 100_000),
		strings.Repeat("if ", 100_000), strings.Repeat("not(", 100_000), "a" + strings.Repeat(".a", 100_000),
		"a" + strings.Repeat("[1]", 100_000), "a" + strings.Repeat("()", 100_000), "1" + strings.Repeat(" = 1", 100_000),
		"1" + strings.Repeat(" ** 1", 100_000), strings.Repeat(" ", MostBytes+1),
	} {
		if _, fault := Expression(text, nil, nil); fault == nil {
			t.Errorf("%.20q.. is read", text)
		}
	}
	long := "1" + strings.Repeat(" + 1", 200_000)
	if _, fault := Expression(long, nil, nil); fault != nil {
		t.Errorf("a long sum is not read: %v", fault)
	}
}

func TestCanonicalNames(t *testing.T) {
	for name, due := range map[string]string{"a-b": "a - b", "a  - b": "a - b", " net  price ": "net price", "a'b": "a ' b",
		`the "best"`: `the "best"`, `un"paired`: `un"paired`, "http://x": "http://x", "": ""} {
		if got := Canonical(name); got != due {
			t.Errorf("%q is %q", name, got)
		}
	}
}

// FuzzExpression checks that no text makes the readers fail except by a fault within it, and that spans are within the
// text.
func FuzzExpression(f *testing.F) {
	for _, seed := range []string{"a + 1", "if a then [1..2] else {b: 1}", "not(a, < 3)", "for x in a return x.b[1]", "]1..2[",
		"some x in l satisfies x = @\"P1D\"", "f(a: 1, b: `c`)", "a-b", "\"\\u00e9\"", "x instance of list<a>", "// a", "/*"} {
		f.Add(seed)
	}
	scope := NewScope(nil, "a", "a-b", "net price", "l")
	f.Fuzz(func(t *testing.T, text string) {
		node, fault := Expression(text, scope, scope)
		checkFault(t, text, fault)
		if fault == nil {
			Any(node, func(n Node) bool { checkSpan(t, text, n); return false })
		}
		nodes, fault := Tests(text, scope, scope)
		checkFault(t, text, fault)
		for _, n := range nodes {
			Any(n, func(n Node) bool { checkSpan(t, text, n); return false })
		}
	})
}

func checkFault(t *testing.T, text string, fault *Fault) {
	if fault != nil && (fault.Offset < 0 || fault.Offset > len(text) || fault.Why == "") {
		t.Errorf("the fault is %+v", fault)
	}
}

func checkSpan(t *testing.T, text string, n Node) {
	if s := n.At(); s.Start < 0 || s.End > len(text) || s.Start > s.End {
		t.Errorf("%T stands at %v", n, s)
	}
}
