package profile_test

import (
	"strings"
	"testing"

	"gateway/profile"
)

// A filedHint is a file that is refused in one place, words of its hint, the file rewritten as the hint says, and
// requests with what decision q should give, which is what the refused file means. The expected answers are worked out
// by hand.
type filedHint struct {
	name, refused, hint, written string
	due                          [][2]string
	// asked are the options of the refused import, said those of the one that follows the hint.
	asked, said profile.Options
}

// holdFiledHints follows hints.
func holdFiledHints(t *testing.T, hints []filedHint) {
	d := startDesk(t)
	for _, c := range hints {
		report := run(t, c.asked, c.refused)
		isSaid := false
		for _, r := range report.Refusals {
			isSaid = isSaid || strings.HasPrefix(r.Instead, c.hint)
		}
		if !isSaid {
			t.Errorf("%s: the hint %q is due, and refused is %s", c.name, c.hint, said(report.Refusals))
		}
		for _, pair := range c.due {
			if _, came := dateAnswer(t, d, c.written, pair[0], c.said); came != pair[1] {
				t.Errorf("%s, of %s: %s is due, and %s came", c.name, pair[0], pair[1], came)
			}
		}
	}
}

// overNumber returns a file with a decision q over the number a, and other parts. Further requirements are given as
// "k:" or "d:" and a name.
func overNumber(logic string, others ...string) string {
	needs, parts := []string{"a"}, []string{hintTypes, input("a", "number")}
	for _, other := range others {
		if strings.HasPrefix(other, "<") {
			parts = append(parts, other)
		} else {
			needs = append(needs, other)
		}
	}
	return definitions(append(parts, decision("q", "", logic, needs...))...)
}

// boxedCall returns a boxed invocation with one argument x.
func boxedCall(function, argument string) string {
	return "<invocation>" + function + `<binding><parameter name="x"/>` + argument + "</binding></invocation>"
}

// TestHintsOfBoxedFormsAreFollowed follows the hints of boxed contexts, relations, conditionals and functions.
func TestHintsOfBoxedFormsAreFollowed(t *testing.T) {
	a, twice := literal("a"), literal("a * 2")
	function := "<functionDefinition><formalParameter name=\"x\"/>" + literal("x + 1") + "</functionDefinition>"
	filter := "<filter><in>" + literal("[a, 1]") + "</in><match>" + literal("item > 1") + "</match></filter>"
	holdFiledHints(t, []filedHint{
		{name: "a function as an entry", refused: overNumber(boxedContext("f", function, "", literal("f(a) * 2"))), hint: "a business knowledge model",
			written: overNumber(literal("f(a) * 2"), knowledge("f", []string{"x"}, literal("x + 1")), "k:f"), due: ofA("2", "6", "-1", "0", "null", "null")},
		{name: "a boxed filter", refused: overNumber(boxedContext("kept", filter, "", literal("sum(kept)"))), hint: "let the request bring what it gives",
			written: overNumber(literal("sum(kept)"), input("kept", "tList"), "kept"), due: [][2]string{{`{"a":5,"kept":[5]}`, "5"}, {`{"a":0,"kept":[]}`, "null"}}},
		{name: "another language", refused: overNumber(`<literalExpression expressionLanguage="http://www.java.com/java"><text>a &gt; 3 ? 1 : 0</text></literalExpression>`),
			hint: "the expression in FEEL", written: overNumber(literal("if a > 3 then 1 else 0")), due: ofA("4", "1", "3", "0", "null", "0")},
		{name: "no text", refused: overNumber(literal("")), hint: "null, or a value", written: overNumber(literal("null")), due: ofA("4", "null")},
		{name: "an entry without an expression", refused: overNumber(boxedContext("p", "", "r", a)), hint: "null, or a value",
			written: overNumber(boxedContext("p", literal("null"), "r", a)), due: ofA("4", `{"p":null,"r":4}`)},
		{name: "an entry without a name", refused: overNumber(boxedContext("", twice, "", a)), hint: "a name for it",
			written: overNumber(boxedContext("p", twice, "", a)), due: ofA("4", "4", "null", "null")},
		{name: "an entry's name twice", refused: overNumber(boxedContext("p", a, "p", twice, "", literal("p + 1"))), hint: "another name",
			written: overNumber(boxedContext("p", a, "r", twice, "", literal("r + 1"))), due: ofA("4", "9", "null", "null")},
		{name: "a row with a cell less", refused: overNumber(relation([]string{"x", "y"}, []string{"a"})), hint: "a cell for each column",
			written: overNumber(relation([]string{"x", "y"}, []string{"a", "null"})), due: ofA("4", `[{"x":4,"y":null}]`)},
		{name: "a column's name twice", refused: overNumber(relation([]string{"x", "x"}, []string{"a", "1"})), hint: "another name",
			written: overNumber(relation([]string{"x", "y"}, []string{"a", "1"})), due: ofA("4", `[{"x":4,"y":1}]`)},
		{name: "a cell with the name of a column", refused: overNumber(relation([]string{"a", "y"}, []string{"1", "a"})), hint: "another name",
			written: overNumber(relation([]string{"x", "y"}, []string{"1", "a"})), due: ofA("4", `[{"x":1,"y":4}]`)},
		{name: "a conditional without an else", refused: overNumber("<conditional><if>" + literal("a > 3") + "</if><then>" + a + "</then></conditional>"),
			hint: "null for a part", written: overNumber("<conditional><if>" + literal("a > 3") + "</if><then>" + a + "</then><else>" + literal("null") +
				"</else></conditional>"), due: ofA("4", "4", "3", "null", "null", "null")},
	})
}

// TestHintsOfInvocationsAreFollowed follows the hints of boxed invocations, of their arguments and of recursion.
func TestHintsOfInvocationsAreFollowed(t *testing.T) {
	f := knowledge("f", []string{"x"}, literal("x + 1"))
	two := knowledge("f", []string{"x", "y"}, literal("if y = null then x else y"))
	follows := overNumber(boxedCall(literal("f"), literal("a")), f, "k:f")
	next := [][2]string{{`{"a":2}`, "3"}, {`{"a":null}`, "null"}}
	serves := `<decisionService id="s" name="s"><outputDecision href="#e"/></decisionService>`
	e := decision("e", "", literal("a + 1"), "a")
	holdFiledHints(t, []filedHint{
		{name: "a binding without an expression", refused: overNumber(boxedCall(literal("f"), ""), f, "k:f"), hint: "both", written: follows, due: next},
		{name: "no function", refused: overNumber(boxedCall(literal(""), literal("a")), f, "k:f"), hint: "the name of a business knowledge model",
			written: follows, due: next},
		{name: "a function of FEEL", refused: overNumber(boxedCall(literal("abs"), literal("a"))), hint: "the name of a business knowledge model that is required; " +
			"functions of FEEL are invoked in a literal expression", written: overNumber(literal("abs(a)")), due: [][2]string{{`{"a":-2}`, "2"}, {`{"a":null}`, "null"}}},
		{name: "knowledge that isn't drawn", refused: overNumber(boxedCall(literal("f"), literal("a")), f), hint: "the name of a business knowledge model that is required",
			written: follows, due: next},
		{name: "a value", refused: overNumber(boxedCall(literal("a"), literal("1"))), hint: "a function", written: follows, due: next},
		{name: "a service", refused: overNumber(boxedCall(literal("s"), literal("a")), e, serves, "k:s"), hint: "need its output decision",
			written: overNumber(literal("e"), e, "d:e"), due: next},
		{name: "a service in a text", refused: overNumber(literal("s(a)"), e, serves, "k:s"), hint: "need its output decision",
			written: overNumber(literal("e"), e, "d:e"), due: next},
		{name: "an argument less", refused: overNumber(literal("f(a)"), two, "k:f"), hint: "an argument for each parameter",
			written: overNumber(literal("f(a, null)"), two, "k:f"), due: [][2]string{{`{"a":3}`, "3"}, {`{"a":null}`, "null"}}},
		{name: "an argument of another name", refused: overNumber(literal("f(z: a)"), f, "k:f"), hint: "an argument for each parameter",
			written: overNumber(literal("f(x: a)"), f, "k:f"), due: next},
		{name: "recursion", refused: overNumber(literal("f(a)"), knowledge("f", []string{"x"}, literal("if x <= 0 then 0 else x + f(x - 1)"), "k:f"), "k:f"),
			hint: "a chain of decisions, one for each step", written: overNumber(literal("s1 + s2"), decision("s1", "", literal("if a <= 0 then 0 else a"), "a"),
				decision("s2", "", literal("if a - 1 <= 0 then 0 else a - 1"), "a"), "d:s1", "d:s2"),
			due: [][2]string{{`{"a":-1}`, "0"}, {`{"a":0}`, "0"}, {`{"a":1}`, "1"}, {`{"a":2}`, "3"}}},
		{name: "a function that isn't invoked", refused: overNumber(literal("f"), f, "k:f"), hint: "invoke it, with its arguments in parentheses",
			written: overNumber(literal("f(a)"), f, "k:f"), due: next},
		{name: "a body of another type", refused: overNumber(literal("f(a)"), strings.Replace(f, `<variable name="f"/>`, `<variable name="f" typeRef="string"/>`, 1), "k:f"),
			hint: "the type of the body, or none", written: overNumber(literal("f(a)"), strings.Replace(f, `<variable name="f"/>`, `<variable name="f" typeRef="number"/>`, 1), "k:f"), due: next},
		{name: "a body that may not be allowed", refused: overNumber(literal("f(a)"), narrowTypes, strings.Replace(f, `<variable name="f"/>`, `<variable name="f" typeRef="tTen"/>`, 1), "k:f"),
			hint:    "this type at the expression of the body, where what is none becomes null",
			written: overNumber(literal("f(a)"), narrowTypes, strings.Replace(f, "<literalExpression>", `<literalExpression typeRef="tTen">`, 1), "k:f"),
			due:     [][2]string{{`{"a":9}`, "10"}, {`{"a":10}`, "null"}, {`{"a":-1}`, "0"}, {`{"a":null}`, "null"}}},
	})
}
