package export

import (
	"fmt"
	"strings"

	"gateway/feel"
)

// A fault says why a text can't be written with the same meaning in the standard.
type fault struct{ why, instead string }

func (f *fault) Error() string { return f.why }

// A dictionary has the spelling of words in the file.
type dictionary struct {
	spelled map[string]string
	// members has all names; any may follow a point.
	members *feel.Scope
}

func newDictionary(spelled map[string]string) *dictionary {
	d := &dictionary{spelled, feel.NewScope(nil)}
	for _, name := range spelled {
		d.members.Add(name)
	}
	return d
}

// spell returns a word as the file writes it.
func (d *dictionary) spell(word string) string {
	if name, found := d.spelled[word]; found {
		return name
	}
	return word
}

// A scope writes the texts of a place of the model, and knows its names.
type scope struct {
	*dictionary
	outer *scope
	bound *names
	// file has the bound names as the file spells them.
	file *feel.Scope
}

// newScope returns an outermost place without names.
func newScope(d *dictionary) *scope {
	return &scope{dictionary: d, bound: newNames(nil), file: feel.NewScope(nil)}
}

// inner returns a place inside s.
func (s *scope) inner() *scope {
	return &scope{dictionary: s.dictionary, outer: s, bound: newNames(s.bound), file: feel.NewScope(s.file)}
}

// bind binds a word.
func (s *scope) bind(word string, value shape) {
	s.bound.bind(word, value)
	s.file.Add(s.spell(word))
}

// expression writes an expression.
func (s *scope) expression(text string) (string, error) {
	node, stopped := feel.Expression(text, s.bound.reads, nil)
	if stopped != nil {
		return "", &fault{why: stopped.Why, instead: stopped.Instead}
	}
	w := &writer{scope: s, source: text}
	return w.finish(w.splice(feel.Span{Start: 0, End: len(text)}, node), func(written string) error {
		again, stopped := feel.Expression(written, s.file, s.members)
		if stopped != nil {
			return &fault{why: stopped.Why}
		}
		return w.compare([]feel.Node{again})
	})
}

// tests writes the unary tests of a column whose input has this shape.
func (s *scope) tests(text string, input shape) (string, error) {
	nodes, stopped := feel.Tests(text, s.bound.reads, nil)
	if stopped != nil {
		return "", &fault{why: stopped.Why, instead: stopped.Instead}
	}
	w := &writer{scope: s, source: text, input: input}
	return w.finish(w.tests(feel.Span{Start: 0, End: len(text)}, nodes, false), func(written string) error {
		again, stopped := feel.Tests(written, s.file, s.members)
		if stopped != nil {
			return &fault{why: stopped.Why}
		}
		return w.compare(again)
	})
}

// mostText limits the length of a text.
const mostText = 1 << 20

// A writer rewrites one text. It walks the tree, and copies what need not change.
type writer struct {
	*scope
	source string
	// input is what is known of the tested value.
	input shape
	// used lists the text's names in order, as the file spells them.
	used []string
	err  error
}

// finish checks that the written text is read with the same names.
func (w *writer) finish(written string, check func(string) error) (string, error) {
	if w.err == nil {
		w.err = check(written)
	}
	return written, w.err
}

func (w *writer) fail(why, instead string) {
	if w.err == nil {
		w.err = &fault{why, instead}
	}
}

// compare finds names that run together: "a - b" becomes one name if there is an "a-b".
func (w *writer) compare(again []feel.Node) error {
	var read []string
	for _, node := range again {
		read = append(read, namesOf(node)...)
	}
	if strings.Join(read, "\x00") != strings.Join(w.used, "\x00") {
		return &fault{"the names of the file run into each other in this text", "other names"}
	}
	return nil
}

// splice writes a span of the source with these forms in it rewritten.
func (w *writer) splice(span feel.Span, forms ...feel.Node) string {
	var text strings.Builder
	at := span.Start
	for _, form := range forms {
		text.WriteString(w.source[at:form.At().Start])
		text.WriteString(w.form(form))
		at = form.At().End
	}
	text.WriteString(w.source[at:span.End])
	if text.Len() > mostText {
		w.fail("the text gets too long where it says the same", "a decision of its own for what stands in sum, min, max or count")
		return ""
	}
	return text.String()
}

// form writes one form.
func (w *writer) form(node feel.Node) string {
	switch e := node.(type) {
	case *feel.Name:
		return w.name(e)
	case *feel.Path:
		return w.path(e)
	case *feel.String:
		return quote(e.Value, w.source[e.Start:e.End])
	case *feel.Chain:
		return w.chain(e)
	case *feel.Call:
		return w.call(e)
	case *feel.If:
		if list := w.sumOfEither(e); list != nil {
			return "sum(" + w.splice(list.At(), list) + ")"
		}
	}
	return w.splice(node.At(), parts(node)...)
}

// name writes a name. An unbound one is null here, and no name in the standard.
func (w *writer) name(e *feel.Name) string {
	if !e.Known {
		return "null"
	}
	name := w.spell(e.Name)
	w.used = append(w.used, feel.Canonical(name))
	return name
}

// path writes a path; its last word is the entry's name.
func (w *writer) path(e *feel.Path) string {
	front := w.splice(feel.Span{Start: e.Start, End: e.End - len(e.Name)}, e.Operand)
	name := w.spell(e.Name)
	w.used = append(w.used, "."+feel.Canonical(name))
	return front + name
}

// chain writes operands with their operators. A plus of two texts is null here and their concatenation in the standard.
// Subtracting the negation gives the sum of two numbers, and null for two texts, in both.
func (w *writer) chain(e *feel.Chain) string {
	var text strings.Builder
	text.WriteString(w.splice(feel.Span{Start: e.Start, End: e.Operands[0].At().End}, e.Operands[0]))
	left := w.bound.of(e.Operands[0])
	for i, operator := range e.Operators {
		operand := e.Operands[i+1]
		between := w.source[e.Operands[i].At().End:operand.At().Start]
		if operator == "+" && left.maybe(isText) && w.bound.of(operand).maybe(isText) {
			sign := strings.IndexByte(between, '+')
			between = between[:sign] + "- -" + strings.TrimLeft(between[sign+1:], " \t\r\n")
		}
		text.WriteString(between)
		text.WriteString(w.form(operand))
		left = number
	}
	text.WriteString(w.source[e.Operands[len(e.Operands)-1].At().End:e.End])
	return text.String()
}

// call writes a call. Here list functions give null for a single value, and min and max also for other lists than of numbers.
// The standard takes a single value as a list, and has a least text.
func (w *writer) call(e *feel.Call) string {
	called := function(e)
	if _, hidden := w.bound.find(called); hidden {
		w.fail(fmt.Sprintf("%s is called, and is the name of a value too", called), "another name for the value")
		return ""
	}
	values := make([]feel.Node, 0, len(e.Arguments))
	for _, argument := range e.Arguments {
		values = append(values, argument.Value)
	}
	if len(values) != 1 || called != "sum" && called != "min" && called != "max" && called != "count" {
		return w.splice(e.Span, values...)
	}
	return w.overList(e, called, values[0])
}

// single are the kinds of single values for which the standard doesn't give null.
var single = map[string]kinds{
	"sum":   isNumber,
	"min":   isNumber | isText,
	"max":   isNumber | isText,
	"count": isNumber | isText | isBoolean | isContext,
}

func (w *writer) overList(e *feel.Call, called string, value feel.Node) string {
	list := w.bound.of(value)
	if !list.maybe(isList) {
		return "null"
	}
	text := w.splice(e.Span, value)
	if (called == "min" || called == "max") && list.member().maybe(isText) {
		text = "(" + text + " + 0)"
	}
	if !list.maybe(single[called]) {
		return text
	}
	return "(if (" + w.splice(value.At(), value) + ") instance of list<Any> then " + text + " else null)"
}

// sumOfEither returns x if a condition is "if count(x) >= 0 then sum(x) else sum([x])", which is what sum(x) means in the
// standard: the sum of a list, or of the list with this one value. It returns nil for others.
func (w *writer) sumOfEither(e *feel.If) feel.Node {
	isList, _ := e.Condition.(*feel.Binary)
	if isList == nil || isList.Operator != ">=" || w.text(isList.Right) != "0" {
		return nil
	}
	counted, summed, single := argument(isList.Left, "count"), argument(e.Then, "sum"), argument(e.Else, "sum")
	list, _ := single.(*feel.List)
	if counted == nil || summed == nil || list == nil || len(list.Items) != 1 {
		return nil
	}
	if x := w.text(counted); x != w.text(summed) || x != w.text(list.Items[0]) {
		return nil
	}
	return counted
}

// text returns a form as in the source.
func (w *writer) text(node feel.Node) string { return w.source[node.At().Start:node.At().End] }

// argument returns the only argument of a call of a function, or nil.
func argument(node feel.Node, called string) feel.Node {
	call, _ := node.(*feel.Call)
	if call == nil || function(call) != called || len(call.Arguments) != 1 {
		return nil
	}
	return call.Arguments[0].Value
}

// tests writes tests of which one must hold. In a negation no test may be unknown.
func (w *writer) tests(span feel.Span, tests []feel.Node, negated bool) string {
	var text strings.Builder
	at := span.Start
	for _, test := range tests {
		text.WriteString(w.source[at:test.At().Start])
		text.WriteString(w.test(test, negated))
		at = test.At().End
	}
	text.WriteString(w.source[at:span.End])
	return text.String()
}

// test writes one test. An expression is compared with the input here; in the standard a true one is a condition that is met,
// so one that may be true is written as a comparison. In a negation a comparison of different kinds would be unknown there;
// here it is false, and the negation holds.
func (w *writer) test(test feel.Node, negated bool) string {
	switch e := test.(type) {
	case *feel.Anything, *feel.Unary, *feel.Range:
		return w.form(test)
	case *feel.NotTests:
		return w.tests(e.Span, e.Tests, true)
	}
	_, literal := test.(*feel.Boolean)
	value := w.bound.of(test)
	isPlain := literal || !value.maybe(isBoolean)
	if isPlain && (!negated || w.isOfOneKind(value)) {
		return w.form(test)
	}
	written := "? = (" + w.form(test) + ")"
	if value.maybe(isList) {
		written = fmt.Sprintf("%s or (%s) instance of list<Any> and list contains(%s, ?)", written, w.form(test), w.form(test))
	}
	if negated {
		return "((" + written + ") = true)"
	}
	return written
}

// isOfOneKind reports whether a comparison of the input with a value is never unknown: both have one kind, or one is null.
// Membership in a list is not a comparison.
func (w *writer) isOfOneKind(value shape) bool {
	kinds := value.kinds &^ isNull
	if kinds == 0 || kinds == isList {
		return true
	}
	return kinds&(kinds-1) == 0 && w.input.kinds&^isNull&^kinds == 0
}

// quote writes a string literal. Characters that only our literals may have, or that XML can't, are escaped.
func quote(value, written string) string {
	if strings.IndexFunc(written, isEscaped) < 0 {
		return written
	}
	var text strings.Builder
	for _, r := range written {
		switch {
		case r == '\n':
			text.WriteString(`\n`)
		case r == '\r':
			text.WriteString(`\r`)
		case isEscaped(r):
			fmt.Fprintf(&text, `\u%04x`, r)
		default:
			text.WriteRune(r)
		}
	}
	return text.String()
}

func isEscaped(r rune) bool {
	return r < ' ' && r != '\t' || r == 0xfffe || r == 0xffff
}

// parts returns the direct parts of a form, in text order.
func parts(node feel.Node) []feel.Node {
	switch e := node.(type) {
	case *feel.If:
		return []feel.Node{e.Condition, e.Then, e.Else}
	case *feel.Binary:
		return []feel.Node{e.Left, e.Right}
	case *feel.Between:
		return []feel.Node{e.Operand, e.Low, e.High}
	case *feel.Negation:
		return []feel.Node{e.Operand}
	case *feel.Unary:
		return []feel.Node{e.Operand}
	case *feel.Range:
		return []feel.Node{e.Low, e.High}
	case *feel.List:
		return e.Items
	case *feel.Path:
		return []feel.Node{e.Operand}
	case *feel.Chain:
		return e.Operands
	case *feel.NotTests:
		return e.Tests
	case *feel.InstanceOf:
		return []feel.Node{e.Operand}
	case *feel.Call:
		values := make([]feel.Node, 0, len(e.Arguments))
		for _, argument := range e.Arguments {
			values = append(values, argument.Value)
		}
		return values
	}
	return nil
}

// namesOf returns the names of a text in order. A path's entry has a point before it.
func namesOf(node feel.Node) []string {
	if name, ok := node.(*feel.Name); ok {
		if !name.Known || name.Doubtful {
			return []string{"?" + name.Name}
		}
		return []string{name.Name}
	}
	var all []string
	for _, part := range parts(node) {
		all = append(all, namesOf(part)...)
	}
	if path, ok := node.(*feel.Path); ok {
		all = append(all, "."+path.Name)
	}
	return all
}
