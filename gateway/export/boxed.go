package export

import (
	"errors"
	"fmt"
	"strings"

	"gateway/model"
)

// boxed writes the boxed expression at a place of the model.
func (p *page) boxed(pointer string, e model.Expression, s *scope) *element {
	if written, is := p.ofFile(pointer); is {
		return p.literal("literalExpression", written, "")
	}
	switch e := e.(type) {
	case model.List:
		list := tag("list", "id", p.id("list"))
		for i, member := range e {
			list.add(p.boxed(fmt.Sprintf("%s/list/%d", pointer, i), member, s))
		}
		return list
	case model.Context:
		if inner, at, is := p.inner(e, pointer); is {
			return p.boxed(at, inner, p.around(e, s))
		}
		return p.context(pointer, e, s)
	case *model.Table:
		return p.table(pointer+"/table", e, s)
	case model.Literal:
		return p.literal("literalExpression", p.expression(pointer, string(e), s), p.scalar(s.bound.ofText(string(e))))
	}
	return p.literal("literalExpression", "null", "")
}

// literal returns an element with an expression's text.
func (p *page) literal(name, content, typeRef string) *element {
	return tag(name, "id", p.id("expression"), "typeRef", typeRef).add(text(content))
}

// expression writes the text of a place, or refuses it.
func (p *page) expression(pointer, content string, s *scope) string {
	return p.written(pointer, content, s.expression)
}

// ofFile returns the text that the first file has at a place, if such texts are written.
func (p *page) ofFile(pointer string) (text string, is bool) {
	text, is = p.File.Texts[pointer]
	return text, is && p.IsWritten
}

// inner returns what the first file has instead of a context that the translation made, if its texts are written.
func (p *page) inner(c model.Context, pointer string) (inner model.Expression, at string, is bool) {
	if !p.IsWritten {
		return nil, "", false
	}
	own := p.File
	own.Names, own.Locals = p.Names, nil
	return own.Inner(c, pointer)
}

// around returns a scope with the names that only the translation has; their texts are not written.
func (p *page) around(c model.Context, s *scope) *scope {
	s = s.inner()
	for _, entry := range c.Entries {
		s.bind(entry.Name, s.bound.ofBoxed(entry.Expr))
	}
	return s
}

func (p *page) written(pointer, content string, write func(string) (string, error)) string {
	if text, is := p.ofFile(pointer); is {
		return text
	}
	written, err := write(content)
	var f *fault
	switch {
	case errors.As(err, &f):
		p.refuse(pointer, content, f.why, f.instead)
	case err != nil:
		p.refuse(pointer, content, err.Error(), "")
	}
	return written
}

func (p *page) context(pointer string, c model.Context, s *scope) *element {
	e := tag("context", "id", p.id("context"))
	s = s.inner()
	for i, entry := range c.Entries {
		value := s.bound.ofBoxed(entry.Expr)
		if p.IsWritten && (!p.File.IsOfFile(entry.Name) || p.isCall(entry)) {
			s.bind(entry.Name, value)
			continue
		}
		variable := tag("variable", "id", p.id("variable"), "name", p.spell(entry.Name), "typeRef", p.scalar(value))
		expr := p.boxed(fmt.Sprintf("%s/context/%d/expr", pointer, i), entry.Expr, s)
		e.add(tag("contextEntry", "id", p.id("entry")).add(variable, expr))
		s.bind(entry.Name, value)
	}
	if c.Result != nil {
		e.add(tag("contextEntry", "id", p.id("entry")).add(p.boxed(pointer+"/result", c.Result, s)))
	}
	return e
}

// policies are the standard's hit policies and aggregations.
var policies = map[string][2]string{
	"U": {"UNIQUE"}, "A": {"ANY"}, "P": {"PRIORITY"}, "F": {"FIRST"}, "R": {"RULE ORDER"}, "O": {"OUTPUT ORDER"},
	"C": {"COLLECT"}, "C+": {"COLLECT", "SUM"}, "C<": {"COLLECT", "MIN"}, "C>": {"COLLECT", "MAX"}, "C#": {"COLLECT", "COUNT"},
}

// policy returns the policy of a table. Priority without values becomes the order of the rules.
func policy(t *model.Table) [2]string {
	for _, output := range t.Outputs {
		if len(output.Values) > 0 {
			return policies[t.Hit]
		}
	}
	switch t.Hit {
	case "P":
		return policies["F"]
	case "O":
		return policies["R"]
	}
	return policies[t.Hit]
}

// table writes a decision table. If a table gives a list, its default is written outside of it: here the default is given as it
// is, and the standard doesn't say whether it goes into a list.
func (p *page) table(pointer string, t *model.Table, s *scope) *element {
	if hasDefault(t) && (t.Hit == "R" || t.Hit == "O" || t.Hit == "C") {
		return p.withDefault(pointer, t, s)
	}
	hit := policy(t)
	e := tag("decisionTable", "id", p.id("table"), "hitPolicy", hit[0], "aggregation", hit[1])
	inputs := t.Inputs
	if p.IsWritten {
		inputs = inputs[:p.File.InputsOf(t, pointer)]
	}
	for i, input := range inputs {
		expr := p.literal("inputExpression", p.expression(fmt.Sprintf("%s/inputs/%d", pointer, i), input, s),
			p.scalar(s.bound.ofText(input)))
		e.add(tag("input", "id", p.id("input")).add(expr))
	}
	for i := range t.Outputs {
		e.add(p.output(pointer, t, i, s))
	}
	for i, rule := range t.Rules {
		rule.When = rule.When[:len(inputs)]
		e.add(p.rule(fmt.Sprintf("%s/rules/%d", pointer, i), t, rule, s))
	}
	return e
}

func hasDefault(t *model.Table) bool {
	for _, output := range t.Outputs {
		if output.Default != nil {
			return true
		}
	}
	return false
}

// alwaysHits reports whether some rule has no test.
func alwaysHits(t *model.Table) bool {
	for _, rule := range t.Rules {
		if strings.Trim(strings.Join(rule.When, ""), "- \t\r\n") == "" {
			return true
		}
	}
	return false
}

// withDefault writes the table without its default as an entry, followed by the default for the case that no rule hits.
func (p *page) withDefault(pointer string, t *model.Table, s *scope) *element {
	bare := *t
	bare.Outputs = append([]model.Output(nil), t.Outputs...)
	for i := range bare.Outputs {
		bare.Outputs[i].Default = nil
	}
	hits := "hits"
	for n := 2; s.taken(hits); n++ {
		hits = fmt.Sprintf("hits_%d", n)
	}
	variable := tag("variable", "id", p.id("variable"), "name", hits)
	entry := tag("contextEntry", "id", p.id("entry")).add(variable, p.table(pointer, &bare, s))
	content := fmt.Sprintf("if %s = null then %s else %s", hits, p.defaults(pointer, t, s), hits)
	result := tag("contextEntry", "id", p.id("entry")).add(p.literal("literalExpression", content, ""))
	return tag("context", "id", p.id("context")).add(entry, result)
}

// taken reports whether a name is bound, or another name is spelled like it.
func (s *scope) taken(name string) bool {
	for ; s != nil; s = s.outer {
		for word := range s.bound.shapes {
			if s.spell(word) == name {
				return true
			}
		}
	}
	return false
}

func (p *page) defaults(pointer string, t *model.Table, s *scope) string {
	values := make([]string, 0, len(t.Outputs))
	for i, output := range t.Outputs {
		value := "null"
		if output.Default != nil {
			value = "(" + p.expression(fmt.Sprintf("%s/outputs/%d/default", pointer, i), *output.Default, s) + ")"
		}
		if len(t.Outputs) == 1 {
			return value
		}
		values = append(values, fmt.Sprintf("%q: %s", p.spell(output.Name), value))
	}
	return "{" + strings.Join(values, ", ") + "}"
}

func (p *page) output(pointer string, t *model.Table, column int, s *scope) *element {
	output := t.Outputs[column]
	value := s.bound.ofColumn(t, column)
	e := tag("output", "id", p.id("output"), "name", p.spell(output.Name), "typeRef", p.scalar(value))
	place := fmt.Sprintf("%s/outputs/%d", pointer, column)
	if p.keepsValues(place, t, column) {
		values, is := p.ofFile(place + "/values")
		if !is {
			values = strings.Join(output.Values, ", ")
		}
		e.add(tag("outputValues", "id", p.id("values")).add(text(values)))
	}
	switch {
	case output.Default != nil:
		e.add(p.literal("defaultOutputEntry", p.expression(place+"/default", *output.Default, s), ""))
	case t.Hit == "C#" && !p.Imported && !alwaysHits(t):
		// Without it some tools give 0 for a count without hits, which is null here and in the standard.
		e.add(p.literal("defaultOutputEntry", "null", ""))
	}
	return e
}

// keepsValues reports whether the output values are written. In the standard a column gives no others, so they are left out if
// a rule may give another one and they don't order anything. If they do, they are refused.
func (p *page) keepsValues(pointer string, t *model.Table, column int) bool {
	output := t.Outputs[column]
	if len(output.Values) == 0 {
		return false
	}
	if p.Imported || givesListed(t, column) {
		return true
	}
	if t.Hit == "P" || t.Hit == "O" {
		p.refuse(pointer+"/values", strings.Join(output.Values, ", "), "a rule may give a value that isn't listed",
			"all values that the rules give, in their order")
	}
	return false
}

func givesListed(t *model.Table, column int) bool {
	output := t.Outputs[column]
	listed := map[string]bool{}
	for _, value := range output.Values {
		listed[squeezed(value)] = true
	}
	given := []string{}
	for _, rule := range t.Rules {
		given = append(given, rule.Then[column])
	}
	if output.Default != nil {
		given = append(given, *output.Default)
	}
	for _, value := range given {
		if !listed[squeezed(value)] {
			return false
		}
	}
	return true
}

// squeezed returns a literal without the blanks around it and after its sign.
func squeezed(literal string) string {
	const blanks = " \t\r\n"
	literal = strings.Trim(literal, blanks)
	if rest := strings.TrimPrefix(literal, "-"); rest != literal {
		return "-" + strings.TrimLeft(rest, blanks)
	}
	return literal
}

func (p *page) rule(pointer string, t *model.Table, rule model.Rule, s *scope) *element {
	e := tag("rule", "id", p.id("rule"))
	for i, when := range rule.When {
		written := p.written(fmt.Sprintf("%s/when/%d", pointer, i), when, func(content string) (string, error) {
			return s.tests(content, s.bound.ofText(t.Inputs[i]))
		})
		e.add(tag("inputEntry", "id", p.id("tests")).add(text(written)))
	}
	for i, then := range rule.Then {
		written := p.expression(fmt.Sprintf("%s/then/%d", pointer, i), then, s)
		if _, is := p.ofFile(fmt.Sprintf("%s/then/%d", pointer, i)); !is && (t.Hit == "C<" || t.Hit == "C>") && s.bound.ofText(then).maybe(isText) {
			// The least of texts is null here.
			written = "0 + (" + written + ")"
		}
		e.add(p.literal("outputEntry", written, ""))
	}
	return e
}
