package profile

import (
	"fmt"
	"strings"

	"gateway/dmn"
	"gateway/feel"
	"gateway/model"
)

// A column is an input column during translation.
type column struct {
	clause *dmn.InputClause
	// value is the input expression, in a form that may be repeated.
	value phrase
	// text is the input expression as in the table.
	text string
	// allowed are the input values, if any.
	allowed valueList
}

// An output is an output column.
type output struct {
	clause *dmn.OutputClause
	// of is the declared type, nil if there is none; gives joins the types of the entries.
	of, gives *valueType
	allowed   valueList
	// cells are the entries of the rules, other is the default; nil if there is none.
	cells []phrase
	other *phrase
}

// tableReader translates one table.
type tableReader struct {
	*translator
	source  *dmn.Table
	scope   *scope
	columns []column
	outputs []output
	// named are the words of the outputs.
	named map[string]bool
	made  *box
	// conditions are those in the further column, one for each rule; it may be empty.
	conditions []string
}

// table translates a decision table.
func (t *translator) table(x *dmn.Table, s *scope) (*box, *valueType) {
	r := &tableReader{translator: t, source: x, scope: s, named: map[string]bool{}, made: tableOf(&model.Table{
		Inputs: []string{}, Outputs: []model.Output{}, Rules: []model.Rule{}})}
	hit := r.hitPolicy()
	if hit == "" || !r.isWhole() {
		return boxOf(refused), refusedType
	}
	r.made.table.Hit = hit
	for _, clause := range x.Inputs {
		r.inputColumn(clause)
	}
	for i, clause := range x.Outputs {
		r.outputColumn(clause, i)
	}
	for _, rule := range x.Rules {
		r.rule(rule)
	}
	for i := range r.outputs {
		r.defaultOf(i)
	}
	r.furtherColumn()
	r.alignOutputs()
	r.noteNoHit(hit)
	return r.made, r.typeOf(hit)
}

// hitPolicies are the letters of the hit policies.
var hitPolicies = map[string]string{"UNIQUE": "U", "ANY": "A", "PRIORITY": "P", "FIRST": "F", "RULE ORDER": "R",
	"OUTPUT ORDER": "O", "COLLECT": "C"}

// aggregations are the signs after C.
var aggregations = map[string]string{"": "", "LIST": "", "SUM": "+", "MIN": "<", "MAX": ">", "COUNT": "#"}

// hitPolicy returns the hit policy in the model's form; empty if it is refused.
func (r *tableReader) hitPolicy() string {
	x := r.source
	policy, known := hitPolicies[x.HitPolicy]
	if !known {
		r.refusals.refuse(x.Element, x.HitPolicy, "it is no hit policy",
			"UNIQUE, ANY, PRIORITY, FIRST, RULE ORDER, OUTPUT ORDER or COLLECT")
		return ""
	}
	sign, known := aggregations[x.Aggregation]
	if !known || sign != "" && policy != "C" {
		r.refusals.refuse(x.Element, x.Aggregation, "the aggregation is unknown, or without COLLECT",
			"SUM, MIN, MAX or COUNT, under COLLECT")
		return ""
	}
	return policy + sign
}

// isWhole reports whether the table has outputs, an entry for each column in each rule, and what its hit policy needs.
func (r *tableReader) isWhole() bool {
	x := r.source
	whole := len(x.Outputs) > 0
	if !whole {
		r.refusals.refuse(x.Element, "", "the table has no output", "an output")
	}
	for _, rule := range x.Rules {
		if len(rule.When) != len(x.Inputs) || len(rule.Then) != len(x.Outputs) {
			whole = false
			r.refusals.refuse(rule.Element, "", fmt.Sprintf("the rule has %d input entries and %d output entries, the table %d "+
				"inputs and %d outputs", len(rule.When), len(rule.Then), len(x.Inputs), len(x.Outputs)), "an entry for each column")
		}
	}
	if len(x.Outputs) > 1 && x.Aggregation != "" && aggregations[x.Aggregation] != "" {
		whole = false
		r.refusals.refuse(x.Element, x.Aggregation, "an aggregation over more than one output", "a table for each output")
	}
	return whole
}

// inputColumn translates an input clause.
func (r *tableReader) inputColumn(clause *dmn.InputClause) {
	c := column{clause: clause, value: refused, text: "null"}
	if clause.Expression == nil {
		r.refusals.refuse(clause.Element, "", "the input has no expression", "what the tests of the column are asked of")
	} else {
		c.value, c.text = r.inputExpression(clause.Expression)
		r.propose(clause.Expression)
	}
	if clause.Values != nil {
		c.allowed = r.types.values(clause.Values, c.value.of)
		if len(c.allowed.nodes()) > 0 && clause.Expression != nil {
			r.noted(c)
		}
		r.asInput(&c)
	}
	r.columns = append(r.columns, c)
	r.made.columns = append(r.made.columns, c.value)
	r.made.table.Inputs = append(r.made.table.Inputs, c.text)
	r.made.inputs = append(r.made.inputs, clause.Element)
}

// inputExpression translates an input expression: as conditions in its entries use it, and as the table does.
func (r *tableReader) inputExpression(x *dmn.Text) (value phrase, text string) {
	if value, is := r.ratioExpression(x); is {
		return value, value.text
	}
	b, of := r.expression(x, r.scope)
	if b.kind != textBox {
		value = r.hoisted("input", b, of)
		return value, value.text
	}
	value = b.value
	value.of = of
	return value, value.text
}

// columnValue returns the value of a column as conditions use it, perhaps many times.
func (r *tableReader) columnValue(i int) phrase {
	c := &r.columns[i]
	if !c.value.isShort() {
		c.value = r.hoisted("input", boxOf(c.value), c.value.of)
	}
	return c.value
}

// noted notes, for the caller, the input values of a column that is an input of the model.
func (r *tableReader) noted(c column) {
	of := r.inputOf(c)
	switch {
	case of == nil:
	case of.noted.at() != nil && of.noted.at() != c.allowed.at() && !(of.noted.includes(c.allowed) && c.allowed.includes(of.noted)):
		of.notedTwice, of.noted = true, valueList{}
	case !of.notedTwice:
		of.noted = c.allowed
	}
}

// isPromised reports whether the caller promises the input values of a column.
func (r *tableReader) isPromised(c column) bool {
	of := r.inputOf(c)
	return of != nil && !of.notedTwice && len(of.allowed.nodes()) == 0 && isSchema(c.allowed.nodes())
}

// inputOf returns the type of the input that a column is; nil if it isn't one.
func (r *tableReader) inputOf(c column) *valueType {
	kept := r.trees[c.clause.Expression]
	if kept == nil || kept.fault != nil {
		return nil
	}
	name, is := kept.nodes[0].(*feel.Name)
	if !is {
		return nil
	}
	found := r.scope.find(name.Name)
	switch {
	case found == nil || !found.input:
		return nil
	case found.free != nil:
		return found.free.of
	}
	return found.value.of
}

// outputColumn translates an output clause.
func (r *tableReader) outputColumn(clause *dmn.OutputClause, i int) {
	o := output{clause: clause, of: r.types.resolve(clause.Element, clause.Type()), gives: nullType}
	name := clause.Attribute("name")
	if name == "" {
		name = "result"
		if len(r.source.Outputs) > 1 {
			r.refusals.refuse(clause.Element, "", "an output without a name, next to another output", "a name for each")
		}
	}
	made := model.Output{Name: r.words.of(name)}
	if r.named[made.Name] {
		r.refusals.refuse(clause.Element, name, "duplicate output name", "another name")
	}
	r.named[made.Name] = true
	if clause.Values != nil {
		of := o.of
		if of == nil {
			of = anyType
		}
		o.allowed = r.types.values(clause.Values, of)
		made.Values = listed(o.allowed.nodes())
	}
	if made.Values == nil && r.byPriority() {
		r.refusals.refuse(clause.Element, name, "the hit policy goes by output values, and the output lists none",
			"outputValues that are literals, the highest in priority first")
	}
	r.outputs = append(r.outputs, o)
	r.made.table.Outputs = append(r.made.table.Outputs, made)
	r.made.gives = append(r.made.gives, clause.Element)
	r.wrote(len(made.Name) + bytesOfEntry)
}

func (r *tableReader) byPriority() bool {
	return r.source.HitPolicy == "PRIORITY" || r.source.HitPolicy == "OUTPUT ORDER"
}

// listed returns output values as literals; nil if one isn't a literal.
func listed(values []feel.Node) []string {
	var all []string
	for _, value := range values {
		if literalType(value) == nil {
			return nil
		}
		text := literalText(value)
		if text == "" {
			return nil
		}
		all = append(all, text)
	}
	return all
}

// rule translates a row.
func (r *tableReader) rule(rule *dmn.Rule) {
	row := model.Rule{When: make([]string, len(rule.When)), Then: make([]string, len(rule.Then))}
	number := len(r.made.table.Rules)
	var conditions []phrase
	for i, entry := range rule.When {
		test, condition := r.entry(entry, i)
		row.When[i] = test
		r.wrote(len(test) + 3)
		if condition != nil {
			conditions = append(conditions, *condition)
		}
	}
	r.conditions = append(r.conditions, conditionText(conditions))
	r.made.table.Rules = append(r.made.table.Rules, row)
	for i, entry := range rule.Then {
		r.outputEntry(entry, i, number)
	}
	r.made.rows = append(r.made.rows, rule.Element)
}

// conditionText returns the entry of the further column for some conditions; empty if there are none.
func conditionText(conditions []phrase) string {
	if len(conditions) == 0 {
		return ""
	}
	all := allOf(conditions)
	if strings.HasPrefix(all.text, "not") {
		// At the start of a text, not( .. ) is a list of tests and not a condition.
		return "(" + all.text + ")"
	}
	return all.text
}

// furtherColumn adds the column for conditions if some rule has one.
func (r *tableReader) furtherColumn() {
	needed := false
	for _, condition := range r.conditions {
		needed = needed || condition != ""
	}
	if !needed {
		return
	}
	table := r.made.table
	table.Inputs = append(table.Inputs, "true")
	for i, condition := range r.conditions {
		if condition == "" {
			condition = "-"
		}
		r.wrote(len(condition) + 3)
		table.Rules[i].When = append(table.Rules[i].When, condition)
	}
}

// outputEntry translates an output entry.
func (r *tableReader) outputEntry(entry *dmn.Text, i, rule int) {
	o := &r.outputs[i]
	value := r.underRule(entry, o.of, []int{rule}, true)
	r.checkAllowed(entry, o.allowed, "the output values")
	value = r.asOutput(entry, value, o)
	o.gives = joined(o.gives, value.of)
	o.cells = append(o.cells, value)
}

// cell translates an expression in a table, which is always a text, and checks it against its own declared type and
// that of its column.
func (r *tableReader) cell(entry *dmn.Text, ofColumn *valueType) phrase {
	b, of := r.literal(entry, r.scope)
	r.inCell = true
	defer func() { r.inCell = false }()
	for _, due := range []*valueType{r.types.resolve(entry.Element, entry.TypeRef), ofColumn} {
		if due != nil {
			b, of = r.conform(b, of, due, func(why, instead string) {
				r.refusals.refuse(entry.Element, entry.Text, why, instead)
			})
		}
	}
	if b.kind == textBox {
		p := b.value
		p.of = of
		return p
	}
	return r.hoisted("value", b, of)
}

// defaultOf translates the default of an output. If the policy gives a list, the default may be meant as the list or as
// its member, so it is refused.
func (r *tableReader) defaultOf(i int) {
	o := &r.outputs[i]
	hit := r.made.table.Hit
	if o.clause.Default == nil {
		return
	}
	if hit == "C" || hit == "R" || hit == "O" {
		r.refusals.refuse(o.clause.Default.Element, o.clause.Default.Text,
			"a default under a policy that gives a list: it may be the list, or its one member",
			"no default, and a decision over this one: if x = null then [1] else x")
		return
	}
	due := o.of
	if hit == "C#" {
		due = numberType
	}
	every := make([]int, len(r.made.table.Rules))
	for rule := range every {
		every[rule] = rule
	}
	value := r.underRule(o.clause.Default, due, every, false)
	r.checkAllowed(o.clause.Default, o.allowed, "the output values")
	if hit != "C#" {
		value = r.asOutput(o.clause.Default, value, o)
	}
	if hit != "C#" {
		o.gives = joined(o.gives, value.of)
	}
	o.other = &value
}

// noteNoHit notes what the model does if no rule hits, where tools differ. The standard has null for a table without a
// default.
func (r *tableReader) noteNoHit(hit string) {
	other := map[string]string{"C": "an empty list", "R": "an empty list", "O": "an empty list", "C#": "0"}[hit]
	if other == "" || r.alwaysHits() || r.outputs[0].clause.Default != nil {
		return
	}
	r.refusals.note(r.source.Element, "where no rule hits its value is null, as the standard says; some tools give "+other, "")
}

// alwaysHits reports whether some rule has no test.
func (r *tableReader) alwaysHits() bool {
	for _, rule := range r.made.table.Rules {
		if strings.Trim(strings.Join(rule.When, ""), "-") == "" {
			return true
		}
	}
	return false
}

// typeOf returns the type of the table's value.
func (r *tableReader) typeOf(hit string) *valueType {
	of := r.outputType(0)
	if len(r.outputs) > 1 {
		of = &valueType{kind: contextKind, fields: map[string]*valueType{}}
		for i, o := range r.outputs {
			of.setField(feel.Canonical(o.clause.Attribute("name")), r.outputType(i))
		}
		of = of.bounded(func(why, instead string) { r.refusals.refuse(r.source.Element, "", why, instead) })
	}
	switch hit {
	case "C", "R", "O":
		return listOf(of)
	case "C#":
		return numberType
	case "C+":
		if of.hasTemporal() {
			r.refusals.refuse(r.source.Element, r.source.Aggregation, "a sum of dates or durations: the standard has one of numbers alone",
				"COLLECT without SUM, or a number")
		}
		if of.hasQuotient() {
			r.refusals.refuse(r.source.Element, r.source.Aggregation, "a sum of quotients: each is rounded to 34 digits in the standard",
				"a rounding in each output entry")
		}
		return numberOf(uncelled(of.within()))
	case "C<", "C>":
		if of.isTemporal() {
			return &valueType{kind: of.kind}
		}
		if of.kind != numberKind && of.kind != nullKind && of.kind != refusedKind {
			r.refusals.refuse(r.source.Element, r.source.Aggregation,
				"MIN and MAX of what may be no numbers: the standard has them of texts, the profile has not",
				"the type number for the output")
		}
		return numberOf(uncelled(of.within()))
	}
	return of
}

func (r *tableReader) outputType(i int) *valueType {
	o := &r.outputs[i]
	of, values := o.gives, o.gives.values()
	if o.of != nil && o.of.kind != anyKind {
		of = r.countedAs(o.of, o.gives)
	}
	if len(values.nodes()) == 0 {
		values = o.allowed
	}
	if !of.isScalar() || len(values.nodes()) == 0 || len(of.values().nodes()) > 0 {
		return of
	}
	own := *of
	own.common = values
	return &own
}
