package command

import (
	"bytes"
	"fmt"
	"math/rand"
	"strings"
	"testing"

	"gateway/dmn"
	"gateway/export"
	"gateway/profile"
)

// A drawer makes random valid DMN files. Each expression is made for the type due at its place.
type drawer struct {
	*rand.Rand
	// scope has the names in scope, by type.
	scope map[string][]string
	// parts are the elements of the file, needs what a decision may require.
	parts []string
	needs string
	made  int
}

// Types of the generated files.
const (
	aNumber  = "number"
	aText    = "string"
	aTruth   = "boolean"
	aRisk    = "tRisk"
	numbers  = "tNumbers"
	anOrder  = "tOrder"
	drawings = 200
)

const drawnTypes = `<itemDefinition name="tRisk"><typeRef>string</typeRef><allowedValues><text>"HIGH", "LOW"</text></allowedValues>` +
	`</itemDefinition><itemDefinition name="tNumbers" isCollection="true"><typeRef>number</typeRef></itemDefinition>` +
	`<itemDefinition name="tOrder"><itemComponent name="net price"><typeRef>number</typeRef></itemComponent>` +
	`<itemComponent name="Größe"><typeRef>string</typeRef></itemComponent></itemDefinition>` +
	`<businessKnowledgeModel id="k" name="monthly fee"><encapsulatedLogic><formalParameter name="base price" typeRef="number"/>` +
	`<formalParameter name="n" typeRef="number"/><literalExpression><text>base price * 12 + n</text></literalExpression>` +
	`</encapsulatedLogic></businessKnowledgeModel>`

var forXML = strings.NewReplacer("&", "&amp;", "<", "&lt;", ">", "&gt;", `"`, "&quot;")

func (d *drawer) one(of ...string) string { return of[d.Intn(len(of))] }

// name returns a new name, with blanks, signs, letters beyond ASCII, or over 64 bytes.
func (d *drawer) name() string {
	d.made++
	return fmt.Sprintf(d.one("amount %d", "größe%d", "net-price %d", "client's age %d", "x%d", "a+b %d", "if %d",
		"a name that is by far too long to be a word of the model as some names are %d"), d.made)
}

// of returns an expression of a type.
func (d *drawer) of(kind string, depth int) string {
	if names := d.scope[kind]; len(names) > 0 && d.Intn(3) > 0 {
		return d.one(names...)
	}
	x := func(kind string) string { return d.of(kind, depth-1) }
	if depth == 0 {
		return map[string]string{aNumber: d.one("0", "1", "7", "-3", "2.0"), aText: d.one(`"a"`, `"b \"c\""`, `"é"`),
			aTruth: d.one("true", "false"), aRisk: d.one(`"HIGH"`, `"LOW"`), numbers: "[1, 2]", anOrder: `{net price: 1, Größe: "L"}`}[kind]
	}
	switch kind {
	case aNumber:
		return d.one("("+x(aNumber)+d.one(" + ", " - ", " * ")+x(aNumber)+")", "-("+x(aNumber)+")", "sum("+x(numbers)+")",
			"max("+x(aNumber)+", "+x(aNumber)+")", "count("+x(numbers)+")", "modulo("+x(aNumber)+", 7)",
			"monthly fee("+x(aNumber)+", "+x(aNumber)+")", "("+x(anOrder)+").net price", d.choice(aNumber, depth))
	case aTruth:
		return d.one("("+x(aNumber)+d.one(" < ", " >= ", " = ", " != ")+x(aNumber)+")", "("+x(aText)+" = "+x(aText)+")",
			"("+x(aTruth)+d.one(" and ", " or ")+x(aTruth)+")", "not("+x(aTruth)+")", "("+x(aNumber)+" in [1..5))",
			"("+x(aNumber)+" in (1, > 5))", "("+x(aText)+` in ["a", "b"])`, "("+x(aNumber)+" between 1 and "+x(aNumber)+")")
	case numbers:
		return d.one("["+x(aNumber)+", "+x(aNumber)+"]", d.choice(numbers, depth))
	case anOrder:
		return "{net price: " + x(aNumber) + ", Größe: " + x(aText) + "}"
	}
	return d.choice(kind, depth)
}

func (d *drawer) choice(kind string, depth int) string {
	return "(if " + d.of(aTruth, depth-1) + " then " + d.of(kind, depth-1) + " else " + d.of(kind, depth-1) + ")"
}

func (d *drawer) text(kind string) string {
	return "<literalExpression><text>" + forXML.Replace(d.of(kind, 2)) + "</text></literalExpression>"
}

// test returns an input entry for a column of a type.
func (d *drawer) test(kind string) string {
	switch kind {
	case aNumber:
		return d.one("-", "1, 2", "< "+d.of(kind, 1), "[1..5)", "not(1, 2)", "? > 3 and ? < "+d.of(kind, 0), "["+d.of(kind, 0)+"..9]",
			"!= 3", "[1, 2]", "7")
	case aTruth:
		return d.one("-", "true", "false", "null")
	}
	return d.one("-", `"a"`, `not("a", "HIGH")`, `"a", "b"`, `? = `+d.of(aText, 1), `["HIGH", "x"]`)
}

// logic returns a boxed expression of a type.
func (d *drawer) logic(kind string, depth int) string {
	switch choice := d.Intn(5); {
	case depth == 0 || choice == 0:
		return d.text(kind)
	case choice == 1:
		return "<conditional><if>" + d.logic(aTruth, depth-1) + "</if><then>" + d.logic(kind, depth-1) + "</then><else>" +
			d.logic(kind, depth-1) + "</else></conditional>"
	case choice == 2:
		return d.context(kind, depth)
	case choice == 3 && kind == numbers:
		return "<list>" + d.logic(aNumber, depth-1) + d.logic(aNumber, depth-1) + "</list>"
	case kind == anOrder:
		return d.text(kind)
	}
	return d.table(kind)
}

// context returns a boxed context with an entry and a result over it.
func (d *drawer) context(kind string, depth int) string {
	entry := d.one(aNumber, aText, aTruth)
	name := d.name()
	text := `<context><contextEntry><variable name="` + name + `"/>` + d.logic(entry, depth-1) + "</contextEntry><contextEntry>"
	before := d.scope[entry]
	d.scope[entry] = append(append([]string(nil), before...), name)
	defer func() { d.scope[entry] = before }()
	return text + d.logic(kind, depth-1) + "</contextEntry></context>"
}

// table returns a decision table that gives values of a type.
func (d *drawer) table(kind string) string {
	policy, gives, values := d.one("UNIQUE", "ANY", "FIRST"), kind, ""
	switch {
	case kind == numbers:
		policy, gives = d.one("COLLECT", "RULE ORDER"), aNumber
	case kind == aNumber && d.Intn(2) == 0:
		policy = `COLLECT" aggregation="` + d.one("SUM", "MIN", "MAX", "COUNT")
	case kind == aRisk && d.Intn(2) == 0:
		policy, values = "PRIORITY", `<outputValues><text>"HIGH", "LOW"</text></outputValues>`
	}
	columns := []string{d.one(aNumber, aText, aTruth), d.one(aNumber, aText, aTruth)}
	var all strings.Builder
	fmt.Fprintf(&all, `<decisionTable hitPolicy="%s">`, policy)
	for _, column := range columns {
		fmt.Fprintf(&all, `<input><inputExpression typeRef="%s"><text>%s</text></inputExpression></input>`, column,
			forXML.Replace(d.of(column, 1)))
	}
	fmt.Fprintf(&all, `<output name="r" typeRef="%s">%s</output>`, gives, values)
	for i := 0; i < 1+d.Intn(4); i++ {
		all.WriteString("<rule>")
		for _, column := range columns {
			fmt.Fprintf(&all, "<inputEntry><text>%s</text></inputEntry>", forXML.Replace(d.test(column)))
		}
		fmt.Fprintf(&all, "<outputEntry><text>%s</text></outputEntry></rule>", forXML.Replace(d.of(gives, 1)))
	}
	return all.String() + "</decisionTable>"
}

// file returns a file with inputs of each type and some decisions over them and over each other.
func (d *drawer) file() string {
	for _, kind := range []string{aNumber, aNumber, aText, aTruth, aRisk, numbers, anOrder} {
		d.add(kind, "input", "")
	}
	for i := 0; i < 1+d.Intn(5); i++ {
		kind := d.one(aNumber, aText, aTruth, aRisk, numbers, anOrder)
		d.add(kind, "decision", d.logic(kind, d.Intn(4)))
	}
	if d.Intn(3) == 0 {
		d.parts = append(d.parts, d.service())
	}
	return header + drawnTypes + strings.Join(d.parts, "\n") + "</definitions>"
}

// add adds an input or a decision that later ones may require.
func (d *drawer) add(kind, tag, logic string) {
	name := d.name()
	id := fmt.Sprintf("%s_%d", tag, d.made)
	variable := fmt.Sprintf(`<variable name="%s" typeRef="%s"/>`, name, kind)
	if tag == "input" {
		d.parts = append(d.parts, fmt.Sprintf(`<inputData id="%s" name="%s">%s</inputData>`, id, name, variable))
		d.needs += fmt.Sprintf(`<informationRequirement><requiredInput href="#%s"/></informationRequirement>`, id)
	} else {
		d.parts = append(d.parts, fmt.Sprintf(`<decision id="%s" name="%s">%s%s<knowledgeRequirement><requiredKnowledge href="#k"/>`+
			`</knowledgeRequirement>%s</decision>`, id, name, variable, d.needs, logic))
		d.needs += fmt.Sprintf(`<informationRequirement><requiredDecision href="#%s"/></informationRequirement>`, id)
	}
	d.scope[kind] = append(d.scope[kind], name)
}

// service returns a decision service of all inputs and the last decision.
func (d *drawer) service() string {
	var lists, last string
	for _, part := range d.parts {
		id := strings.SplitN(strings.SplitN(part, `id="`, 2)[1], `"`, 2)[0]
		if strings.HasPrefix(id, "input") {
			lists += fmt.Sprintf(`<inputData href="#%s"/>`, id)
		} else {
			last = fmt.Sprintf(`<outputDecision href="#%s"/>`, id)
		}
	}
	return `<decisionService id="service" name="my service">` + last + lists + "</decisionService>"
}

// brought returns an import's result of a file, as JSON, with its names and types.
func brought(t *testing.T, name, file string) []byte {
	t.Helper()
	read, err := dmn.Read(name, strings.NewReader(file))
	if err != nil {
		t.Fatalf("%v\n%s", err, file)
	}
	result, refusals := profile.Import([]*dmn.File{read}, profile.Options{})
	if result == nil {
		t.Fatalf("refused: %v\n%s", refusals, file)
	}
	whole, err := wholeImport(result)
	if err != nil {
		t.Fatal(err)
	}
	return whole
}

// TestRoundTrips generates files, and imports their exports: the model is the same, and so are the names, unless they would run
// together, such as "if 1" and "if".
func TestRoundTrips(t *testing.T) {
	for seed := int64(1); seed <= drawings; seed++ {
		d := &drawer{Rand: rand.New(rand.NewSource(seed)), scope: map[string][]string{}}
		file := d.file()
		whole := brought(t, fmt.Sprintf("drawing %d", seed), file)
		source, err := export.Read(whole)
		if err != nil {
			t.Fatal(err)
		}
		var messages bytes.Buffer
		exported, refusals := fileOf(source, &messages)
		if len(refusals) > 0 || strings.Count(messages.String(), "\n") != strings.Count(messages.String(), " is written as ") {
			t.Errorf("drawing %d: %v %s\n%s", seed, refusals, messages.String(), file)
			continue
		}
		again, err := export.Read(brought(t, fmt.Sprintf("export of drawing %d", seed), string(exported)))
		if err != nil {
			t.Fatal(err)
		}
		due, err := source.Model.JSON()
		if err != nil {
			t.Fatal(err)
		}
		if got, err := again.Model.JSON(); err != nil || !bytes.Equal(got, due) {
			t.Errorf("drawing %d: %v\n%s\nis again\n%s", seed, err, due, got)
		}
		for word, name := range again.Names {
			// What an import made has no name in the first file, and if names run together words are written.
			if before, named := source.Names[word]; named && before != name && name != word {
				t.Errorf("drawing %d: %s is %q, and again %q", seed, word, before, name)
			}
		}
	}
}
