package export

import (
	"encoding/json"
	"sort"
	"strings"
)

// A Schema is the used part of a value's JSON Schema: type, allowed values, list members and context entries.
type Schema struct {
	// Type is a type, or a list of types.
	Type       json.RawMessage   `json:"type"`
	Enum       []json.RawMessage `json:"enum"`
	Items      *Schema           `json:"items"`
	Properties map[string]Schema `json:"properties"`
	// The ends of a number range.
	Minimum json.Number `json:"minimum"`
	Above   json.Number `json:"exclusiveMinimum"`
	Maximum json.Number `json:"maximum"`
	Below   json.Number `json:"exclusiveMaximum"`
	// How the model counts numbers: as multiples of a power of ten, or a quotient as parts of one.
	MultipleOf json.Number `json:"multipleOf"`
	Per        json.Number `json:"per"`
	// Format is that of dates, times and durations, which the model has as whole numbers.
	Format string `json:"format"`
}

// kindsOf maps each type of JSON Schema to its kinds of values.
var kindsOf = map[string]kinds{
	"null": isNull, "boolean": isBoolean, "integer": isNumber, "number": isNumber, "string": isText, "array": isList,
	"object": isContext,
}

// typeNames returns a schema's types, or none.
func (s Schema) typeNames() []string {
	if s.Format != "" {
		return []string{"integer", "null"}
	}
	var one string
	if json.Unmarshal(s.Type, &one) == nil {
		return []string{one}
	}
	var several []string
	if json.Unmarshal(s.Type, &several) == nil {
		return several
	}
	return nil
}

// shape returns what the schema says about a value. Null is always valid, as a request may leave an input out.
func (s Schema) shape() shape {
	found := shape{kinds: isNull}
	for _, name := range s.typeNames() {
		found.kinds |= kindsOf[name]
	}
	if found.kinds == isNull {
		return anything
	}
	if s.Items != nil {
		member := s.Items.shape()
		found.members = &member
	}
	if s.Properties != nil {
		found.entries = map[string]shape{}
		for word, property := range s.Properties {
			found.entries[word] = property.shape()
		}
	}
	return found
}

// scalar returns the type name of a number, text or boolean; "" for anything else.
func scalar(s shape) string {
	switch s.kinds &^ isNull {
	case isNumber:
		return "number"
	case isText:
		return "string"
	case isBoolean:
		return "boolean"
	}
	return ""
}

// scalar returns the name of a scalar type if types are written.
func (p *page) scalar(s shape) string {
	if !p.Typed {
		return ""
	}
	return scalar(s)
}

// isNarrowed reports whether the schema allows fewer values than its type.
func (s Schema) isNarrowed() bool {
	return len(s.Enum) > 0 || s.interval() != ""
}

// interval returns the number range if it has two ends; FEEL's ranges have both.
func (s Schema) interval() string {
	low, high := "["+s.Minimum.String(), s.Maximum.String()+"]"
	if s.Above != "" {
		low = "(" + s.Above.String()
	}
	if s.Below != "" {
		high = s.Below.String() + ")"
	}
	if len(low) == 1 || len(high) == 1 {
		return ""
	}
	return low + ".." + high
}

// typeOf returns the type of an input or decision. It gets its own definition unless it is a plain one.
func (p *page) typeOf(word string) string {
	schema, typed := p.Types[word]
	if !typed {
		return ""
	}
	if plain := scalar(schema.shape()); plain != "" && !schema.isNarrowed() {
		return plain
	}
	if schema.Items == nil && schema.Properties == nil && !schema.isNarrowed() {
		return ""
	}
	name := "t" + p.spell(word)
	p.types = append(p.types, p.item("itemDefinition", name, schema))
	return name
}

// item returns the definition of a type or of its component.
func (p *page) item(kind, name string, schema Schema) *element {
	collection := ""
	if schema.Items != nil {
		collection, schema = "true", *schema.Items
	}
	e := tag(kind, "id", p.id("item"), "name", name, "isCollection", collection)
	if schema.Items != nil {
		// A list of lists needs a definition for the inner one.
		inner := name + " member"
		p.types = append(p.types, p.item("itemDefinition", inner, schema))
		return e.add(typeRef(inner))
	}
	if schema.Properties != nil {
		words := make([]string, 0, len(schema.Properties))
		for word := range schema.Properties {
			words = append(words, word)
		}
		sort.Strings(words)
		for _, word := range words {
			e.add(p.item("itemComponent", p.spell(word), schema.Properties[word]))
		}
		return e
	}
	if plain := scalar(schema.shape()); plain != "" {
		e.add(typeRef(plain))
	} else {
		e.add(typeRef("Any"))
	}
	return e.add(p.allowed(schema)...)
}

func typeRef(name string) *element {
	return &element{name: "typeRef", content: name}
}

// allowed returns the allowed values of a type.
func (p *page) allowed(schema Schema) []*element {
	var values []string
	if interval := schema.interval(); interval != "" {
		values = append(values, interval)
	}
	for _, value := range schema.Enum {
		if literal := string(value); literal != "null" {
			values = append(values, feelOf(literal))
		}
	}
	if len(values) == 0 {
		return nil
	}
	return []*element{tag("allowedValues", "id", p.id("values")).add(text(strings.Join(values, ", ")))}
}

// feelOf returns a JSON scalar as a FEEL literal.
func feelOf(literal string) string {
	var value string
	if json.Unmarshal([]byte(literal), &value) != nil {
		return literal
	}
	escaped := strings.NewReplacer(`\`, `\\`, `"`, `\"`, "\t", `\t`).Replace(value)
	return quote(value, `"`+escaped+`"`)
}
