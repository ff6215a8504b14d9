package profile

import (
	"encoding/json"
	"math/big"
	"sort"
	"strings"

	"gateway/calendar"
	"gateway/decimal"
	"gateway/feel"
)

// mostOfSchemas is how many bytes all schemas of a model and its places may have. There is one for each decision and
// input, and all their values may have the same large type.
const mostOfSchemas = 16 << 20

// A schemaWriter writes the JSON Schemas of types, whose times are in ticks. Null conforms to each type; a number is
// whole.
type schemaWriter struct {
	words *words
	tick  calendar.Tick
	text  []byte
	// plain are the schemas of numbers in units, texts and booleans, without values.
	plain map[plainType][]byte
}

// A plainType is a scalar type of which only the units are known.
type plainType struct {
	kind  kindOfType
	scale int
	per   int64
}

func newSchemaWriter(w *words, tick calendar.Tick) *schemaWriter {
	return &schemaWriter{words: w, tick: tick, plain: map[plainType][]byte{}}
}

// schema returns the schema of a type.
func (w *schemaWriter) schema(of *valueType) json.RawMessage {
	w.text = w.text[:0]
	w.write(of)
	return append(json.RawMessage(nil), w.text...)
}

// write writes the schema of a type, up to the limit of a model.
func (w *schemaWriter) write(of *valueType) {
	if len(w.text) > mostOfSchemas {
		return
	}
	key, isPlain := plainType{of.kind, of.units.scale, of.units.per}, of.isPlainScalar()
	if isPlain && w.plain[key] != nil {
		w.text = append(w.text, w.plain[key]...)
		return
	}
	start := len(w.text)
	w.members(of, describe(of, w.tick))
	if isPlain {
		w.plain[key] = append([]byte(nil), w.text[start:]...)
	}
}

// isPlainScalar reports whether a type is a scalar whose schema has only its units.
func (t *valueType) isPlainScalar() bool {
	isScalar := t.kind == numberKind || t.kind == textKind || t.kind == booleanKind || t.kind == anyKind
	return isScalar && len(t.allowed.nodes()) == 0 && len(t.noted.nodes()) == 0
}

// members writes the members of a schema, ordered by name.
func (w *schemaWriter) members(of *valueType, said map[string]interface{}) {
	names := make([]string, 0, len(said))
	for name := range said {
		names = append(names, name)
	}
	sort.Strings(names)
	w.text = append(w.text, '{')
	for i, name := range names {
		w.name(i, name)
		switch name {
		case "items":
			w.write(of.element)
		case "properties":
			w.properties(of)
		default:
			w.value(said[name])
		}
	}
	w.text = append(w.text, '}')
}

// properties writes the schemas of the entries of a context.
func (w *schemaWriter) properties(of *valueType) {
	parts := make(map[string]*valueType, len(of.order))
	for _, name := range of.order {
		parts[w.words.of(name)] = of.fields[name]
	}
	for name, part := range of.more {
		if part.isCounted() || part.hasTemporal() {
			parts[w.words.of(name)] = part
		}
	}
	names := make([]string, 0, len(parts))
	for name := range parts {
		names = append(names, name)
	}
	sort.Strings(names)
	w.text = append(w.text, '{')
	for i, name := range names {
		w.name(i, name)
		w.write(parts[name])
	}
	w.text = append(w.text, '}')
}

func (w *schemaWriter) name(index int, name string) {
	if index > 0 {
		w.text = append(w.text, ',')
	}
	w.value(name)
	w.text = append(w.text, ':')
}

func (w *schemaWriter) value(of interface{}) {
	text, err := json.Marshal(of)
	if err != nil {
		text = []byte("null")
	}
	w.text = append(w.text, text...)
}

// describe returns the schema of a type; for items and properties, only that there are some.
func describe(of *valueType, tick calendar.Tick) map[string]interface{} {
	made := map[string]interface{}{}
	switch of.kind {
	case numberKind:
		made["type"] = []string{"integer", "null"}
		if !of.units.isPlain() {
			made["type"] = []string{"number", "null"}
		}
		of.units.describe(made)
	case anyKind:
		of.units.describe(made)
	case textKind:
		made["type"] = []string{"string", "null"}
	case booleanKind:
		made["type"] = []string{"boolean", "null"}
	case listKind:
		made["type"], made["items"] = []string{"array", "null"}, nil
	case contextKind:
		made["type"], made["properties"] = []string{"object", "null"}, nil
	}
	if of.isTemporal() {
		made["type"] = []string{"string", "null"}
		of.describeTemporal(made, tick)
	}
	if len(of.allowed.nodes()) == 0 {
		narrow(made, of.noted.nodes())
	}
	narrow(made, of.allowed.nodes())
	return made
}

// describe adds to a schema how numbers are counted: as multiples of a power of ten, or a quotient as parts of one.
func (u units) describe(made map[string]interface{}) {
	switch {
	case u.isPlain():
	case u.per > 1:
		made["per"] = json.Number(new(big.Int).Mul(decimal.Power(u.scale), big.NewInt(u.per)).String())
	default:
		made["multipleOf"] = json.Number(decimal.Unit{Decimals: u.scale}.Text("1"))
	}
}

// narrow adds allowed values to a schema: literals as an enumeration, one range as its ends. It leaves out others.
func narrow(made map[string]interface{}, allowed []feel.Node) {
	if len(allowed) == 0 {
		return
	}
	if interval, is := allowed[0].(*feel.Range); is && len(allowed) == 1 {
		limit(made, interval.Low, interval.LowOpen, "inimum")
		limit(made, interval.High, interval.HighOpen, "aximum")
		return
	}
	values := make([]interface{}, 0, len(allowed)+1)
	hasNull := false
	for _, n := range allowed {
		value, is := literalValue(n)
		if !is {
			return
		}
		hasNull = hasNull || value == nil
		values = append(values, value)
	}
	if !hasNull {
		values = append(values, nil)
	}
	made["enum"] = values
}

// isSchema reports whether a schema has all of the allowed values: they are literals, or a range of numbers.
func isSchema(allowed []feel.Node) bool {
	if len(allowed) == 0 {
		return false
	}
	if _, is := allowed[0].(*feel.Range); is && len(allowed) == 1 {
		made := map[string]interface{}{}
		narrow(made, allowed)
		return len(made) == 2
	}
	for _, n := range allowed {
		if _, is := literalValue(n); !is {
			return false
		}
	}
	return true
}

// limit adds an end of a range that is a number, a date or a duration. For numbers the key is minimum or
// exclusiveMinimum, for others formatMinimum or formatExclusiveMinimum; likewise for the maximum.
func limit(made map[string]interface{}, end feel.Node, open bool, key string) {
	first := "m"
	if open {
		first = "exclusiveM"
	}
	if text, is := momentText(end); is {
		made["format"+strings.ToUpper(first[:1])+first[1:]+key] = text
		return
	}
	text := literalText(end)
	if rational(end) == nil || text == "" {
		return
	}
	made[first+key] = json.Number(text)
}

// literalValue returns a literal as a JSON value; false for others.
func literalValue(n feel.Node) (interface{}, bool) {
	switch n := n.(type) {
	case *feel.String:
		return n.Value, true
	case *feel.Boolean:
		return n.Value, true
	case *feel.Null:
		return nil, true
	}
	if text, is := momentText(n); is {
		return text, true
	}
	if text := literalText(n); text != "" {
		return json.Number(text), true
	}
	return nil, false
}
