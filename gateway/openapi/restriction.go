package openapi

import (
	"encoding/json"
	"fmt"
	"math/big"
	"strconv"

	"gateway/calendar"
	"gateway/domain"
	"gateway/lines"
	"gateway/types"
)

// A Restriction adds domains to the JSON Schemas of inputs. No value of the domains is refused; where a schema can't say a domain it takes
// more, and has the words as its description.
type Restriction struct {
	// Name returns the name that a type's property has in the schemas.
	Name func(word string) string
	// Lenient means that null is taken for each value, and that components may be missing.
	Lenient bool
}

// mostWords is the most bytes of a description's words.
const mostWords = 240

// kindNames are those of JSON Schema for values but null.
var kindNames = []string{"object", "number", "string", "boolean", "array"}

// A restricting is a schema in the making: that of a place's values, which have a type.
type restricting struct {
	Restriction
	schema map[string]any
	place  *domain.Place
	of     *types.Type
	kinds  domain.Kinds
	// takesNull and takesScalars are true if null lies in the domain, and other values without components do.
	takesNull, takesScalars bool
}

// Add restricts a schema to the values that lie in the domains of a place, and gives it an example.
func (r Restriction) Add(schema map[string]any, place *domain.Place, of *types.Type) {
	if place == nil {
		return
	}
	it := &restricting{Restriction: r, schema: schema, place: place, of: of, kinds: place.Domain().Kinds(),
		takesNull: r.Lenient || !place.IsNeeded(), takesScalars: r.Lenient || !place.NeedsParts()}
	names, isTyped, hasNull := namesOf(schema)
	it.takesNull = it.takesNull && (hasNull || !isTyped)
	switch listed, isListed := schema["enum"].([]any); {
	case isListed:
		it.keep(listed)
	case !isTyped && it.takesNull && it.takesScalars && place.Domain().IsAny():
		it.properties(schema)
	default:
		it.restrict(names)
	}
	it.example()
}

// namesOf returns the kinds that a schema takes, but null; all if it doesn't say. Its null is returned apart.
func namesOf(schema map[string]any) (names []string, isTyped, hasNull bool) {
	switch of := schema["type"].(type) {
	case string:
		return []string{of}, true, false
	case []any:
		for _, name := range of {
			if name == "null" {
				hasNull = true
			} else {
				names = append(names, fmt.Sprint(name))
			}
		}
		return names, true, hasNull
	}
	return kindNames, false, true
}

// keep leaves those of the listed values that lie in the domain.
func (r *restricting) keep(listed []any) {
	kept := make([]any, 0, len(listed))
	for _, value := range listed {
		if value == nil && r.takesNull || value != nil && r.has(value) {
			kept = append(kept, value)
		}
	}
	r.schema["enum"] = kept
	if len(kept) == 0 {
		delete(r.schema, "enum")
		r.schema["not"] = map[string]any{}
	}
	if !r.takesNull {
		dropNull(r.schema)
	}
}

// has reports whether a value as callers write it lies in the own domain.
func (r *restricting) has(value any) bool {
	tree, err := lines.Tree(lines.Compact(nil, value))
	if err != nil {
		return false
	}
	units, fault := r.of.Units(tree)
	return fault == nil && (r.place.Domain().IsAny() || r.place.Domain().Has(units))
}

// dropNull takes null from the kinds of a schema.
func dropNull(schema map[string]any) {
	if names, isTyped, _ := namesOf(schema); isTyped && len(names) == 1 {
		schema["type"] = names[0]
	}
}

// restrict restricts a schema to what the domain has of these kinds.
func (r *restricting) restrict(names []string) {
	var alternatives []map[string]any
	for _, name := range names {
		if made := r.ofKind(name); made != nil {
			made["type"] = name
			if name == "number" && r.schema["type"] == nil && r.schema["multipleOf"] == nil && r.schema["per"] == nil {
				made["type"] = "integer"
			}
			alternatives = append(alternatives, made)
		}
	}
	delete(r.schema, "type")
	switch {
	case len(alternatives) > 0 && r.takesNull:
		withNull(alternatives[0])
	case r.takesNull:
		r.schema["enum"], r.schema["nullable"] = []any{nil}, true
	case len(alternatives) == 0:
		r.schema["not"] = map[string]any{}
	}
	if len(alternatives) == 1 {
		r.merge(alternatives[0])
	} else if len(alternatives) > 1 {
		r.merge(map[string]any{"anyOf": untyped(alternatives)})
	}
}

// untyped makes a list of any values.
func untyped(all []map[string]any) (made []any) {
	for _, one := range all {
		made = append(made, one)
	}
	return made
}

func withNull(schema map[string]any) {
	schema["type"] = []any{schema["type"], "null"}
	if listed, is := schema["enum"].([]any); is {
		schema["enum"] = append(listed, nil)
	}
}

// ofKind returns what the domain has of a kind; nil if it is nothing.
func (r *restricting) ofKind(name string) map[string]any {
	switch {
	case name == "array":
		return r.lists()
	case name == "object" && r.kinds.Contexts:
		made := map[string]any{}
		r.properties(made)
		return made
	case name == "object" || !r.takesScalars:
		return nil
	case name == "string" && r.of.IsMoment():
		return r.moments()
	case name == "string":
		return r.some(r.kinds.Texts)
	case name == "boolean":
		return r.booleans()
	}
	return r.numbers()
}

func (r *restricting) booleans() map[string]any {
	switch k := r.kinds; {
	case k.True && k.False:
		return map[string]any{}
	case k.True || k.False:
		return map[string]any{"enum": []any{k.True}}
	}
	return nil
}

// some returns a schema of texts or lists.
func (r *restricting) some(of domain.Some) map[string]any {
	switch {
	case of.IsNone():
		return nil
	case of.ByOrder:
		return map[string]any{"description": r.words()}
	case of.Others && len(of.Listed) > 0:
		return map[string]any{"not": map[string]any{"enum": of.Listed}}
	case of.Others:
		return map[string]any{}
	}
	return map[string]any{"enum": of.Listed}
}

// words says what the domain allows.
func (r *restricting) words() string {
	return "It has to be " + string(lines.Brief([]byte(r.place.Domain().Words(r.of.Decimals)), mostWords))
}

// lists returns a schema of lists. What their members have in the domains of components is left open, and so are the members of a list with
// numbers that are counted.
func (r *restricting) lists() map[string]any {
	if !r.place.MayBeList() {
		return nil
	}
	of := r.kinds.Lists
	made := r.some(of)
	if len(of.Listed) > 0 && r.of.IsCounted() {
		made = map[string]any{"description": r.words()}
	}
	if _, isTyped := r.schema["type"]; !isTyped && made != nil {
		made["items"] = map[string]any{}
	}
	return made
}

// numbers returns a schema of numbers, as callers write them.
func (r *restricting) numbers() map[string]any {
	var ranges []map[string]any
	var listed []any
	for _, it := range r.kinds.Numbers {
		if number, isOne := it.One(); isOne {
			listed = append(listed, r.of.Decimals(number))
		} else {
			ranges = append(ranges, r.interval(it))
		}
	}
	if len(listed) > 0 {
		ranges = append(ranges, map[string]any{"enum": listed})
	}
	switch len(ranges) {
	case 0:
		return nil
	case 1:
		return ranges[0]
	}
	return map[string]any{"anyOf": untyped(ranges)}
}

func (r *restricting) interval(it domain.Interval) map[string]any {
	made := map[string]any{}
	put := func(key, openKey string, limit any, isOpen bool) {
		if isOpen {
			key = openKey
		}
		if limit != nil {
			made[key] = r.of.Decimals(limit)
		}
	}
	put("minimum", "exclusiveMinimum", it.Low, it.LowOpen)
	put("maximum", "exclusiveMaximum", it.High, it.HighOpen)
	return made
}

// moments returns a schema of dates or durations. JSON Schema knows no order of them, and a duration is written in several ways, so words
// say what they have to be, unless the type does.
func (r *restricting) moments() map[string]any {
	all := r.kinds.Numbers
	if len(all) == 0 {
		return nil
	}
	if len(all) == 1 && isBefore(all[0].Low, calendar.FirstDay) && isBefore(calendar.LastDay, all[0].High) {
		return map[string]any{}
	}
	for _, key := range []string{"formatMinimum", "formatExclusiveMinimum", "formatMaximum", "formatExclusiveMaximum"} {
		if _, is := r.schema[key]; is {
			return map[string]any{}
		}
	}
	return map[string]any{"description": r.words()}
}

// isBefore reports whether an end is before a day, or a day before an end, or the same; no end is before all.
func isBefore(a, b any) bool {
	number := func(of any) (int64, bool) {
		switch of := of.(type) {
		case int64:
			return of, true
		case json.Number:
			made, err := strconv.ParseInt(of.String(), 10, 64)
			return made, err == nil
		}
		return 0, false
	}
	x, isX := number(a)
	y, isY := number(b)
	return !isX || !isY || x <= y
}

// properties restricts the components, and says which objects must have.
func (r *restricting) properties(made map[string]any) {
	properties, _ := r.schema["properties"].(map[string]any)
	if properties == nil {
		properties = map[string]any{}
	}
	var required []any
	for _, word := range r.place.Keys() {
		name, part := word, r.place.Part(word)
		if r.of.Has(word) {
			name = r.Name(word)
		}
		schema, is := properties[name].(map[string]any)
		if !is {
			schema = map[string]any{}
			properties[name] = schema
		}
		r.Restriction.Add(schema, part, r.of.Property(word))
		if part.IsNeeded() && !r.Lenient {
			required = append(required, name)
		}
	}
	if len(properties) > 0 {
		made["properties"] = properties
	}
	if len(required) > 0 {
		made["required"] = required
	}
}

// merge adds keywords to the schema, so that it takes what it did and they do.
func (r *restricting) merge(more map[string]any) {
	tighten(r.schema, more, "minimum", "exclusiveMinimum", 1)
	tighten(r.schema, more, "maximum", "exclusiveMaximum", -1)
	for key, value := range more {
		switch _, is := r.schema[key]; {
		case key == "properties" || !is:
			r.schema[key] = value
		case key == "description":
			r.schema[key] = fmt.Sprintf("%v. %v", r.schema[key], value)
		default:
			all, _ := r.schema["allOf"].([]any)
			r.schema["allOf"] = append(all, map[string]any{key: value})
		}
	}
}

// tighten keeps the closer one of two bounds in a direction, in the schema, and removes it from the other.
func tighten(schema, more map[string]any, key, openKey string, direction int) {
	for _, name := range []string{key, openKey} {
		limit, is := more[name].(json.Number)
		delete(more, name)
		if !is {
			continue
		}
		isCloser := true
		for _, other := range []string{key, openKey} {
			if own, is := schema[other].(json.Number); is {
				order := rational(limit).Cmp(rational(own)) * direction
				isCloser = isCloser && (order > 0 || order == 0 && other == key)
			}
		}
		if isCloser {
			delete(schema, key)
			delete(schema, openKey)
			schema[name] = limit
		}
	}
}

func rational(number json.Number) *big.Rat {
	made, is := new(big.Rat).SetString(number.String())
	if !is {
		return new(big.Rat)
	}
	return made
}

// example gives the schema an example of the domain, unless the one that its keywords give is.
func (r *restricting) example() {
	own := r.place.Domain()
	if own.IsAny() {
		return
	}
	if made := Example(Schema(lines.Compact(nil, r.schema))); made != nil && r.has(made) {
		return
	}
	if example, isFound := own.Example(); isFound && example != nil {
		if shown := r.of.Decimals(example); r.has(shown) {
			r.schema["example"] = shown
		}
	}
}
