package profile

import (
	"fmt"
	"strings"

	"gateway/dmn"
	"gateway/feel"
)

// types resolves the names of types in one file.
type types struct {
	refusals *refusals
	items    map[string]*dmn.ItemDefinition
	resolved map[*dmn.ItemDefinition]*valueType
	// active are the definitions being resolved: meeting one of them again is a cycle.
	active map[*dmn.ItemDefinition]bool
	// fractions is true if some allowed value has decimals.
	fractions bool
	// changes counts the changes in the types of undeclared inputs.
	changes *changes
}

// isFraction reports whether a form is a number with decimals.
func isFraction(n feel.Node) bool {
	number, is := n.(*feel.Number)
	return is && strings.Contains(strings.TrimRight(number.Text, "0"), ".") && !strings.HasSuffix(strings.TrimRight(number.Text, "0"), ".")
}

func newTypes(r *refusals, file *dmn.File, changes *changes) *types {
	t := &types{refusals: r, changes: changes, items: map[string]*dmn.ItemDefinition{}, resolved: map[*dmn.ItemDefinition]*valueType{},
		active: map[*dmn.ItemDefinition]bool{}}
	for _, item := range file.Types {
		name := feel.Canonical(item.Name())
		if t.items[name] != nil {
			r.refuse(item.Element, item.Name(), "a type of this name is defined earlier", "another name", t.items[name].Element)
			continue
		}
		t.items[name] = item
	}
	state := map[*dmn.ItemDefinition]int{}
	for _, item := range file.Types {
		t.refuseCycles(item, state)
	}
	return t
}

// refuseCycles refuses definitions that contain themselves, even unused ones. Each is visited once.
func (t *types) refuseCycles(item *dmn.ItemDefinition, state map[*dmn.ItemDefinition]int) {
	switch state[item] {
	case visited:
		return
	case visiting:
		t.refusals.refuse(item.Element, item.Name(), "the type is made of itself", "a type that ends")
		return
	}
	state[item] = visiting
	if next := t.items[feel.Canonical(item.TypeRef)]; next != nil {
		t.refuseCycles(next, state)
	}
	for _, component := range item.Components {
		t.refuseCycles(component, state)
	}
	state[item] = visited
}

// builtinTypes are FEEL's own types, and those of older tools, in lower case.
var builtinTypes = map[string]*valueType{
	"any": anyType, "number": numberType, "integer": numberType, "long": numberType, "double": numberType,
	"string": textType, "boolean": booleanType, "list": listOf(anyType), "null": nullType,
	"date": dateType, "days and time duration": dayDurationType, "daytimeduration": dayDurationType,
	"years and months duration": monthDurationType, "yearmonthduration": monthDurationType,
	"time": timeType, "date and time": dateTimeType, "datetime": dateTimeType,
}

// mostParts is how many parts a type may have: a value of more couldn't exist.
const mostParts = 10_000

// foreignTypes are the types without values in the model, with what to write instead.
var foreignTypes = map[string]string{
	"function": "business knowledge models are invoked by their names", "context": "a type with its components",
}

// resolve returns the type named at an element; nil if none is declared. It refuses unknown names.
func (t *types) resolve(e *dmn.Element, ref string) *valueType {
	if ref == "" {
		return nil
	}
	if item, found := t.items[feel.Canonical(ref)]; found {
		return t.ofItem(item)
	}
	local := ref[strings.LastIndexByte(ref, ':')+1:]
	if item, found := t.items[feel.Canonical(local)]; found {
		return t.ofItem(item)
	}
	name := strings.ToLower(feel.Canonical(local))
	if builtin, found := builtinTypes[name]; found {
		t.fractions = t.fractions || builtin.isTemporal()
		return builtin
	}
	if instead, found := foreignTypes[name]; found {
		t.refusals.refuse(e, ref, "the profile has no values of this type", instead)
		return refusedType
	}
	t.refusals.refuse(e, ref, "it is no type of this file", "number, string, boolean, or the name of an itemDefinition")
	return refusedType
}

// isFunction reports whether a name is that of a function type.
func (t *types) isFunction(ref string) bool {
	item, found := t.items[feel.Canonical(ref)]
	return found && item.Function || strings.HasPrefix(strings.ToLower(ref[strings.LastIndexByte(ref, ':')+1:]), "function")
}

// ofItem returns the type of a definition; refusedType if it contains itself.
func (t *types) ofItem(item *dmn.ItemDefinition) *valueType {
	if done, found := t.resolved[item]; found {
		return done
	}
	if t.active[item] {
		return refusedType
	}
	t.active[item] = true
	defer delete(t.active, item)
	made := t.plainItem(item)
	if item.Allowed != nil {
		made = t.narrowed(item, made)
	}
	if item.Collection {
		made = listOf(made)
		made.parts = 1 + made.element.parts
	}
	if made.parts > mostParts {
		t.refusals.refuse(item.Element, item.Name(), fmt.Sprintf("the type has over %d parts", mostParts), "a smaller type")
		made = refusedType
	}
	t.resolved[item] = made
	return made
}

// plainItem returns the type of a definition without its allowed values, and of one member if it is a collection.
func (t *types) plainItem(item *dmn.ItemDefinition) *valueType {
	switch {
	case item.Function:
		t.refusals.refuse(item.Element, item.Name(), "functions are no values of the profile",
			"business knowledge models, invoked by their names")
		return refusedType
	case len(item.Components) > 0:
		made := &valueType{kind: contextKind, fields: map[string]*valueType{}}
		for _, component := range item.Components {
			field := t.ofItem(component)
			made.setField(feel.Canonical(component.Name()), field)
			made.parts += 1 + field.parts
		}
		return made
	default:
		if ref := t.resolve(item.Element, item.TypeRef); ref != nil {
			return ref
		}
	}
	return anyType
}

// narrowed returns a type with the allowed values of a definition.
func (t *types) narrowed(item *dmn.ItemDefinition, plain *valueType) *valueType {
	allowed := t.values(item.Allowed, plain)
	if len(allowed.nodes()) == 0 {
		return plain
	}
	narrow := *plain
	narrow.allowed, narrow.narrow, narrow.implying = allowed, unknown, nil
	return &narrow
}

// values reads a list of values; each literal has to be of the type. It returns none if the text can't be read.
func (t *types) values(text *dmn.Text, of *valueType) valueList {
	if strings.TrimSpace(text.Text) == "" {
		return valueList{}
	}
	if !inFEEL(text) {
		t.refusals.refuse(text.Element, text.Language, notFEEL, "the values in FEEL")
		return valueList{}
	}
	nodes, fault := feel.Values(text.Text)
	if fault != nil {
		t.refusals.refuse(text.Element, text.Text, fault.Why, fault.Instead)
		return valueList{}
	}
	if _, all := nodes[0].(*feel.Anything); all {
		return valueList{}
	}
	for _, node := range nodes {
		t.fractions = t.fractions || feel.Any(node, isFraction)
		if why, instead := notOfType(node, of); why != "" {
			t.refusals.refuse(text.Element, text.Text, why, instead)
			return valueList{}
		}
	}
	made := listOfValues(nodes)
	made.text = text
	if len(made.others) > mostOthers {
		t.refusals.refuse(text.Element, text.Text, fmt.Sprintf("over %d ranges and tests", mostOthers), "fewer, wider ones")
		return valueList{}
	}
	return made
}

// notOfType says why a form can't be one of a type's values; empty if it may be.
func notOfType(node feel.Node, of *valueType) (why, instead string) {
	if name, is := node.(*feel.Name); is {
		return fmt.Sprintf("%s is no value", name.Name), "a text stands in quotes"
	}
	if literal := literalType(node); literal != nil && literal.fitOf(of) == never {
		return fmt.Sprintf("a value is of the type %s, where %s is declared", literal, of), "values of the declared type"
	}
	return "", ""
}

// literalType returns the type of a literal; nil for others.
func literalType(node feel.Node) *valueType {
	switch n := node.(type) {
	case *feel.Number:
		return numberType
	case *feel.String:
		return textType
	case *feel.Boolean:
		return booleanType
	case *feel.Null:
		return nullType
	case *feel.Negation:
		if _, number := n.Operand.(*feel.Number); number {
			return numberType
		}
	}
	return nil
}
