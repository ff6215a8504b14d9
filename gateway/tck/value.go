package tck

import (
	"encoding/json"
	"fmt"
	"math/big"
	"regexp"
	"strings"
)

// A words maps names of the file to words; other names stay as they are.
type words map[string]string

// json returns a value for the engine: with the model's words in contexts, and dates and durations as dated. It returns an
// error if there is no such value.
func (v *Value) json(w words) (any, error) {
	switch {
	case v == nil || v.Nil:
		return nil, nil
	case v.Scalar != nil:
		return v.Scalar.json()
	case v.List != nil:
		return v.List.json(w)
	case len(v.Components) > 0:
		return entries(v.Components, w)
	}
	return nil, nil
}

// A foreign value is expected, and outside the profile.
type foreign string

// due returns a value for comparison with an answer. What no answer can be is a foreign value.
func (v *Value) due(w words) any {
	switch {
	case v == nil || v.Nil:
		return nil
	case v.Scalar != nil:
		return v.Scalar.due()
	case v.List != nil:
		return v.List.due(w)
	}
	if len(v.Components) == 0 {
		return nil
	}
	all := make(map[string]any, len(v.Components))
	for i := range v.Components {
		all[w.of(v.Components[i].Name)] = v.Components[i].Value.due(w)
	}
	return all
}

func (l *List) due(w words) any {
	if l.Nil {
		return nil
	}
	all := make([]any, 0, len(l.Items))
	for i := range l.Items {
		all = append(all, l.Items[i].due(w))
	}
	return all
}

func (s *Scalar) due() any {
	if value, err := s.json(); err == nil {
		return value
	}
	return foreign(strings.TrimSpace(s.Text))
}

func entries(components []Component, w words) (any, error) {
	all := make(map[string]any, len(components))
	for _, c := range components {
		value, err := c.Value.json(w)
		if err != nil {
			return nil, fmt.Errorf("%s: %w", c.Name, err)
		}
		all[w.of(c.Name)] = value
	}
	return all, nil
}

func (l *List) json(w words) (any, error) {
	if l.Nil {
		return nil, nil
	}
	all := make([]any, 0, len(l.Items))
	for i := range l.Items {
		value, err := l.Items[i].json(w)
		if err != nil {
			return nil, fmt.Errorf("item %d: %w", i+1, err)
		}
		all = append(all, value)
	}
	return all, nil
}

// json returns a scalar; without a type it is a text.
func (s *Scalar) json() (any, error) {
	if s.Nil {
		return nil, nil
	}
	switch kind := s.kind(); {
	case kind == "", kind == "string":
		return s.Text, nil
	case kind == "boolean":
		return strings.TrimSpace(s.Text) == "true", nil
	case s.isNumber():
		return number(strings.TrimSpace(s.Text))
	case datedKinds[kind]:
		return dated{kind, strings.TrimSpace(s.Text)}, nil
	default:
		return nil, fmt.Errorf("the profile has no values of the type %s", kind)
	}
}

// kind returns the scalar's type without prefix.
func (s *Scalar) kind() string { return s.Type[strings.LastIndexByte(s.Type, ':')+1:] }

func (s *Scalar) isNumber() bool {
	switch s.kind() {
	case "decimal", "double", "float", "integer", "int", "long", "short", "byte":
		return true
	}
	return false
}

// decimal is a number in XML Schema's form, with a small exponent.
var decimal = regexp.MustCompile(`^[-+]?([0-9]+\.?[0-9]*|\.[0-9]+)([eE][-+]?[0-9]{1,3})?$`)

// mostDigits limits the digits shown after a point.
const mostDigits = 64

// rational returns the number in a text, or nil.
func rational(text string) *big.Rat {
	if len(text) > 2*mostDigits || !decimal.MatchString(text) {
		return nil
	}
	number, fine := new(big.Rat).SetString(text)
	if !fine {
		return nil
	}
	return number
}

// number returns a number in its shortest form, or an error if it has too many digits.
func number(text string) (any, error) {
	value := rational(text)
	if value == nil {
		return nil, fmt.Errorf("%q is no number", text)
	}
	shortest := strings.TrimSuffix(strings.TrimRight(value.FloatString(mostDigits), "0"), ".")
	if again := rational(shortest); again == nil || again.Cmp(value) != 0 {
		return nil, fmt.Errorf("the profile has no number %s", text)
	}
	return json.Number(shortest), nil
}

// same reports whether two JSON values with json.Number are equal.
func same(a, b any) bool {
	switch x := a.(type) {
	case []any:
		y, ok := b.([]any)
		return ok && sameLists(x, y)
	case map[string]any:
		y, ok := b.(map[string]any)
		return ok && sameContexts(x, y)
	}
	switch b.(type) {
	case []any, map[string]any:
		return false
	}
	return a == b
}

func sameLists(a, b []any) bool {
	if len(a) != len(b) {
		return false
	}
	for i := range a {
		if !same(a[i], b[i]) {
			return false
		}
	}
	return true
}

func sameContexts(a, b map[string]any) bool {
	if len(a) != len(b) {
		return false
	}
	for name, value := range a {
		other, found := b[name]
		if !found || !same(value, other) {
			return false
		}
	}
	return true
}

// said returns a value as JSON.
func said(value any) string {
	var text strings.Builder
	encoder := json.NewEncoder(&text)
	encoder.SetEscapeHTML(false)
	if err := encoder.Encode(value); err != nil {
		return err.Error()
	}
	return strings.TrimSpace(text.String())
}
