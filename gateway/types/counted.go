package types

import (
	"encoding/json"
	"errors"
	"fmt"
	"math/big"

	"gateway/decimal"
	"gateway/lines"
)

// IsCounted reports whether values of this type have something counted: numbers, dates or durations that the engine has as
// whole numbers of a unit.
func (t *Type) IsCounted() bool {
	if t == nil {
		return false
	}
	if !t.unit.IsWhole() || t.moment != nil || t.items.IsCounted() {
		return true
	}
	for _, part := range t.properties {
		if part.IsCounted() {
			return true
		}
	}
	return false
}

// Object returns the type of an object whose members have these types.
func Object(members map[string]*Type) *Type {
	it := &Type{properties: members}
	names := make(map[string]any, len(members))
	for name := range members {
		names[name] = nil
	}
	it.order = lines.Keys(names)
	return it
}

// countedBy reads multipleOf and per: the power of ten, and a quotient's parts.
func (t *Type) countedBy(it *form) error {
	if text := it.MultipleOf.String(); text != "" {
		digits, exponent, fine := decimal.Parse(text)
		if !fine || digits.Cmp(big.NewInt(1)) != 0 || exponent > 0 {
			return fmt.Errorf("multipleOf is %s, and no power of ten", text)
		}
		t.unit.Decimals = -exponent
	}
	if text := it.Per.String(); text != "" {
		per, fine := new(big.Int).SetString(text, 10)
		if !fine || per.Sign() <= 0 {
			return fmt.Errorf("per is %s, and no whole number above 0", text)
		}
		ten, rest := big.NewInt(10), new(big.Int)
		for {
			quotient, _ := new(big.Int).QuoRem(per, ten, rest)
			if rest.Sign() != 0 {
				break
			}
			per = quotient
			t.unit.Decimals++
		}
		if !per.IsInt64() {
			return fmt.Errorf("per is %s, which is too great", text)
		}
		t.unit.Per = per.Int64()
	}
	return nil
}

// Units returns a value of this type as the engine has it, or says why there is none. Numbers are json.Number; 1e2 and 1.0 are
// accepted.
func (t *Type) Units(value any) (any, *lines.ValueFault) {
	value = plain(value)
	if fault := t.Check(value); fault != nil {
		return nil, fault
	}
	return t.units(value, "")
}

// Counted is Units for a value that may have another type: its numbers are counted as this type's.
func (t *Type) Counted(value any) (any, *lines.ValueFault) { return t.units(plain(value), "") }

// plain writes numbers in their shortest form, without small exponents.
func plain(value any) any {
	switch value := value.(type) {
	case json.Number:
		return json.Number(plainNumber(value.String()))
	case []any:
		for at, item := range value {
			value[at] = plain(item)
		}
	case map[string]any:
		for key, item := range value {
			value[key] = plain(item)
		}
	}
	return value
}

// mostDigits limits a number's digits; one with more stays as it is, and is out of every range.
const mostDigits = 100

func plainNumber(text string) string {
	if lines.IsWhole(text) {
		return text
	}
	digits, exponent, fine := decimal.Parse(text)
	switch {
	case !fine:
		return text
	case digits.Sign() == 0:
		return "0"
	case len(text) > mostDigits || exponent > mostDigits || exponent < -mostDigits:
		return text
	}
	if exponent > 0 {
		return digits.String() + decimal.Power(exponent).String()[1:]
	}
	return decimal.Unit{Decimals: -exponent}.Text(digits.String())
}

func (t *Type) units(value any, pointer string) (any, *lines.ValueFault) {
	switch value := value.(type) {
	case json.Number:
		text, fault := t.number(value.String(), pointer)
		return json.Number(text), fault
	case string:
		return t.moment.units(value, pointer)
	case []any:
		for at, item := range value {
			made, fault := t.itemType().units(item, fmt.Sprintf("%s/%d", pointer, at))
			if fault != nil {
				return nil, fault
			}
			value[at] = made
		}
	case map[string]any:
		for _, key := range lines.Keys(value) {
			made, fault := t.property(key).units(value[key], pointer+"/"+lines.Token(key))
			if fault != nil {
				return nil, fault
			}
			value[key] = made
		}
	}
	return value, nil
}

// number returns a number in the type's unit.
func (t *Type) number(text, pointer string) (string, *lines.ValueFault) {
	units, err := t.unit.Units(text)
	switch {
	case err == nil:
		return units, nil
	case errors.Is(err, decimal.ErrDigits) && t.unit.IsWhole():
		return "", &lines.ValueFault{Pointer: pointer, Reason: fmt.Sprintf("%s is not whole, and it is not rounded", lines.Brief([]byte(text), 40))}
	case errors.Is(err, decimal.ErrDigits) && t.unit.Per <= 1:
		return "", &lines.ValueFault{Pointer: pointer, Reason: fmt.Sprintf("%s has more than %d decimals, and it is not rounded",
			lines.Brief([]byte(text), 40), t.unit.Decimals)}
	case errors.Is(err, decimal.ErrDigits):
		return "", &lines.ValueFault{Pointer: pointer, Reason: fmt.Sprintf("%s is no multiple of a part of %d, and it is not rounded",
			lines.Brief([]byte(text), 40), t.unit.Per)}
	}
	return "", &lines.ValueFault{Pointer: pointer, Reason: fmt.Sprintf("%s is past the range: from -%s to %[2]s are taken",
		lines.Brief([]byte(text), 40), t.unit.Text(fmt.Sprint(int64(lines.MaxNumber))))}
}

// Decimals returns a value of the engine as one of this type: with decimals, dates and durations.
func (t *Type) Decimals(value any) any {
	switch value := value.(type) {
	case json.Number:
		if t.moment != nil {
			return t.moment.shown(value)
		}
		return json.Number(t.unit.Text(value.String()))
	case []any:
		for at, item := range value {
			value[at] = t.itemType().Decimals(item)
		}
	case map[string]any:
		for key, item := range value {
			value[key] = t.property(key).Decimals(item)
		}
	}
	return value
}

// IsMoment reports whether values of this type are dates or durations.
func (t *Type) IsMoment() bool { return t != nil && t.moment != nil }

// Property returns the type of the value under a key.
func (t *Type) Property(key string) *Type { return t.property(key) }

// Has reports whether the type says what the value under a key is.
func (t *Type) Has(key string) bool { return t.properties[key] != nil }

// Item returns the type of a list's items.
func (t *Type) Item() *Type { return t.itemType() }

// itemType returns the type of a list's items; the type itself if it says no more.
func (t *Type) itemType() *Type {
	switch {
	case t.items != nil:
		return t.items
	case len(t.properties) > 0:
		return t
	}
	return t.inner()
}

// property returns the type of the value under a key.
func (t *Type) property(key string) *Type {
	if part := t.properties[key]; part != nil {
		return part
	}
	if t.items != nil || len(t.properties) > 0 {
		return Any
	}
	return t.inner()
}

// inner returns the type of unspecified parts: their numbers have the type's unit.
func (t *Type) inner() *Type {
	if t.unit.IsWhole() {
		return Any
	}
	return &Type{unit: t.unit}
}
