package profile_test

import (
	"encoding/json"
	"fmt"
	"math/big"
	"strings"
	"testing"

	"gateway/dmn"
	"gateway/feel"
	"gateway/lines"
	"gateway/profile"
	"gateway/types"
)

// ratioTypes are the types of the inputs of the tests.
const ratioTypes = `<itemDefinition name="tC"><itemComponent name="x"><typeRef>number</typeRef></itemComponent>` +
	`<itemComponent name="y"><typeRef>string</typeRef></itemComponent></itemDefinition>` +
	`<itemDefinition name="tL" isCollection="true"><typeRef>number</typeRef></itemDefinition>` +
	`<itemDefinition name="tRate"><typeRef>number</typeRef><allowedValues><text>0, 0.125, 0.5</text></allowedValues></itemDefinition>`

// decimalParts returns the parts of a file except its decisions: inputs a, b, x, y are numbers, u has no type.
func decimalParts() []string {
	return []string{ratioTypes, input("a", "number"), input("b", "number"), input("x", "number"), input("y", "number"),
		input("s", "string"), input("f", "boolean"), input("u", ""), input("l", "tL"), input("c", "tC"), input("r", "tRate"),
		knowledge("g", []string{"n", "m"}, literal("decimal(n * 1.19, 2) - m"))}
}

var decimalNeeds = []string{"a", "b", "x", "y", "s", "f", "u", "l", "c", "r", "k:g"}

func decimalScope() *feel.Scope {
	return feel.NewScope(nil, "a", "b", "x", "y", "s", "f", "u", "l", "c", "r", "g", "d")
}

// countedAsk asks a service with decimals. It returns the result with decimals, or "limit", or "refused: why" for a
// request.
func countedAsk(d *desk, result *profile.Result, service, inputs string) string {
	d.t.Helper()
	tree, err := lines.Tree([]byte(inputs))
	if err != nil {
		d.t.Fatal(err)
	}
	members := tree.(map[string]any)
	for word, value := range members {
		of := typeOf(d.t, result, word)
		units, fault := of.Units(value)
		if fault != nil {
			return "refused: " + fault.Reason
		}
		members[word] = units
	}
	answer := d.ask(service, string(lines.Compact(nil, members)))
	if strings.Contains(answer, `"fault":"limit"`) {
		return "limit"
	}
	came, err := lines.Tree([]byte(answer))
	if err != nil {
		d.t.Fatal(err)
	}
	return string(lines.Compact(nil, typeOf(d.t, result, service).Decimals(came)))
}

func typeOf(t testing.TB, result *profile.Result, word string) *types.Type {
	t.Helper()
	of, err := types.Read(result.Types[word])
	if err != nil {
		t.Fatalf("the type of %s: %v: %s", word, err, result.Types[word])
	}
	return of
}

// decimalValues returns the values of a request for the evaluator.
func decimalValues(t testing.TB, inputs string) decimals {
	t.Helper()
	tree, err := lines.Tree([]byte(inputs))
	if err != nil {
		t.Fatal(err)
	}
	e := decimals{}
	for name, value := range tree.(map[string]any) {
		e[name] = decimalValue(value)
	}
	return e
}

func decimalValue(value any) any {
	switch v := value.(type) {
	case json.Number:
		number, _ := new(big.Rat).SetString(v.String())
		return number
	case []any:
		for i := range v {
			v[i] = decimalValue(v[i])
		}
	case map[string]any:
		made := record{}
		for key, part := range v {
			made[key] = decimalValue(part)
		}
		return made
	}
	return value
}

// decimalRow is an expression, a request, and the answer worked out by hand: a value, "limit", or "refused: " with
// words of the reason.
type decimalRow struct{ text, inputs, due string }

var decimalRows = []decimalRow{
	// Literals, sums and products.
	{"1.5", `{}`, "1.5"}, {"1.50", `{}`, "1.5"}, {".5", `{}`, "0.5"}, {"-0.0", `{}`, "0"}, {"-1.25", `{}`, "-1.25"}, {"0.1 + 0.2", `{}`, "0.3"},
	{"a + 0.05", `{"a":1.1}`, "1.15"}, {"a - 0.005", `{"a":0.01}`, "0.005"}, {"a * 0.19", `{"a":99.5}`, "18.905"}, {"a * b", `{"a":1.11,"b":1.11}`, "refused: not of the type: integer"},
	{"a * b * 1.0", `{"a":1,"b":2}`, "2"}, {"a * b * 0.5", `{"a":1.11,"b":1.11}`, "0.61605"}, {"a * 1.5 + b", `{"a":0.01,"b":0.01}`, "0.025"},
	{"-a + 0.5", `{"a":0.5}`, "0"}, {"-a * 0.5", `{"a":-0.01}`, "0.005"}, {"a ** 2 + 0.5", `{"a":1.1}`, "1.71"}, {"0.5 ** 8", `{}`, "0.00390625"},
	{"a ** 1 + 0.5", `{"a":1.1}`, "1.6"}, {"a * 0.5", `{"a":null}`, "null"}, {"a + 0.5", `{}`, "null"}, {"s = \"a\" and a > 0.5", `{"s":"a","a":0.51}`, "true"},
	{"a + 1.5", `{"a":92233720368547758.07}`, "limit"}, {"a + 1.5", `{"a":-92233720368547758.07}`, "-92233720368547756.57"},
	{"a + 1.5", `{"a":92233720368547758.08}`, "refused: past the range"}, {"a + 1.5", `{"a":0.005}`, "refused: more than 2 decimals"},
	{"a + 1.5", `{"a":1e2}`, "101.5"}, {"a + 1.5", `{"a":1E+2}`, "101.5"}, {"a + 1.5", `{"a":1.000}`, "2.5"}, {"a + 1.5", `{"a":-0.0}`, "1.5"},
	{"a < 0." + strings.Repeat("0", 90) + "1", `{"a":0}`, "true"}, {"a < 0." + strings.Repeat("0", 90) + "1", `{"a":0.01}`, "false"},
	{"a + 0." + strings.Repeat("0", 90) + "1", `{}`, "refused: decimals"}, {"a * 0." + strings.Repeat("0", 90) + "1", `{}`, "refused: decimals"},
	{"a < 0." + strings.Repeat("0", 6175) + "1", `{"a":0}`, "true"}, {"a < 0." + strings.Repeat("0", 6176) + "1", `{}`, "refused: decimals"},
	{"(a + 1.5) * (b + 0.25)", `{"a":0.5,"b":0.75}`, "2"},
	// The standard rounds on the way, or a constant exceeds the range where it meets finer numbers.
	{"0.0000000000000000000000000000000001 + 1000000000000000.5 - 1000000000000000.5", `{}`, "refused: with 34 decimals"},
	{"0.000000007450580596923828125 * 0.000000007450580596923828125 * 18014398509481984", `{}`, "refused: with 54 decimals"},
	{"a * b * 0.00000001 + 9223372036854.5", `{}`, "refused: with 12 decimals"}, {"[a * b * 0.00000001, 9223372036854.5]", `{}`, "refused: with 12 decimals"},
	{"if f then a * b * 0.00000001 else 9223372036854.5", `{}`, "refused: with 12 decimals"},
	{"9223372036854775807 + 0.5 - 0.5 = a", `{"a":5}`, "false"}, {"9223372036854775807 - 0.5 > a", `{"a":5}`, "true"},
	{"9223372036854775807 - 0.5 + a", `{}`, "refused: past"}, {"0.1 + 0.2 - 0.3", `{}`, "0"}, {"1.5 * 2 * 0.5", `{}`, "1.5"},
	// Comparisons: a literal is brought to the unit of the value.
	{"a < 1234567890123.4567890123", `{"a":1234567890123.45}`, "true"}, {"a < 1234567890123.4567890123", `{"a":1234567890123.46}`, "false"},
	{"a < 99999999999999999999.5", `{"a":92233720368547758.07}`, "true"}, {"a > -99999999999999999999.5", `{"a":-92233720368547758.07}`, "true"},
	{"a < -99999999999999999999.5", `{"a":-92233720368547758.07}`, "false"}, {"a > 99999999999999999999.5", `{"a":5}`, "false"},
	{"a > 99999999999999999999.5", `{}`, "null"}, {"a = 99999999999999999999.5", `{"a":5}`, "false"}, {"a != 99999999999999999999.5", `{"a":5}`, "true"},
	{"a < 0.125", `{"a":0.12}`, "true"}, {"a < 0.125", `{"a":0.13}`, "false"}, {"a <= 0.125", `{"a":0.12}`, "true"}, {"a >= 0.125", `{"a":0.12}`, "false"},
	{"a >= 0.125", `{"a":0.13}`, "true"}, {"a > -0.125", `{"a":-0.12}`, "true"}, {"a > -0.125", `{"a":-0.13}`, "false"}, {"a = 0.125", `{"a":0.12}`, "false"},
	{"a != 0.125", `{"a":0.12}`, "true"}, {"a = 0.125", `{}`, "false"}, {"a != 0.125", `{}`, "true"}, {"0.125 < a", `{"a":0.13}`, "true"},
	{"a = 0.10", `{"a":0.1}`, "true"}, {"a between 0.115 and 0.125", `{"a":0.12}`, "true"}, {"a between 0.125 and 0.135", `{"a":0.12}`, "false"},
	{"a in [0.1..0.2)", `{"a":0.2}`, "false"}, {"a in (0.1, 0.25, > 3.5)", `{"a":0.25}`, "true"}, {"a in [0.1, 0.25]", `{"a":0.25}`, "true"},
	{"a * b > 0.5", `{"a":0.71,"b":0.71}`, "true"}, {"a * 0.001 > b", `{"a":1000,"b":0.99}`, "true"}, {"a * 0.001 = b", `{"a":1000,"b":1}`, "true"},
	{"u = 1.5", `{"u":1.5}`, "true"}, {"u = 1.5", `{"u":"a"}`, "null"}, {"u + 1.5", `{"u":"a"}`, "null"}, {"u * 1.5", `{"u":2}`, "3"},
	{"if f then u else 1.5", `{"u":2.25,"f":true}`, "2.25"}, {"if f then u else 1.5", `{"u":"a","f":true}`, `"a"`},
	{"if f then u else 1.555", `{"u":2.255,"f":true}`, "2.255"}, {"if f then u else 1.555", `{"u":2.255,"f":false}`, "1.555"},
	// Lists, contexts and branches.
	{"sum([a, b, 1.5])", `{"a":0.01,"b":0.02}`, "1.53"}, {"min(a, 0.005)", `{"a":0.01}`, "0.005"}, {"max([a, b * 0.1])", `{"a":0.01,"b":0.2}`, "0.02"},
	{"sum(l) * 0.5", `{"l":[1.1,2.2]}`, "1.65"}, {"count(l) * 0.5", `{"l":[1,2]}`, "1"}, {"[1, 0.5, a]", `{"a":0.25}`, "[1,0.5,0.25]"},
	{"[a, 1.555] = [b, 1.555]", `{"a":0.1,"b":0.1}`, "true"}, {"l = [1.5, 2]", `{"l":[1.5,2]}`, "true"}, {"l = [1.555]", `{"l":[1.555]}`, "true"},
	{"{p: a, q: 0.005}", `{"a":1}`, `{"p":1,"q":0.005}`}, {"{p: a * 0.1, q: p * 0.1}.q", `{"a":1}`, "0.01"}, {"c.x * 0.5", `{"c":{"x":0.01}}`, "0.005"},
	{"if f then a else 0.125", `{"a":0.5,"f":true}`, "0.5"}, {"if f then a else 0.125", `{"a":0.5}`, "0.125"}, {"if f then 1 else 0.125", `{"f":true}`, "1"},
	{"if f then \"none\" else a * 0.5", `{"a":0.5}`, "0.25"}, {"abs(a * 0.5)", `{"a":-0.01}`, "0.005"}, {"modulo(a, 0.3)", `{"a":1}`, "0.1"},
	{"modulo(-a, 0.3)", `{"a":1}`, "0.2"}, {"modulo(a, 0.0)", `{"a":1}`, "null"}, {"r * 8", `{"r":0.125}`, "1"}, {"r + 0.1", `{"r":0.25}`, "refused: not among the allowed"},
	// Rounding.
	{"decimal(a * 0.19, 2)", `{"a":99.5}`, "18.9"}, {"decimal(a * 0.19, 2)", `{"a":0.5}`, "0.1"}, {"decimal(a * 0.5, 2)", `{"a":0.01}`, "0"},
	{"decimal(a * 0.5, 2)", `{"a":0.03}`, "0.02"}, {"decimal(a * 0.5, 2)", `{"a":-0.01}`, "0"}, {"decimal(a * 0.5, 2)", `{"a":-0.03}`, "-0.02"},
	{"decimal(2.5, 0)", `{}`, "2"}, {"decimal(3.5, 0)", `{}`, "4"}, {"decimal(a * 1.0, 5)", `{"a":0.12}`, "0.12"}, {"decimal(a * 0.5, -2)", `{"a":500}`, "200"},
	{"decimal(a * 0.5, -2)", `{"a":700}`, "400"}, {"decimal(a * 0.5, 2)", `{}`, "null"}, {"decimal(u * 0.5, 2)", `{"u":"a"}`, "null"},
	{"floor(a * 0.5)", `{"a":-0.01}`, "-1"}, {"floor(a + 0.5)", `{"a":1.49}`, "1"}, {"ceiling(a * 0.5)", `{"a":0.01}`, "1"}, {"ceiling(a * 0.5)", `{"a":-0.01}`, "0"},
	{"floor(a * 0.5, 1)", `{"a":0.19}`, "0"}, {"ceiling(a * 0.5, 1)", `{"a":0.19}`, "0.1"}, {"round up(a * 0.5, 1)", `{"a":-0.11}`, "-0.1"},
	{"round down(a * 0.5, 1)", `{"a":-0.39}`, "-0.1"}, {"round half up(a * 0.5, 2)", `{"a":0.01}`, "0.01"}, {"round half up(a * 0.5, 2)", `{"a":-0.01}`, "-0.01"},
	{"round half down(a * 0.5, 2)", `{"a":0.01}`, "0"}, {"round half down(a * 0.5, 2)", `{"a":-0.03}`, "-0.01"}, {"round up(a * 0.5, 0)", `{"a":0.01}`, "1"},
	{"decimal(a * 0.1, 2)", `{"a":92233720368547758.07}`, "9223372036854775.81"}, {"decimal(a * 0.1, 2)", `{"a":-92233720368547758.07}`, "-9223372036854775.81"},
	{"decimal(a * 1.1, 2)", `{"a":92233720368547758.07}`, "limit"}, {"floor(a + 0.0)", `{"a":1.5}`, "1"}, {"floor(a)", `{"a":-92233720368547758.07}`, "-92233720368547759"},
	{"floor(a)", `{"a":92233720368547758.07}`, "92233720368547758"}, {"ceiling(a)", `{"a":-92233720368547758.07}`, "-92233720368547758"},
	{"decimal(decimal(decimal(decimal(decimal(decimal(decimal(decimal(decimal(decimal(a * 1.19, 2) * 1.19, 2) * 1.19, 2) * 1.19, 2) * 1.19, 2) * 1.19, 2) * 1.19, 2) * 1.19, 2) * 1.19, 2) * 1.19, 2)",
		`{"a":100}`, "569.49"},
	// Division by constants.
	{"a / 8", `{"a":0.01}`, "0.00125"}, {"a / 100", `{"a":0.01}`, "0.0001"}, {"a / 3", `{"a":1}`, "0.3333333333333333333333333333333333"},
	{"a / 3", `{"a":0.06}`, "0.02"}, {"a / -3", `{"a":2}`, "-0.6666666666666666666666666666666667"}, {"-(a / 3)", `{"a":2}`, "-0.6666666666666666666666666666666667"},
	{"a / 0", `{"a":2}`, "null"}, {"a / 0.0", `{"a":2}`, "null"}, {"decimal(a / 3, 2)", `{"a":0.02}`, "0.01"}, {"decimal(a / 1200, 2)", `{"a":512.5}`, "0.43"},
	{"decimal(a * b / 100 / 12, 2)", `{"a":10000,"b":5.12}`, "42.67"}, {"a / (1 + 0.19) = b", `{"a":1.19,"b":1}`, "true"}, {"decimal(a / (1 + 0.19), 2)", `{"a":100}`, "84.03"},
	{"a / 3 / 4", `{}`, "refused: a quotient may only be"}, {"a / 3 * 3", `{}`, "refused: a quotient may only be"}, {"a / 3 + 1", `{}`, "refused: a quotient may only be"},
	{"a / 3 * 100", `{"a":1}`, "33.33333333333333333333333333333333"}, {"a / 3 / 100", `{"a":1}`, "0.003333333333333333333333333333333333"},
	{"a / 3 > 0.33", `{"a":1}`, "true"}, {"a / 3 > 0.34", `{"a":1}`, "false"}, {"a / 3 = 0.33", `{"a":0.99}`, "true"}, {"a / 3 = b / 6", `{"a":1,"b":2}`, "true"},
	{"a / 3 < b / 7", `{"a":1,"b":2.34}`, "true"}, {"a / 3 < b", `{"a":0.01,"b":0.01}`, "true"}, {"if f then a / 3 else b / 7", `{"a":1,"b":1}`, "0.1428571428571428571428571428571429"},
	{"if f then a / 3 else 0.5", `{"a":1}`, "0.5"}, {"min(a / 3, b)", `{"a":1,"b":0.34}`, "0.3333333333333333333333333333333333"}, {"abs(a / 3)", `{"a":-1}`, "0.3333333333333333333333333333333333"},
	{"[a / 3, b]", `{"a":1,"b":2}`, "[0.3333333333333333333333333333333333,2]"}, {"{p: a / 3, q: b}", `{"a":1,"b":2}`, `{"p":0.3333333333333333333333333333333333,"q":2}`},
	{"sum([a / 3, b])", `{}`, "refused: a sum of quotients"}, {"floor(a / 3)", `{"a":-0.01}`, "-1"}, {"ceiling(a / 7, 1)", `{"a":0.01}`, "0.1"}, {"decimal(1 / 3, 3) * a", `{"a":2}`, "0.666"},
	{"x / 4", `{"x":1}`, "0.25"}, {"floor(x / 3)", `{"x":92233720368547758.07}`, "30744573456182586"}, {"floor(x / 3)", `{"x":-92233720368547758.05}`, "-30744573456182587"},
	{"a / 3 = 0.3333333333333333333333333333333333", `{}`, "refused: over 14 decimals more"}, {"a / 3 > 0.3333333333333333", `{"a":1}`, "true"},
	{"a / 3 * 0.01 < 0.00333333333333334", `{"a":1}`, "true"},
	// If the divisor has only twos and fives, a comparison needs no decimals of the quotient; with many twos it is a
	// quotient.
	{"a / 8 > 0.5", `{"a":92233720368547758.07}`, "true"}, {"a / 8 > 0.5", `{"a":4}`, "false"}, {"a / 8 > 0.5", `{"a":4.01}`, "true"}, {"a / 8 = 0.5", `{"a":4}`, "true"},
	{"a / 8 = 0.5", `{}`, "false"}, {"a / 8 != 0.5", `{}`, "true"}, {"a / 8 > 0.5", `{}`, "null"}, {"a / 8 = 0.5001", `{"a":4}`, "false"}, {"a / 8 != 0.5001", `{"a":4}`, "true"},
	{"0.5 < a / 8", `{"a":4.01}`, "true"}, {"a / -8 < -0.5", `{"a":4.01}`, "true"}, {"a / -8 < -0.5", `{"a":4}`, "false"}, {"a / 8 > 0.000000000000000000001", `{"a":0.01}`, "true"},
	{"a / 1048576 > 10", `{"a":10485760.01}`, "true"}, {"a / 1048576 > 10", `{"a":10485760}`, "false"}, {"a / 1048576 <= -10", `{"a":-10485760}`, "true"},
	{"a / 8 < b", `{"a":92233720368547758.07,"b":5}`, "false"}, {"a / 8 < b", `{"a":39.99,"b":5}`, "true"}, {"a / 8 = b / 4", `{"a":92233720368547758.06,"b":46116860184273879.03}`, "true"},
	{"a / 8 >= b / 1048576", `{"a":0.08,"b":10485.76}`, "true"}, {"a / 8 = b", `{"a":1}`, "false"}, {"a / 8 = b", `{}`, "true"}, {"u / 8 = 0.5", `{"u":"a"}`, "false"}, {"u / 8 > 0.5", `{"u":"a"}`, "null"},
	{"a / 1048576", `{"a":92233720368547758.07}`, "limit"}, {"a / 1073741824", `{"a":1}`, "0.000000000931322574615478515625"}, {"a / 1073741824 + 1", `{}`, "refused: a quotient may only be"},
	{"decimal(a / 1073741824, 2)", `{"a":5368709120}`, "5"}, {"decimal(a / 1073741824, 0)", `{"a":92233720368547758.07}`, "85899346"}, {"a / 1073741824 > 4.99", `{"a":5368709120}`, "true"},
	{"a / 1073741824 = 0.5", `{"a":536870912}`, "true"}, {"floor(a / 1125899906842624)", `{"a":92233720368547758.07}`, "81"}, {"[a / 268435456, b]", `{"a":268435456,"b":0.5}`, "[1,0.5]"},
	{"if f then a / 268435456 else a / 3", `{"a":268435456,"f":true}`, "1"}, {"a / 268435456 = b / 134217728", `{"a":2,"b":1}`, "true"}, {"max(a / 268435456, b)", `{"a":536870912,"b":1}`, "2"},
	// Quotients by variables.
	{"a / b > 0.36", `{"a":856,"b":2350}`, "true"}, {"a / b > 0.36", `{"a":864,"b":2400}`, "false"}, {"a / b >= 0.36", `{"a":864,"b":2400}`, "true"}, {"a / b > 0.36", `{"a":1,"b":0}`, "null"},
	{"a / b > 0.36", `{"a":-1,"b":-2}`, "true"}, {"a / b < -0.36", `{"a":1,"b":-2}`, "true"}, {"a / b = 0.5", `{"a":1,"b":2}`, "true"}, {"a / b = 0.5", `{"a":1,"b":0}`, "false"},
	{"a / b != 0.5", `{"a":1,"b":0}`, "true"}, {"a / b = null", `{"a":1,"b":0}`, "true"}, {"a / b = null", `{"a":1,"b":2}`, "false"}, {"a / b != null", `{"a":1,"b":0}`, "false"},
	{"a / b = 0.33333333333333333333333333333333", `{}`, "refused: too many digits"}, {"a / b = x", `{"a":1,"b":0}`, "true"}, {"a / b = x", `{"a":1,"b":0,"x":1}`, "false"}, {"a / b = x / y", `{"a":1,"b":3,"x":2,"y":6}`, "true"}, {"a / b = x / y", `{"a":1,"b":0,"x":2,"y":0}`, "true"},
	{"a / b < x / y", `{"a":1,"b":3,"x":2,"y":5}`, "true"}, {"a / b < x / y", `{"a":1,"b":-3,"x":-2,"y":5}`, "false"}, {"x / a < y", `{"x":1,"a":3,"y":0.34}`, "true"},
	{"decimal(a / b, 2)", `{"a":100,"b":3}`, "33.33"}, {"decimal(a / b, 2)", `{"a":1,"b":0}`, "null"}, {"decimal(a / b, 2)", `{"a":0.01,"b":2}`, "0"}, {"decimal(a / b, 2)", `{"a":0.03,"b":2}`, "0.02"},
	{"decimal(a / b, 2)", `{"a":-0.03,"b":2}`, "-0.02"}, {"decimal(a / b, 2)", `{"a":0.03,"b":-2}`, "-0.02"}, {"decimal(a / b, 2)", `{"b":2}`, "null"}, {"decimal(a / b, 2)", `{"a":2}`, "null"},
	{"decimal(a / b, 0)", `{"a":5,"b":21474836.47}`, "0"}, {"decimal(a / b, 0)", `{"a":64424509.41,"b":21474836.47}`, "3"}, {"decimal(a / b, 0)", `{"a":92233720368547758.07,"b":0.01}`, "9223372036854775807"}, {"decimal(a / b * 100, 1)", `{"a":1,"b":3}`, "33.3"}, {"floor(a / b)", `{"a":-1,"b":3}`, "-1"}, {"round half up(a / b, 1)", `{"a":-1,"b":4}`, "-0.3"},
	{"decimal(a / b, -1)", `{"a":1000,"b":3}`, "330"}, {"a / b", `{}`, "refused: a quotient may only be"}, {"a / b + 1", `{}`, "refused: a quotient may only be"}, {"if f then a / b else 1", `{}`, "refused: a quotient may only be"},
	{"decimal(a / u, 2)", `{"a":1,"u":"a"}`, "null"}, {"a / u > 0.5", `{"a":1,"u":"a"}`, "null"}, {"u / a = 0.5", `{"a":1,"u":"a"}`, "false"}, {"a / b in [0.3..0.4]", `{"a":1,"b":3}`, "true"}, {"a / b between 0.3 and 0.4", `{"a":1,"b":2}`, "false"},
	// Entries before the expression carry its condition.
	{"if x < 1000 then decimal(x * x * x * x * 1.015, 2) else 0", `{"x":1000000}`, "0"}, {"if x < 1000 then decimal(x * x * x * x * 1.015, 2) else 0", `{"x":2}`, "16.24"},
	{"if x >= 1000 then 0 else decimal(x * x * x * x * 1.015, 2)", `{"x":1000000}`, "0"}, {"if x > 0 then if x < 1000 then decimal(x * x * x * x * 1.015, 2) else 1.5 else 2.5", `{"x":1000000}`, "1.5"},
	{"if x > 0 then (if x < 1000 then 0.5 else 1.5) else decimal(x * x * x * x * 1.015, 2)", `{"x":1000000}`, "1.5"}, {"if x < 1000 then {p: decimal(x * x * x * x * 1.015, 2)}.p else 0", `{"x":1000000}`, "0"},
	{"if x < 1000 then g(x * x * x * x, 1) else 0", `{"x":1000000}`, "0"}, {"g(a, 0.5)", `{"a":1}`, "0.69"},
}

// TestDecimalRows checks the rows against the engine and the evaluator.
func TestDecimalRows(t *testing.T) {
	if len(decimalRows) < 120 {
		t.Errorf("there are %d rows", len(decimalRows))
	}
	d := startDesk(t)
	for _, row := range decimalRows {
		file := definitions(append(decimalParts(), decision("d", "", literal(row.text), decimalNeeds...))...)
		read, err := dmn.Read("test.dmn", strings.NewReader(file))
		if err != nil {
			t.Fatal(err)
		}
		result, refusals := profile.Import([]*dmn.File{read}, profile.Options{})
		came := ""
		if result == nil {
			came = "refused: " + fmt.Sprint(refusals)
		} else {
			d.model(result)
			came = countedAsk(d, result, "d", row.inputs)
		}
		if why := strings.TrimPrefix(row.due, "refused: "); why != row.due {
			if !strings.HasPrefix(came, "refused: ") || !strings.Contains(came, why) {
				t.Errorf("%s of %s: %s is due, and it is %s", row.text, row.inputs, row.due, came)
			}
			continue
		}
		if came != row.due {
			t.Errorf("%s of %s: %s is due, and %s came", row.text, row.inputs, row.due, came)
			if result != nil {
				t.Logf("%s", logicOf(t, result, "d"))
			}
		}
		if row.due == "limit" {
			continue
		}
		node, fault := feel.Expression(row.text, decimalScope(), nil)
		if fault != nil {
			t.Fatal(fault)
		}
		if other := decimalText(decimalValues(t, row.inputs).value(node)); other != row.due {
			t.Errorf("%s of %s: by hand it is %s, and the evaluator says %s", row.text, row.inputs, row.due, other)
		}
	}
}
