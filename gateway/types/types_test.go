package types

import (
	"encoding/json"
	"fmt"
	"math/rand"
	"strings"
	"testing"

	"gateway/lines"
)

func TestCheck(t *testing.T) {
	const season = `{"type":["string","null"],"enum":["Winter","Summer",null]}`
	const age = `{"type":["integer","null"],"minimum":0,"exclusiveMaximum":150}`
	const person = `{"type":["object","null"],"properties":{"age":` + age + `,"names":{"type":["array","null"],` +
		`"items":{"type":["string","null"]}}}}`
	for _, it := range []struct{ schema, value, pointer, said string }{
		{season, `"Winter"`, "", ""},
		{season, `null`, "", ""},
		{season, `"Autumn"`, "", "not among the allowed values"},
		{season, `1`, "", "not of the type: string or null"},
		{age, `0`, "", ""},
		{age, `149`, "", ""},
		{age, `-1`, "", "at least 0"},
		{age, `150`, "", "less than 150"},
		{age, `9223372036854775807`, "", "less than 150"},
		{person, `{"age":3,"names":["a",null],"more":1}`, "", ""},
		{person, `{}`, "", ""},
		{person, `{"age":-3}`, "/age", "at least 0"},
		{person, `{"names":["a",1]}`, "/names/1", "not of the type"},
		{person, `[]`, "", "not of the type"},
		{`{}`, `[1,{}]`, "", ""},
		{`{"enum":[1,true,null]}`, `true`, "", ""},
		{`{"enum":[1,true,null]}`, `"1"`, "", "not among"},
	} {
		of, err := Read(json.RawMessage(it.schema))
		if err != nil {
			t.Fatal(err)
		}
		value, err := lines.Tree([]byte(it.value))
		if err != nil {
			t.Fatal(err)
		}
		fault := of.Check(value)
		if of.HoldsPlain([]byte(it.value)) != (fault == nil) {
			t.Errorf("%s of %s: what is seen of the text differs", it.value, it.schema)
		}
		switch {
		case fault == nil && it.said != "":
			t.Errorf("%s is taken by %s", it.value, it.schema)
		case fault != nil && (it.said == "" || fault.Pointer != it.pointer || !strings.Contains(fault.Reason, it.said)):
			t.Errorf("%s of %s: %+v, and %q at %q is due", it.value, it.schema, fault, it.said, it.pointer)
		}
	}
}

// pick returns one of several texts.
func pick(random *rand.Rand, texts ...string) string {
	return texts[random.Intn(len(texts))]
}

// someType returns a schema, and someValue a value; their parts sometimes match.
func someType(random *rand.Rand, depth int) string {
	keys := []string{`"type":` + pick(random, `"integer"`, `"number"`, `"string"`, `["boolean","null"]`, `["object","null"]`, `"array"`)}
	if random.Intn(3) == 0 {
		keys[0] = fmt.Sprintf(`"minimum":%d`, random.Intn(9)-4)
	}
	if random.Intn(4) == 0 {
		keys = append(keys, fmt.Sprintf(`"exclusiveMaximum":%s`, pick(random, "3", "2.5", "-1", "9223372036854775807")))
	}
	if random.Intn(6) == 0 {
		keys = append(keys, `"enum":`+pick(random, `[1,2,"a"]`, `["a","b",null]`, `[true]`, `[[1]]`))
	}
	if depth > 0 {
		keys = append(keys, `"items":`+someType(random, depth-1), `"properties":{"a":`+someType(random, depth-1)+`,"b":{}}`)
	}
	return "{" + strings.Join(keys, ",") + "}"
}

func someValue(random *rand.Rand, depth int) string {
	if depth == 0 || random.Intn(2) == 0 {
		return pick(random, "1", "-1", "0", "-0", "3", "1.5", "1e2", "123456789012345678", "9223372036854775807", `"a"`, `"b"`, `"\u0061"`, `""`,
			"true", "false", "null")
	}
	if random.Intn(2) == 0 {
		return "[ " + someValue(random, depth-1) + " , " + someValue(random, depth-1) + "]"
	}
	return `{"a":` + someValue(random, depth-1) + pick(random, `}`, ` , "b" : 1}`, `,"a":`+someValue(random, depth-1)+`}`, `,"c":[[],{}]}`)
}

// What visibly has a type has it.
func TestHoldsPlain(t *testing.T) {
	random, seen := rand.New(rand.NewSource(61)), 0
	for n := 0; n < 5_000; n++ {
		schema, text := someType(random, random.Intn(3)), someValue(random, random.Intn(4))
		of, err := Read(json.RawMessage(schema))
		if err != nil {
			t.Fatal(err)
		}
		if !of.HoldsPlain([]byte(text)) {
			continue
		}
		seen++
		value, err := lines.Tree([]byte(text))
		if err != nil {
			t.Fatal(err)
		}
		if fault := of.Check(value); fault != nil {
			t.Fatalf("%s is seen to be of the type %s, and it is not: %v", text, schema, fault)
		}
	}
	if seen < 500 {
		t.Errorf("only %d are seen to be of their types", seen)
	}
}

// TestPlainUnits compares what is visible in a number's text with what reading it gives.
func TestPlainUnits(t *testing.T) {
	random, seen := rand.New(rand.NewSource(3)), 0
	for i := 0; i < 20_000; i++ {
		schema := `{"type":` + pick(random, `"number"`, `["number","null"]`, `"string"`, `"integer"`) + pick(random, "", `,"multipleOf":0.01`, `,"multipleOf":0.001`,
			`,"multipleOf":0.00000000000001`) + pick(random, "", "", `,"per":12`) + pick(random, "", `,"minimum":0`, `,"exclusiveMaximum":2.5`,
			`,"maximum":99.95,"minimum":-1`, `,"enum":[1.5,2]`) + "}"
		of, err := Read(json.RawMessage(schema))
		if err != nil {
			t.Fatal(err)
		}
		text := pick(random, "", "-") + pick(random, "0", "1", "2", "99", "100", fmt.Sprint(random.Int63()>>uint(random.Intn(63)))) +
			pick(random, "", ".0", ".5", ".49", ".950", ".001", ".00000000000001", "e2", "E-1", ".5e1")
		tree, err := lines.Tree([]byte(text))
		if err != nil {
			t.Fatal(err)
		}
		units, fault := of.Units(tree)
		came, isSeen := of.PlainUnits([]byte(text))
		if !isSeen {
			continue
		}
		seen++
		if fault != nil || string(came) != fmt.Sprint(units) {
			t.Fatalf("%s of %s: %s is seen, and %v is due, or %v", text, schema, came, units, fault)
		}
	}
	if seen < 1_500 {
		t.Errorf("only %d numbers are seen", seen)
	}
	for _, text := range []string{"null", "true", `"1"`, "", "-"} {
		if _, isSeen := Any.PlainUnits([]byte(text)); isSeen {
			t.Errorf("%q is seen as a number", text)
		}
	}
}
