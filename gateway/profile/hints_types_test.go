package profile_test

import (
	"strings"
	"testing"
)

// typedFile returns a file with types and a decision q of a type; inputs are "name:type" as in a followedHint.
func typedFile(types, of, logic, inputs string) string {
	parts, needs := []string{types}, strings.Fields(inputs)
	for i, it := range needs {
		name, ofInput, _ := strings.Cut(it, ":")
		needs[i], parts = name, append(parts, input(name, strings.ReplaceAll(ofInput, "_", " ")))
	}
	return definitions(append(parts, decision("q", of, logic, needs...))...)
}

// item returns a type definition.
func item(name, inside string) string {
	return `<itemDefinition name="` + name + `">` + inside + "</itemDefinition>"
}

func component(name, of string) string {
	return `<itemComponent name="` + name + `"><typeRef>` + of + "</typeRef></itemComponent>"
}

// amongst returns a type with allowed values.
func amongst(of, values string) string {
	return "<typeRef>" + of + "</typeRef><allowedValues><text>" + escaper.Replace(values) + "</text></allowedValues>"
}

// TestHintsOfDeclaredTypesAreFollowed follows the hints of values outside a declared type.
func TestHintsOfDeclaredTypesAreFollowed(t *testing.T) {
	list := `<itemDefinition name="tList" isCollection="true"><typeRef>number</typeRef></itemDefinition>`
	texts := `<itemDefinition name="tTexts" isCollection="true"><typeRef>string</typeRef></itemDefinition>`
	pair := item("tPair", component("m", "number")+component("n", "number"))
	ready := item("tState", amongst("string", `"Ready", "Done"`))
	state := literal(`if x > 1 then "Ready" else "Done"`)
	states := ofX("2", `"Ready"`, "1", `"Done"`, "null", `"Done"`)
	const number = "x:number"
	holdFiledHints(t, []filedHint{
		{name: "a text for a number", refused: typedFile("", "number", literal(`"5"`), ""), hint: "a value of the declared type",
			written: typedFile("", "number", literal("5"), ""), due: [][2]string{{"{}", "5"}}},
		{name: "a component that is missing", refused: typedFile(pair, "tPair", literal("{m: x}"), number), hint: "a value of the declared type",
			written: typedFile(pair, "tPair", literal("{m: x, n: null}"), number), due: ofX("2", `{"m":2,"n":null}`)},
		{name: "a list for a number", refused: typedFile(list, "number", literal("x"), "x:tList"), hint: "if count(l) = 1 then sum(l) else null",
			written: typedFile(list, "number", literal("if count(x) = 1 then sum(x) else null"), "x:tList"),
			due:     ofX("[2]", "2", "[1,2]", "null", "[]", "null", "[null]", "null", "null", "null")},
		{name: "a list for a text", refused: typedFile(texts, "string", literal("x"), "x:tTexts"), hint: "a list as the declared type",
			written: typedFile(texts, "tTexts", literal("x"), "x:tTexts"), due: ofX(`["a"]`, `["a"]`, "[]", "[]")},
		{name: "what may be no text", refused: typedFile("", "string", literal(`if x > 1 then y else "no"`), "x:number y"), hint: "a declared type for what it is made of",
			written: typedFile("", "string", literal(`if x > 1 then y else "no"`), "x:number y:string"),
			due:     [][2]string{{`{"x":2,"y":"a"}`, `"a"`}, {`{"x":2,"y":null}`, "null"}, {`{"x":1,"y":"a"}`, `"no"`}}},
		{name: "a literal that isn't allowed", refused: typedFile(ready, "tState", literal(`if x > 1 then "Ready" else "done"`), number), hint: "one of these",
			written: typedFile(ready, "tState", state, number), due: states},
		{name: "members that may not be allowed", refused: typedFile(narrowTypes+list, "tTens", literal("x"), "x:tList"),
			hint: "a type without allowed values, or a list that is written out", written: typedFile(narrowTypes+list, "tList", literal("x"), "x:tList"),
			due: ofX("[1,11]", "[1,11]", "[]", "[]")},
		{name: "members that are written out", refused: typedFile(narrowTypes+list, "tTens", table(`hitPolicy="COLLECT"`, []column{{text: "x"}}, []column{{text: "r"}},
			[]string{"> 1", "x"}, []string{"> 2", "x * 2"}), number), hint: "a type without allowed values, or a list that is written out",
			written: typedFile(narrowTypes, "tTens", literal("[x, x * 2]"), number), due: ofX("4", "[4,8]", "6", "null")},
		{name: "a quotient by a variable", refused: typedFile(narrowTypes, "tCent", literal("1 / x"), number), hint: "the products first and the division last, as x * 0.05 / 12, or a rounding round the quotient",
			written: typedFile(narrowTypes, "tCent", literal("decimal(1 / x, 2)"), number), due: ofX("3", "0.33", "0.5", "null", "0", "null")},
		{name: "an argument of another type", refused: definitions(input("x", "number"), knowledge("k", []string{"p:number"}, literal("p + 1")),
			decision("q", "", literal(`k("1")`), "k:k")), hint: "a value of the declared type",
			written: definitions(input("x", "number"), knowledge("k", []string{"p:number"}, literal("p + 1")), decision("q", "", literal("k(1)"), "k:k")),
			due:     [][2]string{{"{}", "2"}}},
	})
}

// TestHintsOfTypesAreFollowed follows the hints of type definitions.
func TestHintsOfTypesAreFollowed(t *testing.T) {
	ready := item("tState", amongst("string", `"Ready", "Done"`))
	state := literal(`if x > 1 then "Ready" else "Done"`)
	states := ofX("2", `"Ready"`, "1", `"Done"`, "null", `"Done"`)
	double, doubled := literal("x * 2"), ofX("4", "8", "null", "null")
	const number = "x:number"
	holdFiledHints(t, []filedHint{
		{name: "two types of one name", refused: typedFile(item("t", "<typeRef>number</typeRef>")+item("t", "<typeRef>string</typeRef>"), "t", double, number),
			hint: "another name", written: typedFile(item("t", "<typeRef>number</typeRef>")+item("u", "<typeRef>string</typeRef>"), "t", double, number), due: doubled},
		{name: "a type of itself", refused: typedFile(item("t", component("m", "number")+component("next", "t")), "", literal("x.next.m"), "x:t"), hint: "a type that ends",
			written: typedFile(item("t", component("m", "number")+component("next", "u"))+item("u", component("m", "number")), "", literal("x.next.m"), "x:t"),
			due:     ofX(`{"m":1,"next":{"m":2}}`, "2", `{"m":1,"next":null}`, "null")},
		{name: "a type of no name", refused: typedFile("", "currency", double, number), hint: "number, string, boolean, or the name of an itemDefinition",
			written: typedFile(item("currency", "<typeRef>number</typeRef>"), "currency", double, number), due: doubled},
		{name: "any context", refused: typedFile("", "", literal("x.m * 2"), "x:context"), hint: "a type with its components",
			written: typedFile(item("t", component("m", "number")), "", literal("x.m * 2"), "x:t"), due: ofX(`{"m":4}`, "8", "null", "null")},
		{name: "a function as an input", refused: typedFile("", "", literal("x(2)"), "x:function"), hint: "business knowledge models are invoked by their names",
			written: definitions(knowledge("k", []string{"p"}, literal("p * 2")), decision("q", "", literal("k(2)"), "k:k")), due: [][2]string{{"{}", "4"}}},
		{name: "a type of functions", refused: typedFile(item("t", `<functionItem outputTypeRef="number"/>`), "", literal("x(2)"), "x:t"),
			hint:    "business knowledge models, invoked by their names",
			written: definitions(knowledge("k", []string{"p"}, literal("p * 2")), decision("q", "", literal("k(2)"), "k:k")), due: [][2]string{{"{}", "4"}}},
		{name: "bare words", refused: typedFile(item("tState", amongst("string", "Ready, Done")), "tState", state, number), hint: "a text stands in quotes",
			written: typedFile(ready, "tState", state, number), due: states},
		{name: "a text among numbers", refused: typedFile(item("t", amongst("number", `"8", 10`)), "t", double, number), hint: "values of the declared type",
			written: typedFile(item("t", amongst("number", "8, 10")), "t", double, number), due: ofX("4", "8", "5", "10", "6", "null")},
		{name: "values in another language", refused: typedFile(item("t", strings.Replace(amongst("number", "8"), "<allowedValues>",
			`<allowedValues expressionLanguage="http://www.java.com/java">`, 1)), "t", double, number), hint: "the values in FEEL",
			written: typedFile(item("t", amongst("number", "8")), "t", double, number), due: ofX("4", "8", "5", "null")},
	})
}
