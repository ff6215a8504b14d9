package service

import (
	"strings"
	"testing"
)

// priced is the output of desk import for a decision price = amount * rate / 3 with amounts in cents and rates in
// thousandths, a list of parts, and a table over amount / parts.
const priced = `{"model":{"inputs":["amount","rate","parts","any"],"decisions":[` +
	`{"name":"Full_Price","needs":["amount","rate"],"expr":"amount * rate"},` +
	`{"name":"third","needs":["Full_Price"],"expr":{"context":[{"name":"part_1","expr":"Full_Price * 1"}],"result":"part_1"}},` +
	`{"name":"sum","needs":["parts"],"expr":"sum(parts)"},{"name":"same","needs":["any"],"expr":"any"},` +
	`{"name":"class","needs":["amount","rate"],"expr":{"context":[{"name":"divisor_1","expr":"rate"}],"result":{"table":{"hit":"F",` +
	`"inputs":["amount"],"outputs":[{"name":"r"}],"rules":[{"when":["-"],"then":["5"]}]}}}}],"services":[` +
	`{"name":"p","outputs":["Full_Price"],"encapsulated":[],"inputDecisions":[],"inputData":["amount","rate"]},` +
	`{"name":"q","outputs":["third","Full_Price"],"encapsulated":[],"inputDecisions":[],"inputData":["amount","rate"]},` +
	`{"name":"s","outputs":["sum"],"encapsulated":[],"inputDecisions":[],"inputData":["parts"]},` +
	`{"name":"c","outputs":["class"],"encapsulated":[],"inputDecisions":[],"inputData":["amount","rate"]},` +
	`{"name":"a","outputs":["same"],"encapsulated":[],"inputDecisions":[],"inputData":["any"]}]},` +
	`"names":{"amount":"amount","rate":"rate","Full_Price":"Full Price","third":"third"},"types":{` +
	`"amount":{"type":["number","null"],"multipleOf":0.01,"minimum":-1000},"rate":{"type":["number","null"],"multipleOf":0.001},` +
	`"parts":{"type":["array","null"],"items":{"type":["number","null"],"multipleOf":0.1}},"any":{"multipleOf":0.01},` +
	`"Full_Price":{"type":["number","null"],"multipleOf":0.00001},"third":{"type":["number","null"],"per":300000},` +
	`"sum":{"type":["number","null"],"multipleOf":0.1},"same":{"multipleOf":0.01},"class":{"type":["number","null"],"multipleOf":0.1}},` +
	`"places":{"/decisions/4/expr/result/table/inputs/0":{"id":"","name":"","over":"divisor_1","decimals":-1}}}`

// A lenient service ignores inputs that it doesn't know.
func TestLenientInputs(t *testing.T) {
	r := serve(t, priced, Options{Lenient: true})
	defer r.stop(t)
	for body, due := range map[string]string{
		`{"rate":1, "other":[1.5], "amount": 3 }`:   `{"result":3}`,
		`{"rate":1, "amonut": 3 }`:                  `{"result":null}`,
		`{"rate":1, "amount": 3, "parts":["text"]}`: `{"result":3}`,
	} {
		if status, text, _ := send(t, "POST", r.url+"/v1/services/p", body); status != 200 || text != due {
			t.Errorf("%s: %d %s, and %s is due", body, status, text, due)
		}
	}
}

// TestDecimalsOverHTTP sends decimals, and gets them in results and explanations.
func TestDecimalsOverHTTP(t *testing.T) {
	r := serve(t, priced, Options{})
	defer r.stop(t)
	for _, row := range []struct {
		path, body string
		status     int
		due        string
	}{
		{"p", `{"amount":12.5,"rate":0.19}`, 200, `{"result":2.375}`},
		{"p", `{"amount":1.25e1,"rate":19E-2}`, 200, `{"result":2.375}`},
		{"p", `{"amount":12.500,"rate":1.0}`, 200, `{"result":12.5}`},
		{"p", `{"amount":-0.0,"rate":1}`, 200, `{"result":0}`},
		{"p", `{"amount":null,"rate":1}`, 200, `{"result":null}`},
		{"p", `{"rate":1, "amount": 3 }`, 200, `{"result":3}`},
		{"p", `{"rate":1, "other":[1.5], "amount": 3 }`, 422, `"detail":"\"other\" is no input of this service; it takes \"amount\", \"rate\""`},
		{"p", `{"rate":1, "amonut": 3 }`, 422, `"detail":"\"amonut\" is no input of this service; did you mean \"amount\"?"`},
		{"p", `{"rate":1, "amonut": 3 }`, 422, `"type":"/problems/unknown"`},
		{"p", `{"rate":1, "amonut": 3 }`, 422, `"pointer":"/amonut"`},
		{"p", `{"rate":1, "amount": 3, "parts":[1] }`, 200, `{"result":3}`},
		{"p", `{"amount":9.99999,"amount":12.5,"rate":1}`, 200, `{"result":12.5}`},
		{"p", `{"amount":12.505,"rate":1}`, 422, `"detail":"12.505 has more than 2 decimals, and it is not rounded"`},
		{"p", `{"amount":12.505,"rate":1}`, 422, `"pointer":"/amount"`},
		{"p", `{"amount":92233720368547758.08,"rate":0}`, 422, `is past the range: from -92233720368547758.07 to 92233720368547758.07`},
		{"p", `{"amount":1e30,"rate":0}`, 422, `"pointer":"/amount"`},
		{"p", `{"amount":-1000.01,"rate":0}`, 422, `it has to be at least -1000`},
		{"p", `{"amount":"12.5","rate":0}`, 422, `is not of the type`},
		{"q", `{"amount":12.5,"rate":0.19}`, 200, `{"result":{"Full Price":2.375,"third":0.7916666666666666666666666666666667}}`},
		{"s", `{"parts":[1.5,2,0.1]}`, 200, `{"result":3.6}`},
		{"s", `{"parts":[1.5,2.05]}`, 422, `"pointer":"/parts/1"`},
		{"a", `{"any":{"k":[1.5,"a",2]}}`, 200, `{"result":{"k":[1.5,"a",2]}}`},
		{"a", `{"any":{"k":[1.5,2.505]}}`, 422, `"pointer":"/any/k/1"`},
		{"p", `[{"amount":12.5,"rate":0.19},{"amount":1.005},{"amount":1,"rate":2}]`, 200, `[{"result":2.375},{"type":"/problems/value"`},
		{"q?explain=true", `{"amount":12.5,"rate":0.19}`, 200, `{"name":"third","value":0.7916666666666666666666666666666667}`},
		{"q?explain=true", `{"amount":12.5,"rate":0.19}`, 200, `{"name":"Full Price","value":2.375}`},
		{"c?explain=true", `{"amount":12.5,"rate":0.19}`, 200, `"inputs":[65.78947368421052631578947368421053]`},
		{"c?explain=true", `{"amount":12.5,"rate":0}`, 200, `"inputs":[null]`},
		{"c?explain=true", `{"amount":12.5,"rate":0.19}`, 200, `"hits":[{"rule":1,"value":0.5}]`},
	} {
		status, body, _ := send(t, "POST", r.url+"/v1/services/"+row.path, row.body)
		if status != row.status || !strings.Contains(body, row.due) {
			t.Errorf("%s of %s: %d %s are due, and it is %d %s", row.path, row.body, row.status, row.due, status, body)
		}
	}
	_, page, _ := send(t, "GET", r.url+"/openapi.json", "")
	if !strings.Contains(page, `"multipleOf": 0.01`) || strings.Contains(page, `"per"`) {
		t.Error("the page says otherwise how numbers are counted")
	}
}

// divided is the output of desk import for b: x / 3 > 1 of whole numbers, and for a table c whose value is tested and
// counted again.
const divided = `{"model":{"inputs":["x"],"decisions":[{"name":"b","needs":["x"],"expr":{"context":[{"name":"numerator_1","expr":"x"}],"result":"numerator_1 > 3"}},` +
	`{"name":"c","needs":["x"],"expr":{"context":[{"name":"rule_1","expr":{"table":{"hit":"U","inputs":["x"],"outputs":[{"name":"o"}],"rules":[{"when":["-"],` +
	`"then":["true"]}]}}},{"name":"value_1","expr":{"table":{"hit":"F","inputs":["x"],"outputs":[{"name":"o"}],"rules":[{"when":["< 3"],"then":["5"]},` +
	`{"when":["-"],"then":["7"]}]}}}],"result":"if value_1 < 7 then value_1 else null"}}],"services":[` +
	`{"name":"b","outputs":["b"],"encapsulated":[],"inputDecisions":[],"inputData":["x"]},{"name":"c","outputs":["c"],"encapsulated":[],"inputDecisions":[],` +
	`"inputData":["x"]}]},"names":{"x":"x","b":"b","c":"c","o":"o"},"types":{"x":{"type":["integer","null"]},"b":{"type":["boolean","null"]}},` +
	`"places":{"/decisions/0/expr":{"id":"","name":"","text":"x / 3 > 1"},"/decisions/1/expr/context/1/expr/table/rules/0/then/0":{"id":"","name":"","text":"0.5"}}}`

// TestWhatIsTranslatedIsNotExplained checks that explanations have what is in the file, even if no number is counted in
// a unit: entries added by the translation are left out, and the table of one that came from the file is there.
func TestWhatIsTranslatedIsNotExplained(t *testing.T) {
	r := serve(t, divided, Options{})
	defer r.stop(t)
	for path, due := range map[string]string{
		"b": `"decisions":[{"name":"b","value":true}]`,
		"c": `"decisions":[{"name":"c","table":{"decided":[2],"defaults":false,"hits":[{"rule":2}],"inputs":[4],"policy":"F"},"value":null}]`,
	} {
		if status, text, _ := send(t, "POST", r.url+"/v1/services/"+path+"?explain=true", `{"x":4}`); status != 200 || !strings.Contains(text, due) {
			t.Errorf("%s: %d %s, and %s is due", path, status, text, due)
		}
	}
}
