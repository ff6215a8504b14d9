package service

import (
	"strings"
	"testing"
)

// guests is the output of desk import for a file with the names "Guest Count", "Any Thing", "Guest List" and "First
// Name".
const guests = `{"model":{"inputs":["Guest_Count","Any_Thing","Guest_List"],"decisions":[` +
	`{"name":"Same_Thing","needs":["Any_Thing"],"expr":"Any_Thing"},` +
	`{"name":"Same_List","needs":["Guest_List"],"expr":"Guest_List"},` +
	`{"name":"Same_Count","needs":["Guest_Count"],"expr":"Guest_Count"}],"services":[` +
	`{"name":"thing","outputs":["Same_Thing"],"encapsulated":[],"inputDecisions":[],"inputData":["Any_Thing"]},` +
	`{"name":"list","outputs":["Same_List"],"encapsulated":[],"inputDecisions":[],"inputData":["Guest_List"]},` +
	`{"name":"both","outputs":["Same_Thing","Same_List"],"encapsulated":[],"inputDecisions":[],"inputData":["Any_Thing","Guest_List"]},` +
	`{"name":"count","outputs":["Same_Count"],"encapsulated":[],"inputDecisions":[],"inputData":["Guest_Count"]}]},` +
	`"names":{"Guest_Count":"Guest Count","Any_Thing":"Any Thing","Guest_List":"Guest List","First_Name":"First Name",` +
	`"Same_Thing":"Same Thing","Same_List":"Same List","Same_Count":"Same Count"},"types":{"Guest_Count":{},"Any_Thing":{},"Same_Thing":{},` +
	`"Guest_List":{"type":["array","null"],"items":{"type":["object","null"],"properties":{"First_Name":{"type":["string","null"]},"Any_Thing":{}}}},` +
	`"Same_List":{"type":["array","null"],"items":{"type":["object","null"],"properties":{"First_Name":{"type":["string","null"]},"Any_Thing":{}}}}}}`

// Keys that a type names are written as in the file, and with the model's words. All others are the caller's.
func TestKeysOfCallersStay(t *testing.T) {
	r := serve(t, guests, Options{})
	defer r.stop(t)
	for _, row := range []struct {
		path, body string
		status     int
		due        string
	}{
		{"count", `{"Guest Count":{"Guest Count":1,"Guest_Count":2}}`, 200, `{"result":{"Guest Count":1,"Guest_Count":2}}`},
		{"count", `{"Guest_Count":{"Guest Count":1}}`, 200, `{"result":{"Guest Count":1}}`},
		{"count", `{"Guest_Count":{"Guest_Count":1}}`, 200, `{"result":{"Guest_Count":1}}`},
		{"count", `{"Guest Count":1,"Guest_Count":1}`, 400, `"type":"/problems/twice"`},
		{"count", `{"Guest Count":1,"Guest_Count":1}`, 400, `"detail":"\"Guest Count\" and \"Guest_Count\" are the same"`},
		{"count", `{"Guest\u0020Count":1,"Guest_Count":1}`, 400, `"pointer":"/Guest_Count"`},
		{"count", `{"Guest Count":1,"Guest Count":2}`, 200, `{"result":2}`},
		{"thing", `{"Any Thing":[{"First Name":1,"Any Thing":[{"First_Name":2}]}]}`, 200, `{"result":[{"Any Thing":[{"First_Name":2}],"First Name":1}]}`},
		{"list", `{"Guest List":[{"First Name":"Ann"},{"First_Name":"Bob"}]}`, 200, `{"result":[{"First Name":"Ann"},{"First Name":"Bob"}]}`},
		{"list", `{"Guest List":[{"First Name":"Ann"},{"First Name":"Ann","First_Name":"Bob"}]}`, 400, `"pointer":"/Guest List/1/First_Name"`},
		{"list", `{"Guest List":[{"Any Thing":{"First Name":1,"First_Name":2,"Guest List":3}}]}`, 200,
			`{"result":[{"Any Thing":{"First Name":1,"First_Name":2,"Guest List":3}}]}`},
		{"list", `{"Guest List":[{"First Name":7}]}`, 422, `"pointer":"/Guest List/0/First Name"`},
		{"both", `{"Guest List":[{"First Name":"Ann"}],"Any Thing":{"Same_List":1}}`, 200,
			`{"result":{"Same List":[{"First Name":"Ann"}],"Same Thing":{"Same_List":1}}}`},
		{"list?explain=true", `{"Guest List":[{"First Name":"Ann","Any Thing":{"First_Name":1}}]}`, 200,
			`"decisions":[{"name":"Same List","value":[{"Any Thing":{"First_Name":1},"First Name":"Ann"}]}]`},
	} {
		status, body, _ := send(t, "POST", r.url+"/v1/services/"+row.path, row.body)
		if status != row.status || !strings.Contains(body, row.due) {
			t.Errorf("%s of %s: %d %s are due, and it is %d %s", row.path, row.body, row.status, row.due, status, body)
		}
	}
}

// An input whose type doesn't admit null has to be there. One whose allowed values list null, or which has no type, may
// be missing.
func TestMissingInputs(t *testing.T) {
	model := strings.Replace(guests, `"Guest_Count":{},"Any`, `"Guest_Count":{"type":"integer","minimum":1},"Any`, 1)
	model = strings.Replace(model, `"Guest_List":{"type":["array","null"]`, `"Guest_List":{"type":"array"`, 1)
	r := serve(t, model, Options{})
	defer r.stop(t)
	many := strings.Repeat(`"Guest Count":1,`, 40)
	for _, row := range []struct {
		path, body string
		status     int
		due        string
	}{
		{"count", `{"Guest Count":4}`, 200, `{"result":4}`},
		{"count", `{"Guest_Count":4}`, 200, `{"result":4}`},
		{"count", `{` + many + `"Guest Count":4}`, 200, `{"result":4}`},
		{"count", `{}`, 422, `"detail":"\"Guest Count\" is missing, and its type doesn't admit null"`},
		{"count", `{}`, 422, `"pointer":"/Guest Count"`},
		{"count", `{"Guest Count":null}`, 422, `null is not of the type: integer`},
		{"count", `{"Guest Count":0}`, 422, `"pointer":"/Guest Count"`},
		{"count", `{"Guest Coumt":4}`, 422, `did you mean \"Guest Count\"?`},
		{"both", `{"Any Thing":1}`, 422, `"pointer":"/Guest List"`},
		{"both", `{"Guest List":[]}`, 200, `{"result":{"Same List":[],"Same Thing":null}}`},
		{"thing", `{}`, 200, `{"result":null}`},
	} {
		status, body, _ := send(t, "POST", r.url+"/v1/services/"+row.path, row.body)
		if status != row.status || !strings.Contains(body, row.due) {
			t.Errorf("%s of %s: %d %s are due, and it is %d %s", row.path, row.body, row.status, row.due, status, body)
		}
	}
	_, page, _ := send(t, "GET", r.url+"/openapi.json", "")
	page = strings.Join(strings.Fields(page), "")
	for due, times := range map[string]int{`"required":["GuestCount"]`: 1, `"required":["GuestList"]`: 2, `"required":["AnyThing"`: 0} {
		if strings.Count(page, due) != times {
			t.Errorf("the page has %s %d times, and %d are due", due, strings.Count(page, due), times)
		}
	}
}
