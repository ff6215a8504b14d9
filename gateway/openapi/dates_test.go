package openapi

import (
	"encoding/json"
	"testing"
)

// TestDates has the schemas of dates, times and durations, with an example of each.
func TestDates(t *testing.T) {
	for _, c := range []struct{ schema, due, example string }{
		{`{"type":["string","null"],"format":"date","clock":"UTC"}`, `{"format":"date","nullable":true,"type":"string"}`, "2026-01-31"},
		{`{"type":["string","null"],"format":"date","formatMinimum":"2020-01-01","formatExclusiveMaximum":"2021-01-01"}`,
			`{"description":"At least 2020-01-01, before 2021-01-01","format":"date","nullable":true,"type":"string"}`, "2026-01-31"},
		{`{"type":["string","null"],"format":"date","enum":["2020-01-01",null]}`, `{"enum":["2020-01-01",null],"format":"date","nullable":true,"type":"string"}`, "2020-01-01"},
		{`{"type":["string","null"],"format":"duration","unit":"month"}`, `{"description":"A years and months duration","format":"duration","nullable":true,"type":"string"}`, "P1Y6M"},
		{`{"type":["string","null"],"format":"duration","unit":"second","decimals":3}`,
			`{"description":"A days and time duration, with up to 3 decimals of a second","format":"duration","nullable":true,"type":"string"}`, "P1DT12H"},
		{`{"type":["string","null"],"format":"date-time","offset":true}`, `{"format":"date-time","nullable":true,"type":"string"}`, "2026-01-31T12:30:00+02:00"},
		{`{"type":["string","null"],"format":"date-time","offset":false}`,
			`{"description":"A date and time without an offset, as 2026-01-31T12:30:00","nullable":true,"type":"string"}`, "2026-01-31T12:30:00"},
		{`{"type":["string","null"],"format":"time","offset":false,"decimals":1}`,
			`{"description":"A time without an offset, as 12:30:00, with up to 1 decimals of a second","nullable":true,"type":"string"}`, "12:30:00"},
		{`{"type":["string","null"],"format":"time","offset":true}`, `{"format":"time","nullable":true,"type":"string"}`, "12:30:00+02:00"},
	} {
		made := Schema(json.RawMessage(c.schema))
		text, err := json.Marshal(made)
		if err != nil || string(text) != c.due {
			t.Errorf("%s: %s is due, and %s came, %v", c.schema, c.due, text, err)
		}
		if came := Example(made); came != c.example {
			t.Errorf("%s: %s is due, and %v came", c.schema, c.example, came)
		}
	}
}
