package types

import (
	"encoding/json"
	"testing"
	"time"
)

// TestMoments has texts of dates, times and durations with the engine's numbers, and back.
func TestMoments(t *testing.T) {
	for _, c := range []struct{ schema, text, number, back string }{
		{`{"type":["string","null"],"format":"date"}`, "2026-11-29", "739949", "2026-11-29"},
		{`{"format":"time","offset":false}`, "12:30:15", "45015", "12:30:15"},
		{`{"format":"time","offset":false,"decimals":2}`, "12:30:15.5", "4501550", "12:30:15.5"},
		{`{"format":"date-time","offset":false}`, "0001-01-01T00:00:01", "86401", "0001-01-01T00:00:01"},
		{`{"format":"date-time","offset":true}`, "0001-01-01T02:00:00+02:00", "86400", "0001-01-01T00:00:00Z"},
		{`{"format":"duration","unit":"second"}`, "P1DT1H", "90000", "P1DT1H"},
		{`{"format":"duration","unit":"month"}`, "P14M", "14", "P1Y2M"},
	} {
		of, err := Read(json.RawMessage(c.schema))
		if err != nil {
			t.Fatal(err)
		}
		units, fault := of.Units(c.text)
		if fault != nil || units != json.Number(c.number) || !of.IsCounted() || !of.IsMoment() {
			t.Errorf("%s of %s: %s is due, and %v came, %v", c.text, c.schema, c.number, units, fault)
		}
		if back := of.Decimals(json.Number(c.number)); back != c.back {
			t.Errorf("%s of %s: %s is due, and %v came", c.number, c.schema, c.back, back)
		}
	}
	listed, err := Read(json.RawMessage(`{"type":["array","null"],"items":{"type":["string","null"],"format":"date"}}`))
	if err != nil {
		t.Fatal(err)
	}
	if _, fault := listed.Units([]any{"2026-11-29", "2026-02-30"}); fault == nil || fault.Pointer != "/1" {
		t.Errorf("the second is no date: %v", fault)
	}
	if of, err := Read(json.RawMessage(`{"type":["string","null"],"format":"email"}`)); err != nil || of.IsCounted() {
		t.Errorf("another format is counted: %v", err)
	}
}

// TestClocks has what a clock fills inputs with.
func TestClocks(t *testing.T) {
	at := time.Date(2026, 11, 28, 23, 30, 0, 0, time.UTC)
	for schema, due := range map[string]json.Number{
		`{"type":["string","null"],"format":"date","clock":"Europe/Berlin"}`:                    "739949",
		`{"type":["string","null"],"format":"date","clock":"UTC"}`:                              "739948",
		`{"type":["string","null"],"format":"date-time","offset":true,"clock":"Europe/Berlin"}`: "63931591800",
	} {
		of, err := Read(json.RawMessage(schema))
		if err != nil || !of.HasClock() {
			t.Fatalf("%s: %v", schema, err)
		}
		if came := of.At(at); came != due {
			t.Errorf("%s: %s is due, and %s came", schema, due, came)
		}
	}
	if _, err := Read(json.RawMessage(`{"format":"date","clock":"Nowhere"}`)); err == nil {
		t.Error("a clock nowhere is taken")
	}
	if of, err := Read(json.RawMessage(`{"format":"date"}`)); err != nil || of.HasClock() {
		t.Errorf("it has a clock: %v", err)
	}
}
