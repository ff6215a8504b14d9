package answer

import (
	"testing"

	"gateway/rabbit/ledger"
	"gateway/rabbit/line"
)

func TestNumbersAreReplaced(t *testing.T) {
	for _, c := range []struct {
		text, with string
		client     int
		ticket     bool
		number     int64
	}{
		{`{"client":"n05","result":5,"ticket":0}`, `{"client":"n05","result":5,"ticket":77}`, 5, true, 0},
		{`{"client":"n63","fault":"limit","ticket":12}`, `{"client":"n63","fault":"limit","ticket":77}`, 63, true, 12},
		{`{"client":"n00","line":4,"refused":"service"}`, `{"client":"n00","line":77,"refused":"service"}`, 0, false, 4},
		{`{"line":1,"model":true}`, `{"line":77,"model":true}`, line.NoClient, false, 1},
		{`{"fault":"expression","line":9,"refused":"model"}`, `{"fault":"expression","line":77,"refused":"model"}`,
			line.NoClient, false, 9},
		{`{"client":"n05","result":{"line":1,"x":"\"ticket\":9}"},"ticket":3}`,
			`{"client":"n05","result":{"line":1,"x":"\"ticket\":9}"},"ticket":77}`, 5, true, 3},
	} {
		a, err := Read([]byte(c.text))
		if err != nil || a.Client != c.client || a.Ticket != c.ticket || a.Number != c.number {
			t.Errorf("%s is read as %+v, %v", c.text, a, err)
			continue
		}
		if got := string(a.With(77)); got != c.with {
			t.Errorf("%s becomes %s", c.text, got)
		}
		if inForce := c.number == 1 && c.client == line.NoClient; a.InForce != inForce {
			t.Errorf("%s: in force: %v", c.text, a.InForce)
		}
	}
	for _, text := range []string{"", "memory", `{"client":"n64","line":1}`, `{"line":}`} {
		if a, err := Read([]byte(text)); err == nil {
			t.Errorf("%q is read as %+v", text, a)
		}
	}
}

func TestRecords(t *testing.T) {
	place := ledger.Place{Offset: 12, Index: 3}
	ticket := int64(8)
	for _, c := range []struct {
		text    []byte
		outcome ledger.Outcome
	}{
		{[]byte(`{"client":"n05","result":{"ticket":1},"ticket":7}`), ledger.Outcome{HasTicket: true, Ticket: 7}},
		{[]byte(`{"client":"n05","line":9,"refused":"value"}`), ledger.Outcome{}},
		{Refusal(5, 9, Died, nil), ledger.Outcome{}},
		{Refusal(5, 9, TooLong, &ticket), ledger.Outcome{HasTicket: true, Ticket: 8}},
	} {
		body := Append(nil, place, []byte(`"k"`), []byte(`{"ticket":5}`), c.text)
		want := `{"offset":12,"place":3,"key":"k","id":{"ticket":5},"answer":` + string(c.text) + "}\n"
		if string(body) != want {
			t.Errorf("%s is written, and not %s", body, want)
		}
		r, err := ReadRecord(body[:len(body)-1])
		if err != nil || r.Place != place || r.Outcome != c.outcome || r.Client != 5 {
			t.Errorf("%s is read as %+v, %v", body, r, err)
		}
	}
	model := Append(nil, place, nil, nil, []byte(`{"line":1,"model":true}`))
	if r, err := ReadRecord(model[:len(model)-1]); err != nil || !r.Outcome.InForce || r.Client != line.NoClient {
		t.Errorf("%s is read as %+v, %v", model, r, err)
	}
	gap := ledger.Gap{From: 3, To: 12}
	lost := AppendLost(nil, gap)
	if r, err := ReadRecord(lost[:len(lost)-1]); err != nil || !r.Lost || r.Place != gap.Place() || string(lost) != `{"lost":{"from":3,"to":12}}`+"\n" {
		t.Errorf("%s is read as %+v, %v", lost, r, err)
	}
	if _, err := ReadRecord([]byte(`{"lost":{"from":3,"to":12},"x":1}`)); err == nil {
		t.Error("more than a gap is read")
	}
	if _, err := ReadRecord([]byte(`{"place":1}`)); err == nil {
		t.Error("what has no offset is read")
	}
}

func TestRefusals(t *testing.T) {
	if got := string(Refusal(5, 9, Deadline, nil)); got != `{"client":"n05","line":9,"refused":"deadline"}` {
		t.Error(got)
	}
	if got := string(Refusal(line.NoClient, 9, Died, nil)); got != `{"line":9,"refused":"died"}` {
		t.Error(got)
	}
}
