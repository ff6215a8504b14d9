package record

import (
	"context"
	"strings"
	"testing"

	"gateway/engine"
	"gateway/service"
)

// sourceOf returns the tests' model with another price.
func sourceOf(t *testing.T, price int) *service.Source {
	t.Helper()
	it, err := service.ReadSource([]byte(`{"model":` + modelOf(price) + `,` + names + `}`))
	if err != nil {
		t.Fatal(err)
	}
	return it
}

// A trial can be limited to the requests of a time, a caller or a rule, and adds up several journals.
func TestTrialOfATime(t *testing.T) {
	path, err := engine.Path()
	if err != nil {
		t.Fatal(err)
	}
	folder := recorded(t)
	trial := &Trial{Asker: &Asker{Path: path}, Old: sourceOf(t, 2), New: sourceOf(t, 3)}
	all, due := &Tried{By: map[string]int{}}, 0
	for _, it := range []struct {
		filter                 Filter
		asked, differing, left int
		found                  string
	}{
		{Filter{To: "2026"}, 1, 1, 0, "old#0"},
		{Filter{From: "2026"}, 2, 1, 2, "o1"},
		{Filter{From: "2026-11-29T07", To: "2026-11-29T08"}, 1, 1, 0, "o1"},
		{Filter{From: "2026-11-29T08"}, 1, 0, 2, ""},
		{Filter{From: "2027"}, 0, 0, 0, ""},
		{Filter{Client: "ann"}, 1, 1, 0, "o1"},
		{Filter{Rule: "d e:1"}, 1, 0, 0, ""},
		{Filter{}, 3, 2, 2, "old#0 o1"},
	} {
		var found []string
		tried, err := trial.Run(context.Background(), folder, it.filter, func(d *Difference) error {
			found = append(found, d.Case.ID)
			return nil
		})
		if err != nil {
			t.Fatal(err)
		}
		if tried.Asked != it.asked || tried.Differing != it.differing || tried.Left != it.left || strings.Join(found, " ") != it.found {
			t.Errorf("%+v: %+v and %v, and %+v is due", it.filter, tried, found, it)
		}
		all.Add(tried)
		due += it.differing
	}
	if all.Asked != 10 || all.Differing != due || all.Left != 6 || all.By["d e: rule 2, as before"] != due {
		t.Errorf("in all %+v, and %d differing are due", all, due)
	}
}
