package compare

import (
	"bytes"
	"fmt"
	"math/rand"
	"strings"
	"testing"

	"gateway/service"
)

// table is a model with one table over a and b.
func table(hit string, rules ...string) string {
	return `{"inputs":["a","b"],"decisions":[{"name":"d","needs":["a","b"],"expr":{"table":{"hit":"` + hit +
		`","inputs":["a","b"],"outputs":[{"name":"o"}],"rules":[` + strings.Join(rules, ",") + `]}}}],"services":[]}`
}

func rule(a, b, o string) string { return fmt.Sprintf(`{"when":["%s","%s"],"then":["%s"]}`, a, b, o) }

func compared(t *testing.T, old, new string) (all []string) {
	t.Helper()
	var sources [2]*service.Source
	for at, text := range []string{old, new} {
		source, err := service.ReadSource([]byte(text))
		if err != nil {
			t.Fatal(err)
		}
		sources[at] = source
	}
	changes, err := Models(sources[0], sources[1])
	if err != nil {
		t.Fatal(err)
	}
	for _, it := range changes {
		all = append(all, it.String())
	}
	return all
}

func TestChanges(t *testing.T) {
	one, two, three := rule("1", "-", "10"), rule("2", "-", "20"), rule("3", "-", "30")
	named := func(word, name string) string {
		return fmt.Sprintf(`{"model":{"inputs":["%s"],"decisions":[{"name":"d","needs":["%s"],"expr":"%s + 1"}],"services":[]},"names":{"%s":"%s"}}`,
			word, word, word, word, name)
	}
	for name, row := range map[string]struct {
		old, new string
		due      []string
	}{
		"nothing":        {table("U", one, two), table("U", one, two), nil},
		"a cell":         {table("U", one, two), table("U", one, rule("2", "> 4", "20")), []string{"d: changed cell rule 2, b: - -> > 4"}},
		"a rule is new":  {table("U", one, three), table("U", one, two, three), []string{"d: new rule 2: 2 | - | 20"}},
		"a rule is gone": {table("U", one, two, three), table("U", two, three), []string{"d: gone rule 1: 1 | - | 10"}},
		"a rule moves":   {table("F", one, two, three), table("F", three, one, two), []string{"d: new rule 1: 3 | - | 30", "d: gone rule 3: 3 | - | 30"}},
		"a rule that changes after a new one": {table("U", two), table("U", one, rule("2", "-", "21")),
			[]string{"d: changed cell rule 1, a: 2 -> 1", "d: changed cell rule 1, o: 20 -> 10", "d: new rule 2: 2 | - | 21"}},
		"the policy":      {table("U", one), table("F", one), []string{"d: changed hit policy: U -> F"}},
		"a name":          {named("x", "net price"), named("x", "gross price"), []string{"gone input net price", "new input gross price", "d: gone need net price", "d: new need gross price", "d: changed logic: net price + 1 -> gross price + 1"}},
		"another word":    {named("x", "net price"), named("y", "net price"), nil},
		"a decision":      {`{"inputs":[],"decisions":[{"name":"x","needs":[],"expr":"1"}],"services":[]}`, `{"inputs":[],"decisions":[],"services":[]}`, []string{"gone decision x"}},
		"a literal":       {`{"inputs":[],"decisions":[{"name":"x","needs":[],"expr":"1"}],"services":[]}`, `{"inputs":[],"decisions":[{"name":"x","needs":[],"expr":"2"}],"services":[]}`, []string{"x: changed logic: 1 -> 2"}},
		"a service's way": {`{"inputs":[],"decisions":[{"name":"x","needs":[],"expr":"1"}],"services":[{"name":"s","outputs":["x"],"encapsulated":[],"inputDecisions":[],"inputData":[]}]}`, `{"inputs":[],"decisions":[{"name":"x","needs":[],"expr":"1"}],"services":[{"name":"s","outputs":[],"encapsulated":["x"],"inputDecisions":[],"inputData":[]}]}`, []string{"s: gone output x", "s: new encapsulated decision x"}},
	} {
		if got := compared(t, row.old, row.new); strings.Join(got, "\n") != strings.Join(row.due, "\n") {
			t.Errorf("%s: %q, and %q is due", name, got, row.due)
		}
	}
}

// TestRandomRules takes rules out and puts others in: what is the same in both is no change.
func TestRandomRules(t *testing.T) {
	random := rand.New(rand.NewSource(3))
	for n := 0; n < 300; n++ {
		var old, new []string
		gone, added := 0, 0
		for i := 0; i < random.Intn(40); i++ {
			it := rule(fmt.Sprint(i), "-", fmt.Sprint(random.Intn(3)))
			switch random.Intn(4) {
			case 0:
				old, gone = append(old, it), gone+1
			case 1:
				new, added = append(new, strings.ReplaceAll(it, `"-"`, `"> 7"`)), added+1
			default:
				old, new = append(old, it), append(new, it)
			}
		}
		changes := compared(t, table("F", old...), table("F", new...))
		if (len(changes) == 0) != (gone+added == 0) || len(changes) > 3*(gone+added) {
			t.Fatalf("%d gone and %d new, and it says %q", gone, added, changes)
		}
	}
}

// TestWorstRules compares tables whose rules come in the other order, and tables in which every rule is the same.
func TestWorstRules(t *testing.T) {
	var up, down, same []string
	for i := 0; i < 4000; i++ {
		it := rule(fmt.Sprint(i), "-", "1")
		up, down, same = append(up, it), append([]string{it}, down...), append(same, rule("1", "-", "1"))
	}
	if got := compared(t, table("F", up...), table("F", down...)); len(got) != 2*(len(up)-1) {
		t.Errorf("%d changes", len(got))
	}
	if got := compared(t, table("F", same...), table("F", same[1:]...)); len(got) != 1 {
		t.Errorf("%d changes", len(got))
	}
}

func TestPageEscapes(t *testing.T) {
	r := Report{Old: "<old>", New: "new", Changes: []Change{{Kind: New, What: "rule", Name: "1", New: "<script>"}}, Requests: 1, Differ: 1,
		Differences: []Difference{{Row: "a:1", Inputs: "{}", Old: "<b>", New: "2", OldRules: "d 1"}}}
	var text bytes.Buffer
	if err := r.WriteHTML(&text); err != nil {
		t.Fatal(err)
	}
	if got := text.String(); strings.Contains(got, "<script>") || strings.Contains(got, "<b>") || !strings.Contains(got, "&lt;script&gt;") {
		t.Error(got)
	}
}
