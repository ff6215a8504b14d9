package cases

import (
	"context"
	"errors"
	"fmt"
	"os"
	"strings"
	"testing"
	"time"

	"gateway/coverage"
	"gateway/service"
)

// adding is a model that adds 1 to its input, and 2 from 100 on.
const adding = `{"inputs":["a"],"decisions":[{"name":"d","needs":["a"],"expr":{"table":{"hit":"U","inputs":["a"],"outputs":[{"name":"o"}],` +
	`"rules":[{"when":["< 100"],"then":["a + 1"]},{"when":[">= 100"],"then":["a + 2"]}]}}}],` +
	`"services":[{"name":"s","outputs":["d"],"encapsulated":[],"inputDecisions":[],"inputData":["a"]}]}`

// asking opens a text as a file of rows for the model.
func asking(t *testing.T, text string) (*Asker, *Plan, *service.Asked) {
	t.Helper()
	source, err := service.ReadSource([]byte(adding))
	if err != nil {
		t.Fatal(err)
	}
	subject, err := NewSubject(source)
	if err != nil {
		t.Fatal(err)
	}
	question, err := subject.Question("")
	if err != nil {
		t.Fatal(err)
	}
	path := os.Getenv("DESK_ENGINE")
	if path == "" {
		path = "../../dist/desk"
	}
	asked, err := service.Ask(context.Background(), path, 0, question.Source)
	if err != nil {
		t.Fatal(err)
	}
	file, err := Open("a.csv", strings.NewReader(text), Options{})
	if err != nil {
		t.Fatal(err)
	}
	plan, err := file.Plan(question, false)
	if err != nil {
		t.Fatal(err)
	}
	return &Asker{Path: path, Processes: 3, Deadline: time.Minute, Log: t.Logf}, plan, asked
}

// manyRows returns rows, some of which are refused.
func manyRows(count int) string {
	var text strings.Builder
	text.WriteString("a,=d\n")
	for n := 0; n < count; n++ {
		fmt.Fprintf(&text, "%d,%d\n", n, n+2)
		if n%100 == 7 {
			text.WriteString("1,2,3\n")
		}
	}
	return text.String()
}

// TestEach takes rows in order, however they are asked.
func TestEach(t *testing.T) {
	for _, isExplained := range []bool{false, true} {
		asker, plan, asked := asking(t, manyRows(1500))
		asker.Explain = isExplained
		next, refused := 0, 0
		err := asker.Each(context.Background(), plan, asked, func(row *Row, answer *Answer) error {
			if answer.IsRefused {
				refused++
				return nil
			}
			due := next + 1
			if next >= 100 {
				due++
			}
			if string(answer.Result) != fmt.Sprint(due) || string(row.Inputs) != fmt.Sprintf(`{"a":%d}`, next) {
				t.Errorf("row %d: %s has %s", next, row.Inputs, answer.Result)
			}
			if rule := fmt.Sprint(answer.Rules["d"]); isExplained && rule != map[bool]string{true: "[1]", false: "[2]"}[next < 100] {
				t.Errorf("row %d: rules %s", next, rule)
			}
			next++
			return nil
		})
		if err != nil || next != 1500 || refused != 15 {
			t.Errorf("%v: %d rows, %d refused", err, next, refused)
		}
	}
}

var errEnough = errors.New("enough")

// TestEachStops stops in the middle of a file: by an error, and by the end of its context.
func TestEachStops(t *testing.T) {
	asker, plan, asked := asking(t, manyRows(15_000))
	count := 0
	err := asker.Each(context.Background(), plan, asked, func(*Row, *Answer) error {
		if count++; count == 1000 {
			return errEnough
		}
		return nil
	})
	if !errors.Is(err, errEnough) || count != 1000 {
		t.Errorf("%v after %d", err, count)
	}
	asker, plan, asked = asking(t, manyRows(15_000))
	ctx, stop := context.WithCancel(context.Background())
	defer stop()
	count = 0
	err = asker.Each(ctx, plan, asked, func(*Row, *Answer) error {
		if count++; count == 1000 {
			stop()
		}
		return nil
	})
	if !errors.Is(err, context.Canceled) || count == 15_150 {
		t.Errorf("%v after %d", err, count)
	}
}

// TestCounts counts the rules, and asks for those of failed rows.
func TestCounts(t *testing.T) {
	asker, plan, asked := asking(t, manyRows(200))
	asker.Counts = coverage.New()
	asker.Wants = func(row *Row, answer *Answer) bool {
		return !plan.IsDue(&row.Dues[0], plan.Came(&row.Dues[0], row, answer))
	}
	failed := 0
	err := asker.Each(context.Background(), plan, asked, func(row *Row, answer *Answer) error {
		if !answer.IsRefused && answer.Rules != nil {
			failed++
		}
		return nil
	})
	table := asker.Counts.Tables([]string{"d"})["/decisions/0/expr/table"]
	if err != nil || failed != 100 || table == nil || fmt.Sprint(table.Hits) != "[100 100]" {
		t.Errorf("%v: %d failed, %+v", err, failed, table)
	}
}

// TestPairs asks two models the same.
func TestPairs(t *testing.T) {
	var sides [2]*Side
	for at := range sides {
		asker, plan, asked := asking(t, manyRows(1000))
		sides[at] = &Side{plan, asked, asker}
	}
	count := 0
	err := Pairs(context.Background(), sides[0], sides[1], func(old, new *Answered) error {
		if count++; old.Line != new.Line || !SameResult(&old.Answer, &new.Answer) {
			t.Errorf("%+v and %+v", old, new)
		}
		return nil
	})
	if err != nil || count != 1010 {
		t.Errorf("%v after %d", err, count)
	}
}
