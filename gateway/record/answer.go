package record

import (
	"context"
	"crypto/sha256"
	"encoding/json"
	"errors"
	"fmt"
	"os/exec"
	"strings"
	"sync/atomic"
	"time"
	"unicode/utf8"

	"gateway/engine"
	"gateway/service"
)

const (
	// mostText limits the kept bytes of an answer, mostWhere those of the rules by which answers differ.
	mostText  = 4 << 10
	mostWhere = 1000
	// mostRules limits the named rules of a table.
	mostRules = 20
	// mostGivenUp is for how many cases an engine is given up before the trial is.
	mostGivenUp = 100
	// DefaultPatience is how long an engine may take for one case, including reading the model.
	DefaultPatience = 22 * time.Second
)

// An answer is the outcome of a case under one model, as a trial keeps it: equal texts mean equal answers.
type answer struct {
	text string
	// rules are those that decided; if there are many, tables has them in words, by table.
	rules  json.RawMessage
	tables map[string]string
}

func answerOf(it *Decision) answer {
	if len(it.Rules) > mostText {
		return answer{text: whole(it.String()), tables: tables(it.Rules)}
	}
	return answer{text: whole(it.String()), rules: it.Rules}
}

// byTable returns the deciding rules in words, by table.
func (a *answer) byTable() map[string]string {
	if a.tables != nil {
		return a.tables
	}
	return tables(a.rules)
}

// whole returns a text, or if it is too long its beginning with what distinguishes it.
func whole(text string) string {
	if len(text) <= mostText {
		return text
	}
	return fmt.Sprintf("%s .. (%d bytes, SHA-256 %x)", beginning(text, mostText), len(text), sha256.Sum256([]byte(text)))
}

// shortened returns a text, or its beginning if it is too long.
func shortened(text string, most int) string {
	if len(text) <= most {
		return text
	}
	return beginning(text, most) + " .."
}

// beginning returns the first bytes of a text, up to a whole character.
func beginning(text string, most int) string {
	for most > 0 && !utf8.RuneStart(text[most]) {
		most--
	}
	return text[:most]
}

// tables returns the deciding rules, by table.
func tables(text json.RawMessage) map[string]string {
	var rules []Rule
	if len(text) > 0 && json.Unmarshal(text, &rules) != nil {
		return nil
	}
	counts, named := map[string]int{}, map[string][]string{}
	for _, rule := range rules {
		key := rule.Decision + rule.At
		if counts[key]++; counts[key] > mostRules {
			continue
		}
		text := fmt.Sprint(rule.Rule)
		if rule.Default {
			text = "its default"
		} else if counts[key] == 1 {
			text = "rule " + text
		}
		named[key] = append(named[key], text)
	}
	all := make(map[string]string, len(named))
	for key, texts := range named {
		all[key] = strings.Join(texts, ", ")
		if left := counts[key] - mostRules; left > 0 {
			all[key] += fmt.Sprintf(" and %d more", left)
		}
	}
	return all
}

// errGivenUp ends a trial whose requests take too much.
var errGivenUp = fmt.Errorf("an engine was given up %d times, since a request took too long or too much memory", mostGivenUp)

// explain asks a model how its answers come about, and calls take with each. At the first request that takes too long, or for
// which the engine dies, it returns that outcome; later requests were not asked.
func (t *Trial) explain(ctx context.Context, model *engine.Model, jobs []*engine.Job, take func(*engine.Explanation) error) (*engine.Explanation, error) {
	asking, stop := context.WithCancel(ctx)
	defer stop()
	patience := t.Patience
	if patience == 0 {
		patience = DefaultPatience
	}
	var isLate atomic.Bool
	watch := time.AfterFunc(patience, func() {
		isLate.Store(true)
		stop()
	})
	defer watch.Stop()
	explainer := &engine.Explainer{Path: t.Asker.Path, Memory: t.Asker.Memory}
	err := explainer.Tell(asking, model, jobs, func(int) bool { return true }, func(it *engine.Explanation) error {
		watch.Reset(patience)
		return take(it)
	})
	var died *exec.ExitError
	became := engine.Died
	switch {
	case err == nil || ctx.Err() != nil:
		return nil, err
	case isLate.Load():
		became = engine.Late
	case !errors.As(err, &died):
		return nil, err
	}
	if t.givenUp.Add(1) > mostGivenUp {
		return nil, errGivenUp
	}
	return &engine.Explanation{Outcome: engine.Outcome{Kind: became}}, nil
}

// decisionOf returns the decision of a model.
func decisionOf(model *service.Asked, name string, explanation *engine.Explanation) *Decision {
	it := &Decision{Refused: model.Refused(explanation.Outcome)}
	if it.Refused == nil {
		it.Result = model.Result(name, explanation.Outcome.Value)
	}
	if decided := engine.DecidedIn(explanation.Decisions); len(decided) > 0 {
		it.Rules = model.Rules(decided)
	}
	return it
}
