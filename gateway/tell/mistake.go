package tell

import (
	"gateway/feel/strict"
	"gateway/model"
)

// Messages about a mistake.
const (
	saidName     = "no name"
	saidTwice    = "a name that stands before in its list"
	saidHit      = "the hit policy is none"
	saidColumns  = "no output column, one name twice, or a rule whose entries are not as many as the columns"
	saidRule     = "not as many entries as the table has columns"
	saidOperator = "C+, C<, C> and C# stand over one output column"
	saidUnknown  = "neither an input nor a decision"
	saidCycle    = "needs itself, directly or through others"
	saidLarge    = "more than 1,000 decisions"
	saidNoOutput = "no output"
	saidStranger = "a name that is no decision, or in inputData no input"
	saidShared   = "an input decision that is also an output or encapsulated"
	saidUnlisted = "it reaches a decision or an input that it doesn't list"
)

var saidOfText = map[strict.Kind]string{
	strict.Expression: "no expression", strict.UnaryTests: "no unary tests", strict.Literal: "no literal",
}

// kindOf returns the expected kind of the text at a place.
func kindOf(place Place) strict.Kind {
	switch place.lastKey() {
	case "when":
		return strict.UnaryTests
	case "values":
		return strict.Literal
	}
	return strict.Expression
}

// mistake says what is wrong at a place with this fault.
func (f *file) mistake(fault string, place Place) string {
	switch fault {
	case "name":
		return saidName
	case "twice":
		return saidTwice
	case "expression":
		return saidOfText[kindOf(place)]
	case "table":
		return f.tableMistake(place)
	case "unknown":
		return saidUnknown
	case "cycle":
		return saidCycle
	case "service":
		return f.serviceMistake(place)
	case "large":
		return saidLarge
	}
	return fault
}

// tableMistake says why a table is refused, or that one of its rules doesn't fit.
func (f *file) tableMistake(place Place) string {
	if place.endsWithIndex() {
		return saidRule
	}
	table := f.table(place)
	switch {
	case table == nil:
		return saidHit
	case !isPolicy(table.Hit):
		return saidHit
	case len(table.Outputs) > 1 && len(table.Hit) == 2 && columnsFit(table):
		return saidOperator
	}
	return saidColumns
}

func isPolicy(hit string) bool {
	switch hit {
	case "U", "A", "P", "F", "R", "O", "C", "C+", "C<", "C>", "C#":
		return true
	}
	return false
}

// columnsFit reports whether a table's output columns have different names, and each rule an entry for each column.
func columnsFit(table *model.Table) bool {
	names := map[string]bool{}
	for _, output := range table.Outputs {
		names[output.Name] = true
	}
	if len(table.Outputs) == 0 || len(names) < len(table.Outputs) {
		return false
	}
	for _, rule := range table.Rules {
		if len(rule.When) != len(table.Inputs) || len(rule.Then) != len(table.Outputs) {
			return false
		}
	}
	return true
}

// isReportedByParts reports whether what is wrong with a table is reported at its parts too: at its rules, or at a name.
func (f *file) isReportedByParts(said string, place Place) bool {
	if said != saidColumns {
		return false
	}
	table := f.table(place)
	return table != nil && len(table.Outputs) > 0
}

// table returns the table at a place.
func (f *file) table(place Place) *model.Table {
	if f.model == nil || len(place) < 2 || place[0].Key != "decisions" || place[1].Index >= len(f.model.Decisions) {
		return nil
	}
	logic := f.model.Decisions[place[1].Index].Expr
	for at := 2; at < len(place); at++ {
		switch step := place[at]; step.Key {
		case "table":
			table, _ := logic.(*model.Table)
			return table
		case "result":
			context, ok := logic.(model.Context)
			if !ok {
				return nil
			}
			logic = context.Result
		case "":
			if logic = element(logic, step.Index); logic == nil {
				return nil
			}
		}
	}
	return nil
}

// element returns a member of a list, or an entry of a context.
func element(logic model.Expression, index int) model.Expression {
	switch logic := logic.(type) {
	case model.List:
		if index < len(logic) {
			return logic[index]
		}
	case model.Context:
		if index < len(logic.Entries) {
			return logic.Entries[index].Expr
		}
	}
	return nil
}

// service returns the service at a place.
func (f *file) service(place Place) *model.Service {
	if f.model == nil || place.owner() >= len(f.model.Services) {
		return nil
	}
	return &f.model.Services[place.owner()]
}

// serviceMistake says why a service doesn't fit the decisions.
func (f *file) serviceMistake(place Place) string {
	service := f.service(place)
	switch {
	case service == nil || len(service.Outputs) == 0:
		return saidNoOutput
	case len(strangers(f.model, service)) > 0:
		return saidStranger
	case len(shared(service)) > 0:
		return saidShared
	}
	return saidUnlisted
}
