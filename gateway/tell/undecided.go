package tell

import "fmt"

// notDecided reports why an answer about a table is not known.
func (t *tableReport) notDecided() {
	why := t.facts.Undecided
	if len(why.Outputs) == 2 {
		t.undecided("rules %d and %d both apply, and names decide what they give", why.Outputs[0], why.Outputs[1])
	}
	if len(why.Rules) > 0 {
		t.undecided("%s %s tests that names or lists decide, or that break a limit", ruleNumbers(why.Rules), oneOrMore(why.Rules, "has", "have"))
	}
	if len(why.Ranks) > 0 {
		give := oneOrMore(why.Ranks, "gives", "give")
		t.undecided("names decide what %s %s, and so which rules go before others", ruleNumbers(why.Ranks), give)
	}
	if len(why.Idle) > 0 {
		t.undecided("no values were found for which %s %s", ruleNumbers(why.Idle), oneOrMore(why.Idle, "decides", "decide"))
	}
	if why.Steps {
		t.undecided("2,000,000 steps were not enough")
	}
}

// oneOrMore returns a verb for one rule or for several.
func oneOrMore(rules []int, one, more string) string {
	if len(rules) == 1 {
		return one
	}
	return more
}

// undecided says why something is not known.
func (t *tableReport) undecided(format string, values ...any) {
	said := fmt.Sprintf("not decided: "+format, values...)
	t.say("  %s\n", said)
	level := Note
	if t.isRefused {
		level = Error
	}
	t.tableNotice("undecided", level, t.place, said)
}
