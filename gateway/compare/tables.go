package compare

import (
	"fmt"
	"sort"
	"strings"

	"gateway/model"
)

// A column is one that two tables have, by its place in each.
type column struct {
	name     string
	old, new int
	isOutput bool
}

// tables compares the tables of a decision.
func (c *comparison) tables(old, new *model.Table) {
	if old.Hit != new.Hit {
		c.add(Changed, "hit policy", "", old.Hit, new.Hit)
	}
	columns := c.columns(c.old.inputs(old), c.new.inputs(new), "input column", false)
	columns = append(columns, c.columns(outputs(old), outputs(new), "output column", true)...)
	for _, it := range columns {
		if it.isOutput {
			c.output(it.name, old.Outputs[it.old], new.Outputs[it.new])
		} else if one, two := old.Inputs[it.old], new.Inputs[it.new]; one != two {
			c.add(Changed, "input column", it.name, one, two)
		}
	}
	c.rules(old, new, columns)
}

// inputs are the names of the input columns: those of the file, or their expressions.
func (s *side) inputs(t *model.Table) []string {
	names, at := make([]string, len(t.Inputs)), s.written.Origins[t].Pointer
	for i, text := range t.Inputs {
		if names[i] = s.places[fmt.Sprintf("%s/inputs/%d", at, i)].Name; names[i] == "" {
			names[i] = text
		}
	}
	return names
}

func outputs(t *model.Table) []string {
	names := make([]string, len(t.Outputs))
	for i, output := range t.Outputs {
		names[i] = output.Name
	}
	return names
}

// columns pairs columns by their names; of several with one name the first with the first, and so on.
func (c *comparison) columns(old, new []string, what string, isOutput bool) (columns []column) {
	waiting := map[string][]int{}
	for at, name := range new {
		waiting[name] = append(waiting[name], at)
	}
	for at, name := range old {
		if others := waiting[name]; len(others) > 0 {
			columns, waiting[name] = append(columns, column{name, at, others[0], isOutput}), others[1:]
		} else {
			c.add(Gone, what, name, "", "")
		}
	}
	for at, name := range new {
		for _, left := range waiting[name] {
			if left == at {
				c.add(New, what, name, "", "")
			}
		}
	}
	return columns
}

func (c *comparison) output(name string, old, new model.Output) {
	one, two := strings.Join(old.Values, ", "), strings.Join(new.Values, ", ")
	if one != two {
		c.add(Changed, "order of values", name, one, two)
	}
	before, after := "", ""
	if old.Default != nil {
		before = *old.Default
	}
	if new.Default != nil {
		after = *new.Default
	}
	if before != after {
		c.add(Changed, "default", name, before, after)
	}
}

// cells are the texts of a rule in the columns that both tables have.
func cells(rule model.Rule, columns []column, isNew bool) []string {
	texts := make([]string, len(columns))
	for i, it := range columns {
		at, from := it.old, rule.When
		if isNew {
			at = it.new
		}
		if it.isOutput {
			from = rule.Then
		}
		texts[i] = from[at]
	}
	return texts
}

// rules pairs rules, first those that are the same, and what is between them in its order.
func (c *comparison) rules(old, new *model.Table, columns []column) {
	before, after := make([][]string, len(old.Rules)), make([][]string, len(new.Rules))
	for i, rule := range old.Rules {
		before[i] = cells(rule, columns, false)
	}
	for i, rule := range new.Rules {
		after[i] = cells(rule, columns, true)
	}
	i, j := 0, 0
	for _, pair := range append(samePairs(before, after), [2]int{len(before), len(after)}) {
		c.between(before, after, columns, [2]int{i, j}, pair)
		i, j = pair[0]+1, pair[1]+1
	}
}

// between compares the rules that are between two pairs of the same.
func (c *comparison) between(before, after [][]string, columns []column, start, end [2]int) {
	i, j := start[0], start[1]
	for ; i < end[0] && j < end[1]; i, j = i+1, j+1 {
		// What has no cell in common is another rule.
		if alike(before[i], after[j]) == 0 {
			c.rule(Gone, i, -1, before[i])
			c.rule(New, -1, j, after[j])
			continue
		}
		for k, it := range columns {
			if before[i][k] != after[j][k] {
				c.add(Changed, "cell", fmt.Sprintf("%s, %s", numbers(i, j), it.name), before[i][k], after[j][k])
				c.changes[len(c.changes)-1].Rules = [2]int{i + 1, j + 1}
			}
		}
	}
	for ; i < end[0]; i++ {
		c.rule(Gone, i, -1, before[i])
	}
	for ; j < end[1]; j++ {
		c.rule(New, -1, j, after[j])
	}
}

func numbers(i, j int) string {
	if i == j {
		return fmt.Sprintf("rule %d", i+1)
	}
	return fmt.Sprintf("rule %d (was %d)", j+1, i+1)
}

// rule adds a rule that one table has.
func (c *comparison) rule(kind Kind, i, j int, cells []string) {
	text, number := strings.Join(cells, " | "), i+j+2
	if kind == New {
		c.add(kind, "rule", fmt.Sprint(number), "", text)
	} else {
		c.add(kind, "rule", fmt.Sprint(number), text, "")
	}
	c.changes[len(c.changes)-1].Rules = [2]int{i + 1, j + 1}
}

// alike counts the cells that are the same.
func alike(one, other []string) (count int) {
	for at := range one {
		if one[at] == other[at] {
			count++
		}
	}
	return count
}

// samePairs are pairs of equal rules, in both orders, as many as there are in the longest such list: of rules that are written
// several times the first with the first.
func samePairs(before, after [][]string) (pairs [][2]int) {
	waiting := map[string][]int{}
	for j, it := range after {
		key := strings.Join(it, "\x00")
		waiting[key] = append(waiting[key], j)
	}
	var all [][2]int
	for i, it := range before {
		key := strings.Join(it, "\x00")
		if others := waiting[key]; len(others) > 0 {
			all, waiting[key] = append(all, [2]int{i, others[0]}), others[1:]
		}
	}
	return longest(all)
}

// longest is the longest part of a list whose second numbers go up; the first ones do.
func longest(all [][2]int) [][2]int {
	// ends has, for each length, the place of the pair with which the best list of this length ends.
	var ends []int
	before := make([]int, len(all))
	for at, pair := range all {
		length := sort.Search(len(ends), func(n int) bool { return all[ends[n]][1] >= pair[1] })
		before[at] = -1
		if length > 0 {
			before[at] = ends[length-1]
		}
		if length == len(ends) {
			ends = append(ends, at)
		} else {
			ends[length] = at
		}
	}
	found := make([][2]int, len(ends))
	if len(ends) == 0 {
		return found
	}
	for n, at := len(ends)-1, ends[len(ends)-1]; at >= 0; n, at = n-1, before[at] {
		found[n] = all[at]
	}
	return found
}
