package tell

import (
	"fmt"
	"sort"

	"gateway/feel"
	"gateway/feel/strict"
	"gateway/lines"
	"gateway/model"
)

// usedEntries returns the entries that a model takes from its inputs, by input: `age` of `p` where a text has `p.age`. It
// leaves out inputs that some context hides.
func usedEntries(m *model.Model) map[string]set {
	u := entryUses{inputs: setOf(m.Inputs), used: map[string]set{}, hidden: set{}}
	for at := range m.Decisions {
		u.look(m.Decisions[at].Expr)
	}
	for name := range u.hidden {
		delete(u.used, name)
	}
	return u.used
}

// An entryUses walks through the texts of a model and collects entries of inputs.
type entryUses struct {
	inputs map[string]bool
	used   map[string]set
	hidden set
}

func (u *entryUses) look(logic model.Expression) {
	switch logic := logic.(type) {
	case model.Literal:
		u.text(string(logic))
	case model.List:
		for _, member := range logic {
			u.look(member)
		}
	case model.Context:
		for _, entry := range logic.Entries {
			u.hidden[entry.Name] = true
			u.look(entry.Expr)
		}
		if logic.Result != nil {
			u.look(logic.Result)
		}
	case *model.Table:
		u.table(logic)
	}
}

func (u *entryUses) table(table *model.Table) {
	for _, text := range table.Inputs {
		u.text(text)
	}
	for _, output := range table.Outputs {
		if output.Default != nil {
			u.text(*output.Default)
		}
	}
	for _, rule := range table.Rules {
		for _, text := range rule.When {
			if tests, ok := strict.ReadTests(text); ok {
				u.nodes(tests.List...)
			}
		}
		for _, text := range rule.Then {
			u.text(text)
		}
	}
}

func (u *entryUses) text(text string) {
	if node, ok := strict.ReadExpression(text); ok {
		u.nodes(node)
	}
}

func (u *entryUses) nodes(nodes ...feel.Node) {
	for _, node := range nodes {
		eachName(node, u.name)
	}
}

func (u *entryUses) name(used valueName) {
	if used.entry == "" || !u.inputs[used.name] {
		return
	}
	if u.used[used.name] == nil {
		u.used[used.name] = set{}
	}
	u.used[used.name][used.entry] = true
}

// An entryNames holds the entries that texts take from an input.
type entryNames struct {
	index *nameIndex
	has   set
}

// entryNamesOf returns the entries of each input, sorted by bytes.
func entryNamesOf(used map[string]set) map[string]*entryNames {
	of := make(map[string]*entryNames, len(used))
	for input, entries := range used {
		names := make([]string, 0, len(entries))
		for entry := range entries {
			names = append(names, entry)
		}
		sort.Strings(names)
		of[input] = &entryNames{&nameIndex{names: names}, entries}
	}
	return of
}

// misspelt notes entries of an input that the model never takes but that are close to a missing one.
func (r *reading) misspelt(doc *lines.Document, name string, value lines.Node) {
	used := r.used[name]
	if used == nil || doc.Kind(value) != '{' {
		return
	}
	brought := set{}
	members := doc.Members(value)
	for _, member := range members {
		brought[member.Key] = true
	}
	for _, member := range members {
		if used.has[member.Key] {
			continue
		}
		entry, near := member.Key, used.index.near(member.Key, brought)
		if near == "" {
			continue
		}
		r.note(noteEntry, func() note {
			return note{noteEntry, entry, near, fmt.Sprintf(`"%s" is an entry of %s that no text takes: %s?`, entry, name, near)}
		})
	}
}
