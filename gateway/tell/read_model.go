package tell

import (
	"gateway/lines"
	"gateway/model"
)

// modelOf returns the model in a value, as model.Of reads it; nil if it doesn't have the form of one.
func modelOf(doc *lines.Document, value lines.Node) *model.Model {
	r := modelReader{doc: doc}
	m := r.model(value)
	if r.isWrong {
		return nil
	}
	return m
}

// A modelReader reads a model. Its texts are slices of the document's, except those with escapes.
type modelReader struct {
	doc *lines.Document
	// isWrong means that something doesn't have its form.
	isWrong bool
}

// The keys of objects: first the required, then the optional.
var (
	keysOfModel    = objectKeys{[]string{"inputs", "decisions", "services"}, 3}
	keysOfDecision = objectKeys{[]string{"name", "needs", "expr"}, 3}
	keysOfService  = objectKeys{[]string{"name", "outputs", "encapsulated", "inputDecisions", "inputData"}, 5}
	keysOfList     = objectKeys{[]string{"list"}, 1}
	keysOfBox      = objectKeys{[]string{"table"}, 1}
	keysOfContext  = objectKeys{[]string{"context", "result"}, 1}
	keysOfEntry    = objectKeys{[]string{"name", "expr"}, 2}
	keysOfTable    = objectKeys{[]string{"hit", "inputs", "outputs", "rules"}, 4}
	keysOfOutput   = objectKeys{[]string{"name", "values", "default"}, 1}
	keysOfRule     = objectKeys{[]string{"when", "then"}, 2}
)

// mostKeys is the largest number of keys in an object of a model.
const mostKeys = 5

// An objectKeys holds the keys of an object, the required ones first.
type objectKeys struct {
	all      []string
	required int
}

// A values holds the values under an object's keys, in order.
type values struct {
	nodes [mostKeys]lines.Node
	has   [mostKeys]bool
}

// object returns the values of an object with these keys.
func (r *modelReader) object(value lines.Node, keys objectKeys) (found values) {
	members, isObject := r.doc.Keys(value)
	r.isWrong = r.isWrong || !isObject
	for at := 0; at < len(members) && !r.isWrong; at += 2 {
		number := 0
		for number < len(keys.all) && !r.doc.IsText(members[at], keys.all[number]) {
			number++
		}
		if number == len(keys.all) {
			r.isWrong = true
			return found
		}
		found.nodes[number], found.has[number] = members[at+1], true
	}
	for number := 0; number < keys.required; number++ {
		r.isWrong = r.isWrong || !found.has[number]
	}
	return found
}

// list returns the items of a list; nil if something is wrong.
func (r *modelReader) list(value lines.Node) []lines.Node {
	r.isWrong = r.isWrong || r.doc.Kind(value) != '['
	if r.isWrong {
		return nil
	}
	return r.doc.Items(value)
}

func (r *modelReader) text(value lines.Node) string {
	text, isText := r.doc.Text(value)
	r.isWrong = r.isWrong || !isText
	return text
}

func (r *modelReader) texts(value lines.Node) []string {
	items := r.list(value)
	texts := make([]string, 0, len(items))
	for _, item := range items {
		if r.isWrong {
			break
		}
		texts = append(texts, r.text(item))
	}
	return texts
}

func (r *modelReader) model(value lines.Node) *model.Model {
	of := r.object(value, keysOfModel)
	if r.isWrong {
		return nil
	}
	m := &model.Model{Inputs: r.texts(of.nodes[0])}
	for _, item := range r.list(of.nodes[1]) {
		m.Decisions = append(m.Decisions, r.decision(item))
	}
	for _, item := range r.list(of.nodes[2]) {
		m.Services = append(m.Services, r.service(item))
	}
	return m
}

func (r *modelReader) decision(value lines.Node) (decision model.Decision) {
	of := r.object(value, keysOfDecision)
	if r.isWrong {
		return decision
	}
	return model.Decision{Name: r.text(of.nodes[0]), Needs: r.texts(of.nodes[1]), Expr: r.logic(of.nodes[2])}
}

func (r *modelReader) service(value lines.Node) (service model.Service) {
	of := r.object(value, keysOfService)
	if r.isWrong {
		return service
	}
	return model.Service{Name: r.text(of.nodes[0]), Outputs: r.texts(of.nodes[1]), Encapsulated: r.texts(of.nodes[2]),
		InputDecisions: r.texts(of.nodes[3]), InputData: r.texts(of.nodes[4])}
}

func (r *modelReader) logic(value lines.Node) model.Expression {
	if text, isText := r.doc.Text(value); isText {
		return model.Literal(text)
	}
	if _, isList := r.doc.Member(value, "list"); isList {
		return r.members(r.object(value, keysOfList).nodes[0])
	}
	if _, isTable := r.doc.Member(value, "table"); isTable {
		return r.table(r.object(value, keysOfBox).nodes[0])
	}
	of := r.object(value, keysOfContext)
	if r.isWrong {
		return nil
	}
	var context model.Context
	for _, item := range r.list(of.nodes[0]) {
		context.Entries = append(context.Entries, r.entry(item))
	}
	if of.has[1] {
		context.Result = r.logic(of.nodes[1])
	}
	return context
}

func (r *modelReader) members(value lines.Node) model.List {
	items := r.list(value)
	list := make(model.List, 0, len(items))
	for _, item := range items {
		if r.isWrong {
			break
		}
		list = append(list, r.logic(item))
	}
	return list
}

func (r *modelReader) entry(value lines.Node) (entry model.Entry) {
	of := r.object(value, keysOfEntry)
	if r.isWrong {
		return entry
	}
	return model.Entry{Name: r.text(of.nodes[0]), Expr: r.logic(of.nodes[1])}
}

func (r *modelReader) table(value lines.Node) *model.Table {
	of := r.object(value, keysOfTable)
	if r.isWrong {
		return nil
	}
	t := &model.Table{Hit: r.text(of.nodes[0]), Inputs: r.texts(of.nodes[1])}
	for _, item := range r.list(of.nodes[2]) {
		t.Outputs = append(t.Outputs, r.output(item))
	}
	for _, item := range r.list(of.nodes[3]) {
		t.Rules = append(t.Rules, r.rule(item))
	}
	return t
}

func (r *modelReader) output(value lines.Node) (output model.Output) {
	of := r.object(value, keysOfOutput)
	if r.isWrong {
		return output
	}
	output.Name = r.text(of.nodes[0])
	if of.has[1] {
		output.Values = r.texts(of.nodes[1])
	}
	if of.has[2] {
		text := r.text(of.nodes[2])
		output.Default = &text
	}
	return output
}

func (r *modelReader) rule(value lines.Node) (rule model.Rule) {
	of := r.object(value, keysOfRule)
	if r.isWrong {
		return rule
	}
	return model.Rule{When: r.texts(of.nodes[0]), Then: r.texts(of.nodes[1])}
}
