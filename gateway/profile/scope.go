package profile

import (
	"gateway/dmn"
	"gateway/feel"
)

// A binding is what a name in scope stands for: a value, or a function.
type binding struct {
	value phrase
	// function is the business knowledge that the name invokes; nil for a value.
	function *knowledge
	// input is true for an input of the model.
	input bool
	// service is true for a decision service, which can't be invoked.
	service bool
	// member is true for an entry of the member that a filter looks at.
	member bool
	// logic is that of a decision or an entry; nil for others.
	logic *box
	// free is the node of an undeclared input; nil for others.
	free *node
}

// A scope has the names that an expression sees, canonical, inner ones before outer ones.
type scope struct {
	parent *scope
	// few are the first names, names has the others.
	few   []boundName
	names map[string]*binding
	reads *feel.Scope
	// isRead is true if the texts that see the names were read already, so that reads doesn't have them.
	isRead bool
}

// A boundName is a name with its binding.
type boundName struct {
	name string
	*binding
}

// mostFew is how many names are searched one by one.
const mostFew = 4

func newScope(parent *scope) *scope {
	s := &scope{parent: parent}
	if parent != nil {
		s.reads = feel.NewScope(parent.reads)
	} else {
		s.reads = feel.NewScope(nil)
	}
	return s
}

// within returns a scope for the names of a form within a text that was read as a whole.
func (s *scope) within() *scope { return &scope{parent: s, reads: s.reads, isRead: true} }

// bind puts a name into scope.
func (s *scope) bind(name string, b *binding) {
	s.put(feel.Canonical(name), b)
	if !s.isRead {
		s.reads.Add(name)
	}
}

func (s *scope) put(canonical string, b *binding) {
	for i := range s.few {
		if s.few[i].name == canonical {
			s.few[i].binding = b
			return
		}
	}
	if len(s.few) < mostFew {
		s.few = append(s.few, boundName{canonical, b})
		return
	}
	if s.names == nil {
		s.names = map[string]*binding{}
	}
	s.names[canonical] = b
}

// bindWord puts a name into scope whose value is under a word.
func (s *scope) bindWord(name, word string, of *valueType) {
	s.bind(name, &binding{value: phrase{text: word, rank: rankPrimary, depth: 1, of: of}})
}

func (s *scope) find(canonical string) *binding {
	for ; s != nil; s = s.parent {
		for i := range s.few {
			if s.few[i].name == canonical {
				return s.few[i].binding
			}
		}
		if b, found := s.names[canonical]; found {
			return b
		}
	}
	return nil
}

// knowledge is a business knowledge model during translation.
type knowledge struct {
	*dmn.BusinessKnowledge
	name  string
	types *types
	// known is what it may invoke.
	known []*knowledge
	used  bool
	// names are those of what it may invoke; nil until it is invoked.
	names *scope
}
