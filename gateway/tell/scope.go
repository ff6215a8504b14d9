package tell

// A binding is a name that a text may use.
type binding struct {
	name   string
	isUsed bool
	// hides is the number of the binding of this name that it hides, or -1.
	hides int
}

// A scope holds the bound names, one after another.
type scope struct {
	bindings []binding
	// numbers has the visible binding of each name.
	numbers map[string]int
}

func newScope() *scope { return &scope{numbers: map[string]int{}} }

func (s *scope) bind(name string) {
	hides, isBound := s.numbers[name]
	if !isBound {
		hides = -1
	}
	s.numbers[name] = len(s.bindings)
	s.bindings = append(s.bindings, binding{name: name, hides: hides})
}

// unbind takes back the last bindings.
func (s *scope) unbind(count int) {
	for ; count > 0; count-- {
		last := s.bindings[len(s.bindings)-1]
		s.bindings = s.bindings[:len(s.bindings)-1]
		if last.hides >= 0 {
			s.numbers[last.name] = last.hides
		} else {
			delete(s.numbers, last.name)
		}
	}
}

// use notes that a name is used, and reports whether it is bound.
func (s *scope) use(name string) bool {
	number, isBound := s.numbers[name]
	if isBound {
		s.bindings[number].isUsed = true
	}
	return isBound
}

func (s *scope) isUsed(number int) bool { return s.bindings[number].isUsed }

// near returns the first name in scope that is near.
func (s *scope) near(name string) string {
	for _, binding := range s.bindings {
		if isNear(binding.name, name) {
			return binding.name
		}
	}
	return ""
}
