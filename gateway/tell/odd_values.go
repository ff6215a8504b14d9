package tell

// values notes inputs and decisions that nothing needs or lists, and those that no service output needs.
func (w *walk) values() {
	named, reached := w.uses()
	note := func(steps []Step, name string) {
		switch {
		case !named[name]:
			w.note(oddUnneeded, steps, func() string { return "no decision needs it, and no service lists it" })
		case len(w.model.Services) > 0 && !reached[name]:
			w.note(oddUnreached, steps, func() string { return "no output of a service needs it" })
		}
	}
	for at, name := range w.model.Inputs {
		note([]Step{key("inputs"), index(at)}, name)
	}
	for at := range w.model.Decisions {
		note([]Step{key("decisions"), index(at)}, w.model.Decisions[at].Name)
	}
}

// uses returns the names that something needs or lists, and those that a service output needs, directly or through others.
func (w *walk) uses() (named, reached set) {
	named, reached = set{}, set{}
	var waiting []string
	reach := func(names []string) {
		for _, name := range names {
			if !reached[name] {
				reached[name] = true
				waiting = append(waiting, name)
			}
		}
	}
	for _, service := range w.model.Services {
		for _, names := range [][]string{service.Outputs, service.Encapsulated, service.InputDecisions, service.InputData} {
			for _, name := range names {
				named[name] = true
			}
		}
		reach(service.Outputs)
	}
	needs := map[string][]string{}
	for _, decision := range w.model.Decisions {
		needs[decision.Name] = decision.Needs
		for _, name := range decision.Needs {
			named[name] = true
		}
	}
	for len(waiting) > 0 {
		last := waiting[len(waiting)-1]
		waiting = waiting[:len(waiting)-1]
		reach(needs[last])
	}
	return named, reached
}
