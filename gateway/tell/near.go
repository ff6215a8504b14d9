package tell

import "gateway/model"

// isNear reports whether two names differ by one changed, missing or added letter, or by two swapped ones. Names under three
// letters are near none.
func isNear(one, other string) bool {
	if len(one) > len(other) {
		one, other = other, one
	}
	if len(other)-len(one) > 1 || len(other) < 3 {
		return false
	}
	at := 0
	for at < len(one) && one[at] == other[at] {
		at++
	}
	rest, others := one[at:], other[at:]
	switch {
	case len(others) > len(rest):
		return rest == others[1:]
	case rest == "":
		return false
	case rest[1:] == others[1:]:
		return true
	}
	return len(rest) > 1 && rest[0] == others[1] && rest[1] == others[0] && rest[2:] == others[2:]
}

// nearIn returns the first of these names that is near, or "".
func nearIn(names []string, name string) string {
	for _, other := range names {
		if isNear(other, name) {
			return other
		}
	}
	return ""
}

// nearInModel returns the first input, or else the first decision, whose name is near.
func nearInModel(m *model.Model, name string) string {
	if near := nearIn(m.Inputs, name); near != "" {
		return near
	}
	for _, decision := range m.Decisions {
		if isNear(decision.Name, name) {
			return decision.Name
		}
	}
	return ""
}
