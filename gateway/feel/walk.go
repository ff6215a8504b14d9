package feel

// Any reports whether a form, or one inside it, meets a condition.
func Any(n Node, is func(Node) bool) bool {
	if n == nil {
		return false
	}
	if is(n) {
		return true
	}
	for _, part := range parts(n) {
		if Any(part, is) {
			return true
		}
	}
	return false
}

// parts returns the direct parts of a form.
func parts(n Node) []Node {
	switch n := n.(type) {
	case *List:
		return n.Items
	case *Context:
		return values(n)
	case *Range:
		return []Node{n.Low, n.High}
	case *Unary:
		return []Node{n.Operand}
	case *Chain:
		return n.Operands
	case *Binary:
		return []Node{n.Left, n.Right}
	case *Negation:
		return []Node{n.Operand}
	case *Between:
		return []Node{n.Operand, n.Low, n.High}
	case *In:
		return append([]Node{n.Operand}, n.Tests...)
	case *InstanceOf:
		return []Node{n.Operand}
	case *Path:
		return []Node{n.Operand}
	case *Filter:
		return []Node{n.Operand, n.Condition}
	case *Call:
		return callParts(n)
	case *If:
		return []Node{n.Condition, n.Then, n.Else}
	case *For:
		return append(lists(n.Iterators), n.Result)
	case *Quantified:
		return append(lists(n.Iterators), n.Condition)
	case *Function:
		return []Node{n.Body}
	case *NotTests:
		return n.Tests
	}
	return nil
}

func values(n *Context) []Node {
	all := make([]Node, len(n.Entries))
	for i, entry := range n.Entries {
		all[i] = entry.Value
	}
	return all
}

func callParts(n *Call) []Node {
	all := []Node{n.Function}
	for _, a := range n.Arguments {
		all = append(all, a.Value)
	}
	return all
}

func lists(iterators []Iterator) []Node {
	var all []Node
	for _, i := range iterators {
		all = append(all, i.List)
		if i.End != nil {
			all = append(all, i.End)
		}
	}
	return all
}
