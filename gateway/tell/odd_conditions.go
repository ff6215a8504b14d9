package tell

import (
	"fmt"
	"strings"

	"gateway/feel"
	"gateway/feel/strict"
)

// More kinds of warnings.
const (
	oddCondition = "no condition"
	oddSettled   = "settled condition"
	oddDead      = "dead branch"
	oddNull      = "always null"
	oddCounted   = "counted cell"
	oddSame      = "same rule"
	oddColumn    = "unused column"
	oddService   = "unreached input decision"
)

func init() {
	oddKinds = append(oddKinds, oddCondition, oddSettled, oddDead, oddNull, oddCounted, oddSame, oddColumn, oddService)
}

// slips looks for conditions that don't mean what they seem to, and for what is always null.
func (w *walk) slips(steps []Step, text string, node feel.Node) {
	switch of := node.(type) {
	case *feel.Name, *feel.Number, *feel.String:
		return
	case *feel.Chain:
		w.chainSlips(steps, text, of)
	case *feel.If:
		w.branchSlips(steps, text, of)
	case *feel.Call:
		w.callSlips(steps, text, of)
	case *feel.Negation:
		w.arithmeticSlips(steps, text, of, of.Operand)
	}
	eachPart(node, func(part feel.Node) { w.slips(steps, text, part) })
}

// spelled returns a form as it is written.
func spelled(text string, node feel.Node) string {
	at := node.At()
	return text[at.Start:at.End]
}

// ungrouped returns a form without the parentheses around it.
func ungrouped(node feel.Node) feel.Node {
	for {
		group, ok := node.(*strict.Group)
		if !ok {
			return node
		}
		node = group.Inside
	}
}

func (w *walk) chainSlips(steps []Step, text string, chain *feel.Chain) {
	switch operator := chain.Operators[0]; operator {
	case "and", "or":
		w.noConditions(steps, text, chain)
		w.settledChain(steps, text, operator, chain)
	default:
		w.arithmeticSlips(steps, text, chain, chain.Operands...)
	}
}

// noConditions notes operands of "and" and "or" that are neither true nor false, such as a = 5 or 6.
func (w *walk) noConditions(steps []Step, text string, chain *feel.Chain) {
	for at, operand := range chain.Operands {
		value, isConstant := strict.ConstantOf(ungrouped(operand))
		if _, isTruth := value.(bool); !isConstant || isTruth || value == nil {
			continue
		}
		w.note(oddCondition, steps, func() string {
			said := spelled(text, operand) + " is neither true nor false"
			for before := at - 1; before >= 0; before-- {
				if compared, ok := ungrouped(chain.Operands[before]).(*feel.Binary); ok {
					return fmt.Sprintf("%s; is it %s %s %s?", said, spelled(text, compared.Left), compared.Operator, spelled(text, operand))
				}
			}
			return said
		})
	}
}

// A claim is a comparison of a value with a constant.
type claim struct {
	subject  valueName
	operator string
	constant strict.Value
}

var turned = map[string]string{"=": "=", "!=": "!=", "<": ">", ">": "<", "<=": ">=", ">=": "<="}

// claimOf reads a condition as a claim; false if it is none.
func claimOf(node feel.Node) (claim, bool) {
	compared, ok := ungrouped(node).(*feel.Binary)
	if !ok {
		return claim{}, false
	}
	if subject, ok := subjectOf(compared.Left); ok {
		constant, ok := known(compared.Right)
		return claim{subject, compared.Operator, constant}, ok && constant != nil
	}
	subject, ok := subjectOf(compared.Right)
	constant, isKnown := known(compared.Left)
	return claim{subject, turned[compared.Operator], constant}, ok && isKnown && constant != nil
}

// numbers returns the numbers for which a claim is true; false if it isn't about a number's size.
func (c claim) numbers() (span, bool) {
	number, ok := c.constant.(int64)
	switch {
	case !ok || c.operator == "!=":
		return span{}, false
	case c.operator == "=":
		return span{number, number}, true
	}
	return bounded(c.operator, number), true
}

// excludes reports whether two claims about one value are never both true.
func (c claim) excludes(other claim) bool {
	if c.subject != other.subject || c.operator == "!=" || other.operator == "!=" {
		return false
	}
	if kindOfValue(c.constant) != kindOfValue(other.constant) || c.operator == "=" && other.operator == "=" && c.constant != other.constant {
		return true
	}
	one, isOne := c.numbers()
	two, isTwo := other.numbers()
	return isOne && isTwo && (one.high < two.low || two.high < one.low)
}

// settledChain notes claims that are never both true, and unequal claims of which one always is.
func (w *walk) settledChain(steps []Step, text, operator string, chain *feel.Chain) {
	claims := map[valueName][]claim{}
	for _, operand := range chain.Operands {
		one, ok := claimOf(operand)
		if !ok {
			continue
		}
		for _, other := range claims[one.subject] {
			isUnequal := one.operator == "!=" && other.operator == "!=" && one.constant != other.constant &&
				kindOfValue(one.constant) == kindOfValue(other.constant)
			switch {
			case operator == "and" && one.excludes(other):
				w.note(oddSettled, steps, func() string { return spelled(text, chain) + " is never true" })
				return
			case operator == "or" && isUnequal:
				w.note(oddSettled, steps, func() string { return spelled(text, chain) + " is never false" })
				return
			}
		}
		claims[one.subject] = append(claims[one.subject], one)
	}
}

// branchSlips notes a condition that doesn't depend on the inputs, and one that isn't reached where it is true.
func (w *walk) branchSlips(steps []Step, text string, of *feel.If) {
	condition := ungrouped(of.Condition)
	_, isConstant := condition.(*feel.Boolean)
	if compared, ok := condition.(*feel.Binary); ok {
		isConstant = sameSpelling(spelled(text, compared.Left), spelled(text, compared.Right))
	}
	if isConstant {
		w.note(oddSettled, steps, func() string { return "the condition " + spelled(text, of.Condition) + " doesn't depend on anything" })
	}
	first, ok := claimOf(of.Condition)
	next, isElse := ungrouped(of.Else).(*feel.If)
	if !ok || !isElse {
		return
	}
	later, ok := claimOf(next.Condition)
	before, isBefore := first.numbers()
	after, isAfter := later.numbers()
	if ok && isBefore && isAfter && first.subject == later.subject && before.low <= after.low && after.high <= before.high {
		w.note(oddDead, steps, func() string {
			return fmt.Sprintf("%s is never true here: %s comes before it", spelled(text, next.Condition), spelled(text, of.Condition))
		})
	}
}

// sameSpelling reports whether two texts differ only in blanks.
func sameSpelling(one, other string) bool {
	return strings.Join(strings.Fields(one), " ") == strings.Join(strings.Fields(other), " ")
}

// callSlips notes list functions of what never is a list.
func (w *walk) callSlips(steps []Step, text string, call *feel.Call) {
	name, _ := call.Function.(*feel.Name)
	switch name.Name {
	case "sum", "min", "max", "count":
	default:
		return
	}
	subject, ok := subjectOf(call.Arguments[0].Value)
	if ok && w.isNeed(subject.name) && w.given.isNoList(subject) {
		w.note(oddNull, steps, func() string {
			return fmt.Sprintf("%s never is a list, so %s is null", spelled(text, call.Arguments[0].Value), spelled(text, call))
		})
	}
}

// arithmeticSlips notes arithmetic with what never is a number.
func (w *walk) arithmeticSlips(steps []Step, text string, whole feel.Node, operands ...feel.Node) {
	for _, operand := range operands {
		subject, ok := subjectOf(operand)
		if !ok || !w.isKnown(subject) || w.given.mayBeNumber(subject) {
			continue
		}
		w.note(oddNull, steps, func() string {
			return fmt.Sprintf("%s never is a number, so %s is null", spelled(text, operand), spelled(text, whole))
		})
		return
	}
}

// isNoList reports whether a value never is a list.
func (g *given) isNoList(of valueName) bool {
	gives := g.decisions[of.name]
	return gives != nil && (gives.isNumber && of.entry == "" || g.literals(of) != nil)
}

// mayBeNumber reports whether one of the literals that a value may be is a number.
func (g *given) mayBeNumber(of valueName) bool {
	may, isSeen := g.numbers[of]
	if isSeen {
		return may
	}
	for literal := range g.literals(of) {
		may = may || literal[0] == '-' || strict.IsDigit(literal[0])
	}
	g.numbers[of] = may
	return may
}

// countedCells notes differences of numbers written without blanks, which are usually dates or intervals: 2026-01-31, 5-7.
func (w *walk) countedCells(steps []Step, text string, tests strict.Tests) {
	for _, test := range tests.List {
		nodes := []feel.Node{test}
		switch of := test.(type) {
		case *feel.Unary:
			nodes = []feel.Node{of.Operand}
		case *feel.List:
			nodes = of.Items
		}
		for _, node := range nodes {
			w.countedCell(steps, text, node)
		}
	}
}

func (w *walk) countedCell(steps []Step, text string, node feel.Node) {
	chain, ok := node.(*feel.Chain)
	if !ok || strings.ContainsAny(spelled(text, chain), " \t\r\n") {
		return
	}
	var numbers []string
	for _, operand := range chain.Operands {
		number, ok := operand.(*feel.Number)
		if !ok {
			return
		}
		numbers = append(numbers, number.Text)
	}
	for _, operator := range chain.Operators {
		if operator != "-" {
			return
		}
	}
	value, ok := known(chain)
	if !ok {
		return
	}
	w.note(oddCounted, steps, func() string {
		said := fmt.Sprintf("%s is the number %s", spelled(text, chain), jsonText(value))
		switch {
		case len(numbers) == 3 && len(numbers[0]) == 4:
			return said + "; a day is one number, as 20260131"
		case len(numbers) == 2:
			return said + "; an interval has two dots, as [" + numbers[0] + ".." + numbers[1] + "]"
		}
		return said
	})
}
