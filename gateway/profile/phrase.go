package profile

import (
	"math/big"
	"strings"
)

// The ranks of the engine's language, loosest first.
const (
	rankIf = iota
	rankOr
	rankAnd
	rankComparison
	rankSum
	rankProduct
	rankNegation
	rankPath
	rankPrimary
)

const (
	// mostOperandDepth is how deep a nested form may be. A deeper one becomes an entry of its own. The engine reads to
	// 64.
	mostOperandDepth = 30
	// mostChain is how many operands are in one chain. Longer ones are regrouped as pairs of halves.
	mostChain = 24
	// mostRepeated is how many bytes a form may have to be written more than once.
	mostRepeated = 64
)

// A phrase is an expression of the engine's language, and what it is made of.
type phrase struct {
	text string
	// rank is that of its operator, depth how deep it is as the engine counts.
	rank, depth int32
	// of is the type of its values.
	of *valueType
	// number is the value of a constant number; nil for others.
	number *big.Rat
	// rare is nil for most phrases. It is made once, and not changed.
	rare *rare
}

// rare has the fields that few phrases use, since there are many phrases.
type rare struct {
	moment       *int64
	inDays, over *phrase
	product      *product
	members      []phrase
	branches     *branches
}

// moment returns the whole number of a constant date or duration; nil for others.
func (p phrase) moment() *int64 {
	if p.rare == nil {
		return nil
	}
	return p.rare.moment
}

// inDays returns the number of days of a days and time duration known to be whole days; nil for others.
func (p phrase) inDays() *phrase {
	if p.rare == nil {
		return nil
	}
	return p.rare.inDays
}

// over returns the divisor of a quotient by a variable: it is positive, or the quotient is null. Nil for others.
func (p phrase) over() *phrase {
	if p.rare == nil {
		return nil
	}
	return p.rare.over
}

// product returns what the phrase is a constant times of; nil if not known.
func (p phrase) product() *product {
	if p.rare == nil {
		return nil
	}
	return p.rare.product
}

// members returns the members of a written-out list; nil for others.
func (p phrase) members() []phrase {
	if p.rare == nil {
		return nil
	}
	return p.rare.members
}

// branches returns the parts of an if; nil for others.
func (p phrase) branches() *branches {
	if p.rare == nil {
		return nil
	}
	return p.rare.branches
}

// A product is a phrase times a constant.
type product struct {
	of phrase
	by *big.Int
}

// branches are the parts of an if.
type branches struct{ condition, then, otherwise phrase }

// refused is the phrase of refused forms.
var refused = phrase{text: "null", rank: rankPrimary, depth: 1, of: refusedType}

// constant returns a phrase of depth 1.
func constant(text string, of *valueType) phrase {
	return phrase{text: text, rank: rankPrimary, depth: 1, of: of}
}

// within returns the phrase for a place of a rank, in parentheses if it needs them.
func (p phrase) within(rank int32) phrase {
	if p.rank >= rank {
		return p
	}
	return phrase{text: "(" + p.text + ")", rank: rankPrimary, depth: p.depth + 1, of: p.of, number: p.number}
}

// isShort reports whether a phrase may be written more than once.
func (p phrase) isShort() bool {
	return p.rank >= rankPath && len(p.text) <= mostRepeated && p.depth <= 8
}

// infix joins two phrases by a left-associative operator.
func infix(left phrase, operator string, right phrase, rank int32, of *valueType) phrase {
	l, r := left.within(rank), right.within(rank+1)
	if rank == rankComparison {
		l = left.within(rank + 1)
	}
	return phrase{text: l.text + " " + operator + " " + r.text, rank: rank, depth: 1 + deepest(l, r), of: of}
}

// call returns a function call.
func call(function string, of *valueType, arguments ...phrase) phrase {
	texts := make([]string, len(arguments))
	for i, a := range arguments {
		texts[i] = a.text
	}
	return phrase{text: function + "(" + strings.Join(texts, ", ") + ")", rank: rankPrimary,
		depth: 1 + deepest(arguments...), of: of}
}

// listing returns a list of phrases.
func listing(members []phrase, of *valueType) phrase {
	size := 2
	for i := range members {
		size += len(members[i].text) + len(", ")
	}
	var text strings.Builder
	text.Grow(size)
	text.WriteByte('[')
	for i := range members {
		if i > 0 {
			text.WriteString(", ")
		}
		text.WriteString(members[i].text)
	}
	text.WriteByte(']')
	return phrase{text: text.String(), rank: rankPrimary, depth: 1 + deepest(members...), of: of,
		rare: &rare{members: members}}
}

// choice returns an if.
func choice(condition, then, otherwise phrase) phrase {
	return choiceOf(joined(then.of, otherwise.of), condition, then, otherwise)
}

// choiceOf returns an if, with the common type of its branches.
func choiceOf(of *valueType, condition, then, otherwise phrase) phrase {
	return phrase{text: "if " + condition.text + " then " + then.text + " else " + otherwise.text, rank: rankIf,
		depth: 1 + deepest(condition, then, otherwise), of: of, rare: &rare{branches: &branches{condition, then, otherwise}}}
}

// negated returns the not of a phrase.
func negated(p phrase) phrase { return call("not", booleanType, p) }

func deepest(phrases ...phrase) int32 {
	depth := int32(0)
	for i := range phrases {
		depth = deeper(depth, phrases[i].depth)
	}
	return depth
}

// chained joins operands by operators of one rank: "or", "and", "*", or "+" and "-". It regroups a long chain without
// changing its value: a - b - c is a - (b + c).
func chained(operands []phrase, operators []string, rank int32, of *valueType) phrase {
	if len(operands) == 1 {
		return operands[0].within(rank)
	}
	w, size := chainWriter{rank: rank}, 0
	for i := range operands {
		size += len(operands[i].text) + len(" and ")
		if operands[i].rank <= rank {
			size += len("()")
		}
	}
	w.text.Grow(size)
	depth := w.chain(operands, operators)
	return phrase{text: w.text.String(), rank: rank, depth: depth, of: of}
}

// A chainWriter writes a chain of operands with operators of a rank.
type chainWriter struct {
	text strings.Builder
	rank int32
}

// chain writes operands, of many the later half in parentheses, and returns their depth.
func (w *chainWriter) chain(operands []phrase, operators []string) (depth int32) {
	if len(operands) > mostChain {
		middle := len(operands) / 2
		joint := operators[middle-1]
		left := w.chain(operands[:middle], operators[:middle-1])
		w.operator(joint)
		w.text.WriteByte('(')
		right := w.chain(operands[middle:], turned(operators[middle:], joint))
		w.text.WriteByte(')')
		return 1 + deeper(left, right+1)
	}
	depth = w.operand(&operands[0], w.rank)
	for i, operator := range operators {
		w.operator(operator)
		depth = 1 + deeper(depth, w.operand(&operands[i+1], w.rank+1))
	}
	return depth
}

func (w *chainWriter) operator(operator string) {
	w.text.WriteByte(' ')
	w.text.WriteString(operator)
	w.text.WriteByte(' ')
}

// operand writes one for a place of a rank.
func (w *chainWriter) operand(o *phrase, rank int32) (depth int32) {
	if o.rank >= rank {
		w.text.WriteString(o.text)
		return o.depth
	}
	w.text.WriteByte('(')
	w.text.WriteString(o.text)
	w.text.WriteByte(')')
	return o.depth + 1
}

func deeper(a, b int32) int32 {
	if a > b {
		return a
	}
	return b
}

// turned returns the operators of a part in parentheses: after a minus the signs change.
func turned(operators []string, joint string) []string {
	if joint != "-" {
		return operators
	}
	all := make([]string, len(operators))
	for i, operator := range operators {
		if operator == "-" {
			all[i] = "+"
		} else {
			all[i] = "-"
		}
	}
	return all
}

func maximum(a, b int) int {
	if a > b {
		return a
	}
	return b
}

func minimum(a, b int) int {
	if a < b {
		return a
	}
	return b
}

var escapes = strings.NewReplacer(`\`, `\\`, `"`, `\"`, "\n", `\n`, "\r", `\r`, "\t", `\t`)

// quotedText returns a text as a string of the engine's language.
func quotedText(value string) string { return `"` + escapes.Replace(value) + `"` }
