package feel

import (
	"fmt"
	"strconv"
	"strings"
	"unicode/utf16"
	"unicode/utf8"
)

// conditional reads "if .. then .. else ..".
func (p *parser) conditional() Node {
	start := p.at
	p.at++
	condition := p.expression()
	p.expect("then")
	then := p.expression()
	p.expect("else")
	otherwise := p.expression()
	return &If{p.from(start), condition, then, otherwise}
}

// iteration reads "for x in list, .. return ..".
func (p *parser) iteration() Node {
	defer func(before *Scope) { p.scope = before }(p.scope)
	start := p.at
	p.at++
	iterators := p.iterators()
	p.expect("return")
	p.scope = NewScope(p.scope, "partial")
	result := p.expression()
	return &For{p.from(start), iterators, result}
}

// quantified reads "some x in list satisfies ..", and "every".
func (p *parser) quantified() Node {
	defer func(before *Scope) { p.scope = before }(p.scope)
	start := p.at
	spelled := p.spell(p.current())
	p.at++
	iterators := p.iterators()
	p.expect("satisfies")
	condition := p.expression()
	return &Quantified{p.from(start), spelled, iterators, condition}
}

// iterators reads "x in list" separated by commas, and puts the names into scope.
func (p *parser) iterators() []Iterator {
	var all []Iterator
	for {
		start := p.at
		name := p.nameUpTo("in")
		p.expect("in")
		list := p.expression()
		i := Iterator{Name: name, List: list}
		if p.accept("..") {
			i.End = p.expression()
		}
		i.Span = p.from(start)
		all = append(all, i)
		p.scope = NewScope(p.scope, name)
		if !p.accept(",") {
			return all
		}
	}
}

// function reads "function(a, b: type) body".
func (p *parser) function() Node {
	defer func(before *Scope) { p.scope = before }(p.scope)
	start := p.at
	p.at += 2
	f := &Function{}
	for !p.accept(")") {
		if len(f.Parameters) > 0 {
			p.expect(",")
		}
		f.Parameters = append(f.Parameters, p.nameUpTo(",", ":", ")"))
		if p.accept(":") {
			p.typeName()
		}
	}
	f.External = p.accept("external")
	p.scope = NewScope(p.scope, f.Parameters...)
	f.Body = p.expression()
	f.Span = p.from(start)
	return f
}

// arguments reads the content of an invocation's parentheses.
func (p *parser) arguments() []Argument {
	p.at++
	var all []Argument
	for !p.accept(")") {
		if len(all) > 0 {
			p.expect(",")
		}
		start := p.at
		name := ""
		if p.isNamed() {
			name = p.nameUpTo(":")
			p.expect(":")
		}
		value := p.test()
		all = append(all, Argument{p.from(start), name, value})
	}
	return all
}

// isNamed reports whether a name and a colon come next.
func (p *parser) isNamed() bool {
	if k := p.current().kind; k != word && k != quoted {
		return false
	}
	for i := p.at; i < len(p.all); i++ {
		switch t := p.all[i]; t.kind {
		case word, number, quoted:
		case sign:
			switch p.spell(t) {
			case ":":
				return true
			case "-", "+", "*", "/", ".", "'", "’":
			default:
				return false
			}
		default:
			return false
		}
	}
	return false
}

// escapes are the values of escapes of one character after the backslash.
var escapes = map[byte]string{'n': "\n", 'r': "\r", 't': "\t", '"': `"`, '\'': "'", '\\': `\`}

// stringValue returns the value of a string literal's token.
func (p *parser) stringValue(t token) string {
	inside := p.source[t.start+1 : t.end-1]
	if !strings.Contains(inside, `\`) {
		return inside
	}
	var value strings.Builder
	for i := 0; i < len(inside); i++ {
		if inside[i] != '\\' {
			value.WriteByte(inside[i])
			continue
		}
		spelled, size := escaped(inside[i:])
		if size == 0 {
			panic(&Fault{Offset: int(t.start) + 1 + i, Why: fmt.Sprintf("%q is no escape of a text", firstTwo(inside[i:])),
				Instead: `\\ for a backslash`})
		}
		value.WriteString(spelled)
		i += size - 1
	}
	return value.String()
}

// escaped returns the value of the escape at the start of a text, and its length, which is 0 if it isn't an escape.
func escaped(from string) (string, int) {
	if len(from) < 2 {
		return "", 0
	}
	switch from[1] {
	case 'u':
		first, fine := codePoint(from, 2, 4)
		if !fine {
			return "", 0
		}
		if !utf16.IsSurrogate(first) {
			return string(first), 6
		}
		if second, fine := codePoint(from[6:], 2, 4); fine && from[6] == '\\' && from[7] == 'u' {
			if both := utf16.DecodeRune(first, second); both != utf8.RuneError {
				return string(both), 12
			}
		}
		return "", 0
	case 'U':
		if r, fine := codePoint(from, 2, 6); fine && utf8.ValidRune(r) {
			return string(r), 8
		}
		return "", 0
	}
	spelled, known := escapes[from[1]]
	if !known {
		return "", 0
	}
	return spelled, 2
}

// codePoint reads some hexadecimal digits.
func codePoint(from string, start, digits int) (rune, bool) {
	if len(from) < start+digits {
		return 0, false
	}
	value, err := strconv.ParseUint(from[start:start+digits], 16, 32)
	return rune(value), err == nil
}

func firstTwo(text string) string {
	runes := []rune(text)
	if len(runes) > 2 {
		runes = runes[:2]
	}
	return string(runes)
}
