package strict

import "strconv"

// A Sort is the sort of a token.
type Sort uint8

// The sorts of tokens. The wrong ones are in no text with a reading.
const (
	Number Sort = iota
	Name
	// Function is the name of a function of one argument.
	Function
	Modulo
	Text
	// Constant is null, true or false.
	Constant
	If
	Then
	Else
	And
	Or
	Not
	Between
	// Equal is = or !=.
	Equal
	// Order is <, <=, > or >=.
	Order
	Plus
	Minus
	Star
	OpenParen
	CloseParen
	OpenBracket
	CloseBracket
	Comma
	Dot
	DotDot
	// LargeNumber is a number over the limit.
	LargeNumber
	// LongName is a word of more than 64 bytes.
	LongName
	// OpenText is a text without its second quote.
	OpenText
	// WrongEscape is a text with an invalid escape. The token ends before its backslash.
	WrongEscape
	// Other is anything else.
	Other
	// end follows the last token.
	end
)

// A Token is a piece of a text, from the byte Start up to the byte End.
type Token struct {
	Sort       Sort
	Start, End int
}

// mostName limits the bytes of a name.
const mostName = 64

func isBlank(c byte) bool { return c == ' ' || c == '\t' || c == '\r' || c == '\n' }

// IsDigit reports whether a byte is a digit.
func IsDigit(c byte) bool { return '0' <= c && c <= '9' }

// wordBytes are the bytes of numbers, names and keywords.
var wordBytes = func() (bytes [256]bool) {
	for c := range bytes {
		bytes[c] = IsDigit(byte(c)) || 'A' <= c && c <= 'Z' || 'a' <= c && c <= 'z' || c == '_'
	}
	return bytes
}()

// IsWordByte reports whether a byte may be in a number, a name or a keyword.
func IsWordByte(c byte) bool { return wordBytes[c] }

// IsName reports whether a text is a name: a word of at most 64 bytes that doesn't begin with a digit and isn't a keyword.
func IsName(text string) bool {
	if text == "" || len(text) > mostName || IsDigit(text[0]) || runLength(text, IsWordByte) < len(text) {
		return false
	}
	sort := wordSort(text)
	return sort == Name || sort == Function || sort == Modulo
}

// Tokens splits a text into tokens, including wrong ones.
func Tokens(text string) (found []Token) {
	for token := tokenAfter(text, Token{Sort: end}); token.Sort != end; token = tokenAfter(text, token) {
		found = append(found, token)
	}
	return found
}

// EachToken calls take with each token of a text.
func EachToken(text string, take func(token Token)) {
	for token := tokenAfter(text, Token{Sort: end}); token.Sort != end; token = tokenAfter(text, token) {
		take(token)
	}
}

// tokenAfter returns the next token. After the last its sort is end; a token of this sort that ends at 0 is before the first.
func tokenAfter(text string, before Token) Token {
	at := before.End
	for at < len(text) && isBlank(text[at]) {
		at++
	}
	if at == len(text) {
		return Token{end, at, at}
	}
	token := next(text, at)
	if before.Sort == Number && before.End == at && wordBytes[text[at]] {
		token.Sort = Other
	}
	return token
}

// next returns the token that begins at a byte.
func next(text string, at int) Token {
	switch c := text[at]; {
	case IsDigit(c):
		end := at + 1
		for end < len(text) && IsDigit(text[end]) {
			end++
		}
		return Token{numberSort(text[at:end]), at, end}
	case wordBytes[c]:
		end := at + 1
		for end < len(text) && wordBytes[text[end]] {
			end++
		}
		return Token{wordSort(text[at:end]), at, end}
	case c == '"':
		sort, length := quoted(text[at+1:])
		return Token{sort, at, at + 1 + length}
	}
	sort, length := sign(text[at:])
	return Token{sort, at, at + length}
}

// runLength returns how many bytes at the start of a text belong.
func runLength(text string, belongs func(byte) bool) int {
	for at := 0; at < len(text); at++ {
		if !belongs(text[at]) {
			return at
		}
	}
	return len(text)
}

// fewDigits is how many digits a number may have whatever they are.
const fewDigits = 18

func numberSort(digits string) Sort {
	if len(digits) <= fewDigits {
		return Number
	}
	if _, err := strconv.ParseInt(digits, 10, 64); err != nil {
		return LargeNumber
	}
	return Number
}

func wordSort(word string) Sort {
	switch word {
	case "if":
		return If
	case "then":
		return Then
	case "else":
		return Else
	case "and":
		return And
	case "or":
		return Or
	case "not":
		return Not
	case "between":
		return Between
	case "null", "true", "false":
		return Constant
	case "abs", "sum", "min", "max", "count":
		return Function
	case "modulo":
		return Modulo
	}
	if len(word) > mostName {
		return LongName
	}
	return Name
}

// quoted returns the sort and the length of a text after its first quote.
func quoted(rest string) (Sort, int) {
	for at := 0; at < len(rest); at++ {
		switch rest[at] {
		case '"':
			return Text, at + 1
		case '\\':
			at++
			if at < len(rest) && escaped(rest[at]) == 0 {
				return WrongEscape, at - 1
			}
		}
	}
	return OpenText, len(rest)
}

// escaped returns the byte of an escape, or 0 if it is invalid.
func escaped(c byte) byte {
	switch c {
	case '"', '\\':
		return c
	case 'n':
		return '\n'
	case 'r':
		return '\r'
	case 't':
		return '\t'
	}
	return 0
}

var singles = func() (sorts [256]Sort) {
	for c := range sorts {
		sorts[c] = Other
	}
	for c, sort := range map[byte]Sort{
		'+': Plus, '-': Minus, '*': Star, '=': Equal, '<': Order, '>': Order, '(': OpenParen, ')': CloseParen,
		'[': OpenBracket, ']': CloseBracket, ',': Comma, '.': Dot,
	} {
		sorts[c] = sort
	}
	return sorts
}()

// pairOf returns the sort of a two-character sign, or Other.
func pairOf(first, second byte) Sort {
	switch {
	case first == '.' && second == '.':
		return DotDot
	case second == '=' && first == '!':
		return Equal
	case second == '=' && (first == '<' || first == '>'):
		return Order
	}
	return Other
}

// sign returns the longest sign at the start of a text, or a whole character.
func sign(rest string) (Sort, int) {
	if len(rest) > 1 {
		if sort := pairOf(rest[0], rest[1]); sort != Other {
			return sort, 2
		}
	}
	length := 1
	for length < len(rest) && isInner(rest[length]) {
		length++
	}
	return singles[rest[0]], length
}

// isInner reports whether a byte continues a character.
func isInner(c byte) bool { return 0x80 <= c && c < 0xC0 }
