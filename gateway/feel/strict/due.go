package strict

import "strings"

// A Due is what could be where reading stops. Operators, which may follow any value, are omitted.
type Due string

// The values of Due.
const (
	DueValue        Due = "a value"
	DueTest         Due = "a test"
	DueLiteral      Due = "a literal"
	DueNumber       Due = "a number"
	DueName         Due = "a name"
	DueOpenParen    Due = `"("`
	DueCloseParen   Due = `")"`
	DueCloseBracket Due = `"]"`
	DueIntervalEnd  Due = `"]" or ")"`
	DueComma        Due = `","`
	DueThen         Due = `"then"`
	DueElse         Due = `"else"`
	DueAnd          Due = `"and"`
	DueDotDot       Due = `".."`
	DueEnd          Due = "the end"
	DueQuote        Due = "the second quote"
	DueEscape       Due = `an escape of \", \\, \n, \r and \t`
	DueSmallNumber  Due = "a number of at most 9223372036854775807"
	DueShortName    Due = "a name of at most 64 bytes"
	// DueShallow is for a text that is too deep as a whole.
	DueShallow Due = "at most 64 levels"
)

// listed joins these with commas and an "or".
func listed(due []Due) string {
	var text strings.Builder
	for at, one := range due {
		switch {
		case at > 0 && at == len(due)-1:
			text.WriteString(" or ")
		case at > 0:
			text.WriteString(", ")
		}
		text.WriteString(string(one))
	}
	return text.String()
}

func has(due []Due, one Due) bool {
	for _, other := range due {
		if other == one {
			return true
		}
	}
	return false
}
