package cases

import (
	"bytes"
	"fmt"
	"regexp"
	"strings"
)

// truths maps what spreadsheets write for true and false, in some languages. In cells of unknown type only capitals count,
// except for true and false.
var truths = map[string]string{
	"TRUE": "true", "WAHR": "true", "VRAI": "true", "VERO": "true", "VERDADERO": "true", "VERDADEIRO": "true", "WAAR": "true",
	"FALSE": "false", "FALSCH": "false", "FAUX": "false", "FALSO": "false", "ONWAAR": "false",
}

// mostTruth is the length of the longest.
const mostTruth = len("VERDADEIRO")

// truthOf returns true or false if a cell has it, else "".
func truthOf(text []byte, isTyped bool) string {
	if len(text) < len("true") || len(text) > mostTruth {
		return ""
	}
	capitals := bytes.ToUpper(text)
	word := truths[string(capitals)]
	if isTyped || strings.EqualFold(string(text), word) || bytes.Equal(capitals, text) {
		return word
	}
	return ""
}

// isSheetFault reports whether a cell has what a spreadsheet writes for a formula without a value, or a column without room:
// #N/A, #WERT!, Err:510, ###.
func isSheetFault(text []byte) bool {
	if len(text) < 3 {
		return false
	}
	if text[0] != '#' {
		return text[0] == 'E' && sheetFault.Match(text)
	}
	return len(bytes.Trim(text, "#")) == 0 || sheetFault.Match(text) && bytes.Equal(bytes.ToUpper(text), text)
}

var (
	sheetFault = regexp.MustCompile(`^(#\S*[!?]|#N/[A-Z]|#NV|Err:\d{3})$`)
	// shortened is a number with an exponent in spreadsheets' form: they keep 15 digits.
	shortened = regexp.MustCompile(`^[+-]?\d+([.,]\d+)?E[+-]\d+$`)
	// dated is a date with points, such as 29.11.2026, or one of ISO 8601; a time may follow.
	dated = regexp.MustCompile(`^(?:(\d{1,2})\.(\d{1,2})\.(\d{4})|(\d{4})-(\d\d)-(\d\d))(?:[ T](\d{1,2}):(\d\d)(:\d\d(?:\.\d+)?)?(Z|[+-]\d\d:\d\d)?)?$`)
)

func isShortened(text []byte) bool {
	return bytes.IndexByte(text, 'E') > 0 && shortened.Match(text)
}

// isoDate returns a date in ISO 8601, and other texts unchanged.
func isoDate(text []byte) []byte {
	parts := dated.FindSubmatch(text)
	if parts == nil {
		return text
	}
	made := fmt.Sprintf("%s-%s-%s", parts[4], parts[5], parts[6])
	if parts[4] == nil {
		made = fmt.Sprintf("%s-%s-%s", parts[3], twoDigits(parts[2]), twoDigits(parts[1]))
	}
	if parts[7] == nil {
		return []byte(made)
	}
	seconds := parts[9]
	if seconds == nil {
		seconds = []byte(":00")
	}
	return []byte(fmt.Sprintf("%sT%s:%s%s%s", made, twoDigits(parts[7]), parts[8], seconds, parts[10]))
}

func twoDigits(number []byte) string {
	if len(number) == 1 {
		return "0" + string(number)
	}
	return string(number)
}
