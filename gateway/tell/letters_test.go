package tell

import "testing"

// TestHiddenLetters writes zero-width letters, and other blanks in names, by number.
func TestHiddenLetters(t *testing.T) {
	for _, row := range []struct{ name, due string }{
		{"plain", "plain"},
		{"a b", `"a b"`},
		{"a\u034fb", `"a\u034fb"`},
		{"a\ufe0f", `"a\ufe0f"`},
		{"\u115f\u1160", `"\u115f\u1160"`},
		{"\u17b4", `"\u17b4"`},
		{"\u3164\uffa0\u2800", `"\u3164\uffa0\u2800"`},
		{"\U0001d173", `"\ud834\udd73"`},
		{"a\u00a0b", `"a\u00a0b"`},
		{"\u202e\u200b\u00ad", `"\u202e\u200b\u00ad"`},
		{"größe", `"größe"`},
		{`a\bc\f\u0041\\`, `"a\u0008c\u000c\u0041\\"`},
	} {
		to := &page{}
		if addName(to, row.name); to.String() != row.due {
			t.Errorf("%q: %s, and %s is due", row.name, to.String(), row.due)
		}
	}
	to := &page{}
	if addShown(to, []byte("\"a\u00a0b\"")); to.String() != "\"a\u00a0b\"" {
		t.Errorf("a text is shown as %s", to.String())
	}
}
