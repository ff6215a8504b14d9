package tell

import (
	"bytes"
	"strings"
	"testing"
)

// TestCatalogue finds each fault and each warning among the kinds of notices.
func TestCatalogue(t *testing.T) {
	names := []string{
		kindName(ofFault, "long"), kindName(ofWarning, repeatedKey), kindName(ofWarning, hiddenLetter), kindName(ofWarning, oddDefault),
		kindName(ofTable, otherKinds), kindName(ofRequests, noteText), ImportRefused, ImportNote,
	}
	for _, kind := range oddKinds {
		names = append(names, kindName(ofWarning, kind))
	}
	for _, kind := range []string{
		oddCondition, oddSettled, oddDead, oddNull, oddCounted, oddSame, oddColumn, oddService,
	} {
		names = append(names, kindName(ofWarning, kind))
	}
	for fault := range faultSentences {
		names = append(names, kindName(ofFault, fault))
	}
	for _, name := range names {
		if kind, ok := catalogue[name]; !ok || kind.level == "" || kind.meaning == "" {
			t.Errorf("%s has no meaning", name)
		}
	}
}

// TestNotices writes the formats' edge cases: unknown files and spots, escapes, and an unknown kind.
func TestNotices(t *testing.T) {
	notices := []Notice{
		{"fault-name", Error, Spot{"a\r\nb", 2, 3}, "/a", "x\r\ny, z: 5%"},
		{"fault-name", Warning, Spot{"", 2, 3}, "", "here"},
		{"fault-name", Note, Spot{"c", 0, 0}, "", "there"},
		{"fault-name", Note, Spot{}, "", "nowhere"},
	}
	const due = "::error file=a%0D%0Ab,line=2,col=3,title=fault-name::x%0D%0Ay, z: 5%25\n::warning title=fault-name::line 2, column 3: here\n" +
		"::notice file=c,title=fault-name::there\n::notice title=fault-name::nowhere\n"
	if text, err := WriteNotices(GitHub, notices, ""); err != nil || string(text) != due {
		t.Errorf("%v: %s", err, text)
	}
	text, err := WriteNotices(SARIF, notices, "1.2.3")
	if err != nil || bytes.Count(text, []byte(`"physicalLocation"`)) != 2 || bytes.Count(text, []byte(`"region"`)) != 1 {
		t.Errorf("%v: %s", err, text)
	}
	if _, err := WriteNotices(SARIF, []Notice{{Kind: "none"}}, ""); err == nil {
		t.Error("a kind that isn't known is written")
	}
	for path, due := range map[string]string{"/a b": "file:///a%20b", "a/b": "a/b", "c:d": "./c:d", "é#?": "%C3%A9%23%3F"} {
		if uri := uriOf(path); uri != due {
			t.Errorf("%s is %s, and %s is due", path, uri, due)
		}
	}
}

// TestCharacters counts the characters before a byte.
func TestCharacters(t *testing.T) {
	x := &lineIndex{text: []byte("ab\n\"é\", 1\n")}
	for _, row := range []struct {
		spot Spot
		due  int
	}{{Spot{Line: 1, Column: 2}, 2}, {Spot{Line: 2, Column: 5}, 4}, {Spot{Line: 9, Column: 5}, 5}, {Spot{Line: 2, Column: 99}, 99}} {
		if got := x.characters(row.spot); got != row.due {
			t.Errorf("%+v: column %d, and %d is due", row.spot, got, row.due)
		}
	}
	for _, length := range []int{0, 1, blockBytes - 1, blockBytes, 3 * blockBytes} {
		text := []byte("x\n" + strings.Repeat("é", length))
		if got := (&lineIndex{text: text}).characters(Spot{Line: 2, Column: 2*length + 1}); got != length+1 {
			t.Errorf("after %d letters: column %d", length, got)
		}
	}
}
