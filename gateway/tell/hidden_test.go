package tell

import (
	"strings"
	"testing"
)

// TestWarningsOfHiddenLetters puts texts into a sound model, and checks the warnings.
func TestWarningsOfHiddenLetters(t *testing.T) {
	for text, due := range map[string]string{
		`\"plain: äöü 中文, an end\\n of a line\"`: "",
		"\\\"a\u202eb\u202ec\u200b\\\"":          "it has U+202E, U+200B, which isn't seen",
		`\"a\u202eb\"`:                           "it has U+202E, which isn't seen",
		"\\\"a\U000e0041b\\\"":                   "it has U+E0041, which isn't seen",
	} {
		r := &report{format: JSON, file: newFile([]byte(strings.Replace(sound, "EXPR", text, 1)))}
		if r.file.model == nil {
			t.Fatalf("%s: it is no model", text)
		}
		r.hiddenLetters()
		reported := r.out.String()
		isDue := strings.Contains(reported, `"said":"`+due+`"`) && strings.Contains(reported, `"pointer":"/decisions/2/expr/list/5"`)
		if due == "" && reported != "" || due != "" && (!isDue || strings.Count(reported, "\n") != 1) {
			t.Errorf("%s: %q, and %q is due", text, reported, due)
		}
	}
}
