package dmn

import (
	"errors"
	"strings"
	"testing"
	"unicode/utf16"
)

const dmn13 = `xmlns="https://www.omg.org/spec/DMN/20191111/MODEL/"`

// small is a file with one decision.
const small = `<definitions ` + dmn13 + ` name="m" namespace="n">
  <decision id="d" name="Größe"><literalExpression><text>1</text></literalExpression></decision>
</definitions>`

// asUTF16 encodes a text in UTF-16.
func asUTF16(text string, mark, littleEnd bool) []byte {
	units := utf16.Encode([]rune(text))
	if mark {
		units = append([]uint16{0xfeff}, units...)
	}
	var raw []byte
	for _, unit := range units {
		if littleEnd {
			raw = append(raw, byte(unit), byte(unit>>8))
		} else {
			raw = append(raw, byte(unit>>8), byte(unit))
		}
	}
	return raw
}

func read(t *testing.T, raw []byte) *File {
	t.Helper()
	file, err := Read("f.dmn", strings.NewReader(string(raw)))
	if err != nil {
		t.Fatalf("it is not read: %v", err)
	}
	return file
}

func TestEncodings(t *testing.T) {
	declared := func(encoding string) string { return `<?xml version="1.0" encoding="` + encoding + `"?>` + small }
	latin1 := strings.NewReplacer("ö", "\xf6", "ß", "\xdf").Replace(declared("ISO-8859-1"))
	for name, raw := range map[string][]byte{
		"UTF-8":                     []byte(small),
		"UTF-8, declared":           []byte(declared("UTF-8")),
		"UTF-8, with a mark":        []byte("\xef\xbb\xbf" + declared("utf-8")),
		"UTF-16, little end":        asUTF16(declared("UTF-16"), true, true),
		"UTF-16, big end":           asUTF16(declared("UTF-16"), true, false),
		"UTF-16LE without a mark":   asUTF16(small, false, true),
		"UTF-16BE without a mark":   asUTF16(small, false, false),
		"ISO-8859-1":                []byte(latin1),
		"ends of lines as of DOS":   []byte(strings.ReplaceAll(small, "\n", "\r\n")),
		"a comment before the root": []byte("<!-- a -->" + small),
	} {
		t.Run(name, func(t *testing.T) {
			file := read(t, raw)
			if len(file.Decisions) != 1 || file.Decisions[0].Name() != "Größe" {
				t.Errorf("the decisions are %v", file.Decisions)
			}
		})
	}
}

func TestVersionsAndPrefixes(t *testing.T) {
	for space, version := range versions {
		text := `<x:definitions xmlns:x="` + space + `"><x:decision id="d" name="e"><x:literalExpression><x:text><![CDATA[1 < 2]]>` +
			`</x:text></x:literalExpression></x:decision></x:definitions>`
		file := read(t, []byte(text))
		if file.Version != version || len(file.Faults) > 0 {
			t.Errorf("%s is read as %s, with %v", version, file.Version, file.Faults)
		}
		if literal := file.Decisions[0].Logic.(*Text); literal.Text != "1 < 2" {
			t.Errorf("the text is %q", literal.Text)
		}
	}
}

func TestLanguage(t *testing.T) {
	for attribute, due := range map[string]string{`xml:lang=" de "`: "de", `lang="de"`: "", `xmlns:x="urn:x" x:lang="de"`: "", "": ""} {
		file := read(t, []byte("<definitions "+dmn13+" "+attribute+"/>"))
		if got := file.Root.Language(); got != due {
			t.Errorf("%s is the language %q", attribute, got)
		}
	}
}

func TestPlacesOfElements(t *testing.T) {
	file := read(t, []byte("<?xml version=\"1.0\"?>\n<!-- ä\n -->\n<definitions "+dmn13+">\n  <inputData name=\"é\"/><inputData/>\n"+
		"</definitions>"))
	for i, due := range []Place{{5, 3}, {5, 24}} {
		if got := file.Inputs[i].Place; got != due {
			t.Errorf("input %d stands at %v", i, got)
		}
	}
}

// TestFilesThatAreNotRead has what the XML reader or we refuse, with place and reason.
func TestFilesThatAreNotRead(t *testing.T) {
	open := "<definitions " + dmn13 + ">"
	for name, c := range map[string]struct {
		raw, why string
		place    Place
	}{
		"a document type":             {"<!DOCTYPE a>\n" + small, "document type", Place{1, 1}},
		"entities that grow":          {`<!DOCTYPE a [<!ENTITY b "cc">]>` + open + "&b;</definitions>", "document type", Place{1, 1}},
		"an external entity":          {`<!DOCTYPE a [<!ENTITY b SYSTEM "file:///etc/passwd">]>` + small, "document type", Place{1, 1}},
		"an entity that is not known": {open + "&b;</definitions>", "entity", Place{1, 70}},
		"an attribute twice":          {open + "\n <decision a='1' a='2'/></definitions>", "stands twice", Place{2, 2}},
		"a second root":               {small + "\n<a/>", "second root", Place{4, 1}},
		"characters behind the root":  {small + "x", "outside of the root", Place{3, 15}},
		"no end":                      {open, "unexpected EOF", Place{1, 67}},
		"another end":                 {open + "</a>", "closed by", Place{1, 71}},
		"nothing":                     {"", "no element", Place{1, 1}},
		"no XML":                      {"{}", "outside of the root", Place{1, 1}},
		"bytes that are no UTF-8":     {open + "\n\xff</definitions>", "no UTF-8", Place{2, 1}},
		"UTF-16 that isn't":           {`<?xml version="1.0" encoding="UTF-16"?>` + small, "not in the encoding", Place{1, 1}},
		"an encoding that isn't read": {`<?xml version="1.0" encoding="EBCDIC"?>` + small, "not in the encoding", Place{1, 1}},
		"a reference to half a pair":  {open + "\n<a>&#xD800;</a></definitions>", "no character", Place{2, 4}},
		"one in an attribute":         {open + "\n<a b='&#55296;'/></definitions>", "no character", Place{2, 1}},
		"UTF-32":                      {"\xff\xfe\x00\x00<", "UTF-32", Place{1, 1}},
		"half a character of UTF-16":  {string(asUTF16(small, true, true)[:101]), "within a character", Place{1, 1}},
		"half a pair of UTF-16":       {string(asUTF16("<a>", true, true)) + "\x00\xd8", "half of a pair", Place{1, 4}},
		"a declaration that is late":  {"\n<?xml version=\"1.0\"?>" + small, "behind the file's start", Place{2, 1}},
		"XML 1.1":                     {`<?xml version="1.1"?>` + small, "unsupported version", Place{1, 22}},
		"depth":                       {strings.Repeat("<a>", 100000), "over 256 deep", Place{1, 769}},
		"BPMN": {`<definitions xmlns="http://www.omg.org/spec/BPMN/20100524/MODEL"/>`, "BPMN",
			Place{1, 1}},
		"DMN 1.6":             {`<definitions xmlns="https://www.omg.org/spec/DMN/20240513/MODEL/"/>`, "none of DMN 1.1 to 1.5", Place{1, 1}},
		"a prefix of nothing": {`<x:definitions/>`, "no DMN", Place{1, 1}},
		"more than is read":   {small + strings.Repeat(" ", MostBytes), "over 16777216 bytes", Place{3, 16777028}},
	} {
		t.Run(name, func(t *testing.T) {
			_, err := Read("f.dmn", strings.NewReader(c.raw))
			var fault *Fault
			if !errors.As(err, &fault) {
				t.Fatalf("a fault is due, and %v came", err)
			}
			if !strings.Contains(fault.Why, c.why) || fault.Place != c.place {
				t.Errorf("%q at %v is due, and %q at %v came", c.why, c.place, fault.Why, fault.Place)
			}
		})
	}
}

func TestMostElements(t *testing.T) {
	_, err := Read("f.dmn", strings.NewReader("<definitions "+dmn13+">"+strings.Repeat("<a/>", MostElements)))
	var fault *Fault
	if !errors.As(err, &fault) || !strings.Contains(fault.Why, "over 500000 elements") {
		t.Errorf("it gives %v", err)
	}
}

func TestPartsThatAreNotKnown(t *testing.T) {
	file := read(t, []byte(`<definitions `+dmn13+` xmlns:o="other">
<decision name="d"><o:literalExpression/><literalExpresion/></decision>
<extensionElements><o:a><o:b/></o:a></extensionElements>
<decision name="e"><literalExpression/><list/></decision>
<DMNDI><DMNDiagram/></DMNDI>
</definitions>`))
	var reported []string
	for _, fault := range file.Faults {
		reported = append(reported, fault.Text)
	}
	if got := strings.Join(reported, " "); got != "literalExpression literalExpresion list" {
		t.Errorf("what is not known is %s", got)
	}
}

func TestPartsThatStandTwiceAndStrayCharacters(t *testing.T) {
	literal := "<literalExpression><text>1</text></literalExpression>"
	for parts, due := range map[string]string{
		"<literalExpression><text>1</text><text>2</text></literalExpression>": "text: the element stands twice",
		`<variable name="a"/><variable name="b"/>` + literal:                  "variable: the element stands twice",
		literal + literal:                          "literalExpression: a second expression",
		"<literalExpression>1</literalExpression>": "1: characters stand in literalExpression",
		"<decisionTable><rule><inputEntry>5</inputEntry></rule></decisionTable>":                 "5: characters stand in inputEntry",
		"<decisionTable>x<output/></decisionTable>":                                              "x: characters stand in decisionTable",
		"<conditional><then/><then>" + literal + "</then></conditional>":                         "then: the element stands twice",
		"<invocation>" + literal + literal + "</invocation>":                                     "literalExpression: a second expression",
		"<decisionTable><input><inputValues/><inputValues/></input></decisionTable>":             "inputValues: the element stands twice",
		"<decisionTable><output><outputValues/><outputValues/></output></decisionTable>":         "outputValues: the element stands twice",
		"<invocation><binding><parameter name='a'/><parameter name='b'/></binding></invocation>": "parameter: the element stands twice",
	} {
		file := read(t, []byte("<definitions "+dmn13+"><decision name='d'>"+parts+"</decision></definitions>"))
		reported := ""
		for _, fault := range file.Faults {
			reported += fault.Text + ": " + fault.Why + "; "
		}
		if !strings.Contains(reported, due) {
			t.Errorf("%s tells %q, due %q", parts, reported, due)
		}
	}
}

func TestAttributesThatAreTrueOrFalse(t *testing.T) {
	for spelled, due := range map[string]bool{"true": true, "1": true, " 1 ": true, "false": false, "0": false, "": false} {
		file := read(t, []byte("<definitions "+dmn13+"><itemDefinition name='t' isCollection='"+spelled+"'/></definitions>"))
		if file.Types[0].Collection != due || len(file.Faults) > 0 {
			t.Errorf("%q is %v, with %v", spelled, file.Types[0].Collection, file.Faults)
		}
	}
	file := read(t, []byte("<definitions "+dmn13+"><itemDefinition name='t' isCollection='TRUE'/></definitions>"))
	if len(file.Faults) != 1 || file.Faults[0].Text != "TRUE" {
		t.Errorf("the faults are %v", file.Faults)
	}
}

// FuzzRead checks that the reader fails only with a fault that has a place.
func FuzzRead(f *testing.F) {
	f.Add([]byte(small))
	f.Add(asUTF16(small, true, true))
	f.Add([]byte(`<!DOCTYPE a [<!ENTITY b "cc">]><a>&b;</a>`))
	f.Add([]byte(`<definitions ` + dmn13 + `><decision><decisionTable><rule/><input/></decisionTable></decision></definitions>`))
	f.Fuzz(func(t *testing.T, raw []byte) {
		file, err := Read("f.dmn", strings.NewReader(string(raw)))
		if err == nil {
			if file.Root == nil {
				t.Error("a file without a root")
			}
			return
		}
		var fault *Fault
		if !errors.As(err, &fault) || fault.Place.Line < 1 || fault.Place.Column < 1 || fault.Why == "" {
			t.Errorf("it fails without a place: %v", err)
		}
	})
}
