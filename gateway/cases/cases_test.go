package cases

import (
	"bytes"
	"encoding/csv"
	"fmt"
	"io"
	"math/rand"
	"strings"
	"testing"
	"unicode/utf16"

	"gateway/service"
)

// records reads a whole file, and returns each record's text, or its fault.
func records(t *testing.T, name, text string, options Options) (all []string) {
	t.Helper()
	f, err := Open(name, strings.NewReader(text), options)
	if err != nil {
		return []string{err.Error()}
	}
	var b Batch
	for {
		err := f.Read(&b)
		if err == io.EOF {
			return all
		}
		if err != nil {
			t.Fatal(err)
		}
		for _, it := range b.Records {
			text := fmt.Sprintf("%d %s", it.Line, it.Text)
			if it.fault != nil {
				text = it.fault.Error()
			}
			all = append(all, text)
		}
	}
}

func TestRecords(t *testing.T) {
	for name, row := range map[string]struct {
		file, text string
		due        []string
	}{
		"line ends":          {"a.csv", "a,b\r\n1,2\r\n\r\n3,4", []string{"2 1,2", "4 3,4"}},
		"lines in quotes":    {"a.csv", "a\n\"1\n\n2\"\n3\n", []string{"2 \"1\n\n2\"", "5 3"}},
		"no closing quote":   {"a.csv", "a\n\"1\n2\n3\n", []string{"2 \"1", "3 2", "4 3"}},
		"a letter after it":  {"a.csv", "a\n\"1\n\"2\n3\n", []string{"2 \"1", "3 \"2", "4 3"}},
		"an empty file":      {"a.csv", "", []string{"the file can't be read: a.csv:1: a header is due: the names of the columns"}},
		"a name twice":       {"a.csv", "a, b,b \n", []string{`the file can't be read: a.csv:1:6: columns 2 and 3 both have the name "b"`}},
		"lines of JSON":      {"-", "{}\n\n{\"a\":1}", []string{"1 {}", "3 {\"a\":1}"}},
		"a list":             {"-", " [{}, \n {\"a\":[1,\"],{\\\"\"]} ]\n", []string{"1 {}", "2 {\"a\":[1,\"],{\\\"\"]} "}},
		"an empty list":      {"-", "[ ]", nil},
		"an open list":       {"-", "[1, 2", []string{"1 1", "1:6: the list is not closed: ] is due"}},
		"something after it": {"-", "[1] 2", []string{"1 1", "1:5: something is after the list"}},
		"an old Mac":         {"a.csv", "a,b\r1,2\r", []string{"the file can't be read: a.csv:1:4: a carriage return without a line feed: save the file with line ends of Windows or Unix"}},
	} {
		if got := records(t, row.file, row.text, Options{}); fmt.Sprint(got) != fmt.Sprint(row.due) {
			t.Errorf("%s: %q, and %q is due", name, got, row.due)
		}
	}
}

// TestLongRows reads rows that are too long: each is refused, and the next is read.
func TestLongRows(t *testing.T) {
	long := strings.Repeat("x", MaxRow+10)
	for name, row := range map[string]struct{ file, text, last string }{
		"a cell":                {"a.csv", "a\n" + long + "\n1\n", "3 1"},
		"an open quote":         {"a.csv", "a\n\"1\n" + strings.Repeat("2\n", MaxRow) + "3\n", fmt.Sprintf("%d 3", MaxRow+3)},
		"a long line in quotes": {"a.csv", "a\n\"1\n" + long + "\n1\n", "4 1"},
		"a line of JSON":        {"a.jsonl", long + "\n{}\n", "2 {}"},
		"an item of a list":     {"-", "[\"" + long + "\",\n1]", "2 1"},
	} {
		got := records(t, row.file, row.text, Options{})
		if last := got[len(got)-1]; last != row.last {
			t.Errorf("%s: the last is %.80q, and %q is due", name, last, row.last)
		}
		if isFault := strings.Contains(strings.Join(got[:len(got)-1], "\n"), "over 1048576 bytes"); !isFault && name != "an open quote" {
			t.Errorf("%s: no row is refused: %.80q", name, got)
		}
	}
}

// TestRandomRecords writes random cells with encoding/csv in several encodings, and reads them.
func TestRandomRecords(t *testing.T) {
	letters := []rune("ab \",;\n\r\té€😀'=")
	random := rand.New(rand.NewSource(1))
	for n := 0; n < 3000; n++ {
		var rows [][]string
		columns := 1 + random.Intn(4)
		header := []string{"a", "b", "c", "d"}[:columns]
		for len(rows) < 1+random.Intn(4) {
			var row []string
			for range header {
				var text []rune
				for i := random.Intn(6); i > 0; i-- {
					text = append(text, letters[random.Intn(len(letters))])
				}
				row = append(row, strings.ReplaceAll(string(text), "\r", "x"))
			}
			if strings.TrimSpace(strings.Join(row, "")) == "" {
				row[0] = "x"
			}
			rows = append(rows, row)
		}
		var text bytes.Buffer
		writer := csv.NewWriter(&text)
		writer.Comma = rune(";,\t"[random.Intn(3)])
		writer.UseCRLF = false
		if err := writer.WriteAll(append([][]string{header}, rows...)); err != nil {
			t.Fatal(err)
		}
		f, err := Open("a.csv", encoded(random.Intn(4), text.String()), Options{Separator: byte(writer.Comma)})
		if err != nil {
			t.Fatal(err)
		}
		var b Batch
		if err := f.Read(&b); err != nil || len(b.Records) != len(rows) {
			t.Fatalf("%v: %d of %d rows of %q", err, len(b.Records), len(rows), text.String())
		}
		for at, it := range b.Records {
			found, fault := cells(nil, it.Text, f.Separator)
			if fault != nil || len(found) != columns {
				t.Fatalf("%q: %v", it.Text, fault)
			}
			for i, cell := range found {
				if got := string(cell.text(it.Text, nil)); got != rows[at][i] {
					t.Errorf("%q is read as %q", rows[at][i], got)
				}
			}
		}
	}
}

// encoded returns a text as UTF-8 with or without a mark, or as UTF-16.
func encoded(how int, text string) io.Reader {
	switch how {
	case 0:
		return strings.NewReader(text)
	case 1:
		return strings.NewReader("\xef\xbb\xbf" + text)
	}
	made := []byte{0xff, 0xfe}
	if how == 3 {
		made = []byte{0xfe, 0xff}
	}
	for _, unit := range utf16.Encode([]rune(text)) {
		if how == 2 {
			made = append(made, byte(unit), byte(unit>>8))
		} else {
			made = append(made, byte(unit>>8), byte(unit))
		}
	}
	return bytes.NewReader(made)
}

func TestValues(t *testing.T) {
	any, day, moment := kind{}, kind{isText: true, format: "date"}, kind{isText: true, format: "date-time"}
	for _, row := range []struct {
		kind  kind
		comma bool
		cell  string
		due   string
	}{
		{any, false, "12", "12"}, {any, false, "-0", "0"}, {any, false, "12.50", "12.5"}, {any, false, "007", `"007"`},
		{number, false, "007", "7"}, {number, false, "+1", "1"}, {number, false, " 1 ", "1"}, {number, false, ".5", "0.5"},
		{any, true, "12,50", "12.5"}, {number, true, "12,0", "12"}, {any, false, "TRUE", "true"}, {truth, false, "False", "false"},
		{any, false, "null", "null"}, {text, false, "null", "null"}, {text, false, `"null"`, `"null"`}, {text, false, "12", `"12"`},
		{any, false, `"12"`, `"12"`}, {any, false, "[1, 2]", "[1, 2]"}, {any, false, "a\nb", `"a\nb"`}, {text, true, "1,5", `"1,5"`},
		{any, false, "2026-11-29", `"2026-11-29"`}, {any, false, "1.2.3", `"1.2.3"`},
		{any, false, "1,5", ""}, {any, true, "1.5", ""}, {any, true, "1.000,5", ""}, {number, true, "1.000", ""}, {number, false, "x", ""},
		{any, true, "WAHR", "true"}, {any, false, "FAUX", "false"}, {any, true, "Wahr", `"Wahr"`}, {truth, false, "wahr", "true"}, {text, true, "WAHR", `"WAHR"`},
		{any, false, "VERDADEIRO", "true"}, {any, false, "#1", `"#1"`}, {any, false, "#", `"#"`}, {any, false, "# ok!", `"# ok!"`}, {any, false, "#ok!", `"#ok!"`},
		{any, false, "#N/A", ""}, {text, false, "#WERT!", ""}, {number, false, "#NV", ""}, {any, false, "#¡REF!", ""}, {any, false, "#NAME?", ""}, {any, false, "Err:510", ""},
		{any, false, "####", ""}, {text, false, `"#N/A"`, `"#N/A"`}, {any, false, "Err: 510", `"Err: 510"`}, {any, true, "1,23457E+12", ""}, {number, false, "1E+030", ""},
		{any, false, "12E4", `"12E4"`}, {any, false, `"1E+3"`, `"1E+3"`}, {text, true, "1E+3", `"1E+3"`},
		{day, true, "29.11.2026", `"2026-11-29"`}, {day, false, "1.2.2026", `"2026-02-01"`}, {day, false, "2026-11-29", `"2026-11-29"`}, {day, false, "29/11/2026", `"29/11/2026"`},
		{moment, false, "29.11.2026 8:05", `"2026-11-29T08:05:00"`}, {moment, false, "2026-11-29 08:05:07+01:00", `"2026-11-29T08:05:07+01:00"`}, {day, false, "null", "null"},
		{number, false, "1e3", ""}, {truth, false, "yes", ""}, {parts, false, "1", ""}, {any, false, "[1", ""}, {text, false, "\xff", ""},
	} {
		got, reason := row.kind.appendValue(nil, []byte(row.cell), row.comma)
		if reason != "" {
			got = nil
		}
		if string(got) != row.due {
			t.Errorf("%q is read as %q, %s; and %q is due", row.cell, got, reason, row.due)
		}
	}
}

// TestANSI reads each byte of Windows-1252 as Python does (bytes.decode("cp1252")).
func TestANSI(t *testing.T) {
	for bytes, due := range map[string]string{
		"\x80\x9f\xe4\xff a": "€Ÿäÿ a", "\xef\xbb\xbf\xc3\xa4": "ä", "\xff\xfe\xe4\x00": "ä", "\x93x\x94": "“x”", "\x81": "\xff",
	} {
		got, err := io.ReadAll(decoded(strings.NewReader(bytes), true))
		if err != nil || string(got) != due {
			t.Errorf("%q is read as %q, %v; and %q is due", bytes, got, err, due)
		}
	}
}

// TestWrittenValues writes random results as cells, and reads them again.
func TestWrittenValues(t *testing.T) {
	random := rand.New(rand.NewSource(2))
	texts := []string{"", " ", "a", "12", "1,5", "1.5", "true", "null", `"x"`, `"`, "[", "{}", "a;b", "007", "é", "-", "1.000,5", "WAHR", "#N/A", "1E+03", "####"}
	for n := 0; n < 2000; n++ {
		k := []kind{{}, text}[random.Intn(2)]
		comma := random.Intn(2) == 0
		value := string(quotedKey(texts[random.Intn(len(texts))]))
		value = strings.TrimSuffix(value, ":")
		if k.is(kind{}) && random.Intn(3) == 0 {
			value = []string{"1", "-2.5", "true", "null", "[1,2]", `{"a":1}`}[random.Intn(6)]
		}
		w := Writer{plan: &Plan{file: &File{Separator: ';', options: Options{Comma: comma}}}}
		written := w.valueCell(nil, k, []byte(value))
		found, fault := cells(nil, written, ';')
		if fault != nil || len(found) != 1 {
			t.Fatalf("%s is written %q", value, written)
		}
		if got, reason := k.appendValue(nil, found[0].text(written, nil), comma); string(got) != value {
			t.Errorf("%s is written %q, and that is read as %s %s", value, written, got, reason)
		}
	}
}

const riskModel = `{"inputs":["age","net price"],"decisions":[{"name":"risk","needs":["age"],"expr":{"table":{"hit":"U","inputs":["age"],` +
	`"outputs":[{"name":"level"},{"name":"score"}],"rules":[{"when":["-"],"then":["\"LOW\"","age"]}]}}},{"name":"other","needs":["age"],` +
	`"expr":"age"}],"services":[]}`

func TestHeaders(t *testing.T) {
	source, err := service.ReadSource([]byte(riskModel))
	if err != nil {
		t.Fatal(err)
	}
	subject, err := NewSubject(source)
	if err != nil {
		t.Fatal(err)
	}
	for header, due := range map[string]string{
		"age,net price":        "",
		"age,#age,=risk.level": "",
		"agee":                 `1: column 1: the model has no input "agee"; did you mean "age"?`,
		"=rsik":                `1: column 1: the model has no decision "rsik"; did you mean "risk"?`,
		"other":                `1: column 1: the model has no input "other"`,
		"age,age.x":            "1: column 2: another column has the value of which this is a part",
		"age.x,age":            "1: column 2: another column has the same value, or a part of it",
		"age,":                 "1: column 2: it has no name; # begins the name of a column that is left alone",
	} {
		f, err := Open("a.csv", strings.NewReader(header), Options{})
		if err != nil {
			t.Fatal(err)
		}
		question, err := subject.Question("")
		if err != nil {
			t.Fatal(err)
		}
		got := ""
		if _, err = f.Plan(question, false); err != nil {
			got = err.Error()
		}
		if got != due {
			t.Errorf("%s: %q, and %q is due", header, got, due)
		}
	}
}

// TestWideHeaders has half a million unknown columns: ten are reported.
func TestWideHeaders(t *testing.T) {
	var names strings.Builder
	for n := 0; names.Len() < MaxRow-10; n++ {
		fmt.Fprintf(&names, "%x,", n)
	}
	source, _ := service.ReadSource([]byte(riskModel))
	subject, _ := NewSubject(source)
	f, err := Open("a.csv", strings.NewReader(names.String()+"end"), Options{})
	if err != nil {
		t.Fatal(err)
	}
	question, _ := subject.Question("")
	var faults HeaderFaults
	if _, err := f.Plan(question, true); err == nil {
		t.Error("it is taken")
	} else if faults, _ = err.(HeaderFaults); len(faults) != mostFaults {
		t.Errorf("%d faults are reported", len(faults))
	}
}

// TestDecimalBorders has a column in hundredths: its borders are decimals, a hundredth apart.
func TestDecimalBorders(t *testing.T) {
	text := `{"model":{"inputs":["a"],"decisions":[{"name":"d","needs":["a"],"expr":{"table":{"hit":"U","inputs":["a"],` +
		`"outputs":[{"name":"o"}],"rules":[{"when":["<= 250"],"then":["1"]}]}}}],"services":[]},` +
		`"types":{"a":{"type":["number","null"],"multipleOf":0.01}}}`
	source, err := service.ReadSource([]byte(text))
	if err != nil {
		t.Fatal(err)
	}
	subject, err := NewSubject(source)
	if err != nil {
		t.Fatal(err)
	}
	borders, err := subject.Borders("d")
	if err != nil || len(borders) != 1 {
		t.Fatal(borders, err)
	}
	got := string(subject.CSV(borders[0], true))
	if due := "a\n2,49\n2,5\n2,51\nnull\n"; got != due {
		t.Errorf("%q, and %q is due", got, due)
	}
}

// TestBordersOfManyRules has a table with more borders than are tried: they are those of rules from all over it.
func TestBordersOfManyRules(t *testing.T) {
	var rules []string
	for n := 0; n < 2000; n++ {
		rules = append(rules, fmt.Sprintf(`{"when":["[%d..%d]","-"],"then":["%d"]}`, 10*n, 10*n+9, n))
	}
	source, err := service.ReadSource([]byte(`{"inputs":["a","b"],"decisions":[{"name":"d","needs":["a","b"],"expr":{"table":{"hit":"U",` +
		`"inputs":["a","b"],"outputs":[{"name":"o"}],"rules":[` + strings.Join(rules, ",") + `]}}}],"services":[]}`))
	if err != nil {
		t.Fatal(err)
	}
	subject, err := NewSubject(source)
	if err != nil {
		t.Fatal(err)
	}
	all, err := subject.Borders("d")
	if err != nil || len(all) != 1 {
		t.Fatal(all, err)
	}
	rows := all[0].Rows
	if !all[0].IsCut || len(rows) < 1000 || len(rows) > mostAsked/2000 {
		t.Errorf("%d rows, cut %v", len(rows), all[0].IsCut)
	}
	for _, due := range []string{`{"a":-1,"b":null}`, `{"a":9,"b":null}`, `{"a":100`, `{"a":199`} {
		if !strings.Contains(string(bytes.Join(rows, []byte("\n"))), due) {
			t.Errorf("%s is missing", due)
		}
	}
	some, err := subject.RuleBorders("d", map[int]bool{1001: true})
	if due := `{"a":9999,"b":null} {"a":10000,"b":null} {"a":10001,"b":null} {"a":10008,"b":null} {"a":10009,"b":null} {"a":10010,"b":null} {"a":null,"b":null}`; err != nil ||
		some.IsCut || string(bytes.Join(some.Rows, []byte(" "))) != due {
		t.Errorf("%v %s, and %s is due", err, bytes.Join(some.Rows, []byte(" ")), due)
	}
}
