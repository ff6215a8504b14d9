package command

import (
	"bytes"
	"encoding/json"
	"fmt"
	"os"
	"path/filepath"
	"strings"
	"testing"
	"time"

	"gateway/profile"
)

const header = `<definitions xmlns="https://www.omg.org/spec/DMN/20191111/MODEL/" name="m" namespace="n">`

// file writes a new .dmn file and returns its path.
func file(t *testing.T, text string) string {
	t.Helper()
	path := filepath.Join(t.TempDir(), "f.dmn")
	if err := os.WriteFile(path, []byte(text), 0o600); err != nil {
		t.Fatal(err)
	}
	return path
}

// decided returns a file with one decision that has this text.
func decided(text string) string {
	return header + `<decision id="d" name="my decision"><literalExpression><text>` + text +
		`</text></literalExpression></decision></definitions>`
}

func imports(words ...string) (status int, out, errs string) {
	return runs("", append([]string{"import"}, words...)...)
}

// runs runs a command line on an input.
func runs(input string, words ...string) (status int, out, errs string) {
	var written, messages bytes.Buffer
	root := newRoot()
	root.SetIn(strings.NewReader(input))
	root.SetOut(&written)
	root.SetErr(&messages)
	status = run(root, words)
	return status, written.String(), messages.String()
}

func TestImportWritesTheModelAndWhatItsFileSays(t *testing.T) {
	status, out, errs := imports(file(t, decided("1 &lt; 2")))
	due := `{"model":{"inputs":[],"decisions":[{"name":"my_decision","needs":[],"expr":"1 < 2"}],"services":[{"name":` +
		`"my_decision","outputs":["my_decision"],"encapsulated":[],"inputDecisions":[],"inputData":[]}]},` +
		`"names":{"my_decision":"my decision"},"types":{"my_decision":{"type":["boolean","null"]}},` +
		`"places":{"/decisions/0":{"id":"d","name":"my decision"}}}` + "\n"
	messages := ": in requests and answers \"my decision\" is my_decision\n"
	if status != 0 || out != due || !strings.HasPrefix(errs, "note: ") || !strings.HasSuffix(errs, messages) {
		t.Errorf("status %d\n%s%s", status, out, errs)
	}
}

func TestImportWritesTheLineAlone(t *testing.T) {
	status, out, _ := imports("--line", file(t, decided("1")))
	var line map[string]json.RawMessage
	if err := json.Unmarshal([]byte(out), &line); err != nil || status != 0 {
		t.Fatalf("status %d: %v", status, err)
	}
	if len(line) != 1 || line["model"] == nil || strings.Count(out, "\n") != 1 {
		t.Errorf("the line is %s", out)
	}
}

func TestImportPicksAService(t *testing.T) {
	text := header + `<decision id="d" name="d"><literalExpression><text>1</text></literalExpression></decision>` +
		`<decision id="e" name="e"><literalExpression><text>2</text></literalExpression></decision></definitions>`
	_, out, _ := imports("--line", "--service", "e", file(t, text))
	if !strings.Contains(out, `"services":[{"name":"e","outputs":["e"]`) || strings.Contains(out, `{"name":"d","outputs"`) {
		t.Errorf("the line is %s", out)
	}
	if status, _, errs := imports("--service", "x", file(t, text)); status != 3 || !strings.Contains(errs, `"x"`) {
		t.Errorf("status %d: %s", status, errs)
	}
}

func TestImportReportsARefusedPlaceOnOneLine(t *testing.T) {
	path := file(t, decided("a + odd(\n 2)"))
	status, out, errs := imports(path)
	column := len(header) + len(`<decision id="d" name="my decision">`) + 1
	due := fmt.Sprintf("%s:1:%d", path, column) + `: decision "my decision": "odd(\n 2)": there is no function odd; instead: `
	if status != 3 || out != "" || !strings.Contains(errs, due) || strings.Count(errs, "\n") != 2 {
		t.Errorf("status %d\n%s%s\ndue\n%s", status, out, errs, due)
	}
}

func TestImportOfSeveralFiles(t *testing.T) {
	other := strings.NewReplacer(`id="d" name="my decision"`, `id="x" name="other"`).Replace(decided("2"))
	_, out, errs := imports("--line", file(t, decided("1")), file(t, other))
	if !strings.Contains(out, `"name":"my_decision"`) || !strings.Contains(out, `"name":"other"`) {
		t.Errorf("it is %s%s", out, errs)
	}
	status, _, errs := imports(file(t, decided("1")), file(t, decided("2")))
	if status != 3 || !strings.Contains(errs, "stands twice") {
		t.Errorf("status %d: %s", status, errs)
	}
}

func TestImportReportsDecisionsThatGotNoService(t *testing.T) {
	const need = `<decision id="d#" name="decision number #"><informationRequirement><requiredDecision href="&hash;d@"/>` +
		`</informationRequirement><literalExpression><text>1</text></literalExpression></decision>`
	var all strings.Builder
	for i := 1; i < 500; i++ {
		all.WriteString(strings.NewReplacer("#", fmt.Sprint(i), "@", fmt.Sprint(i-1), "&hash;", "#").Replace(need))
	}
	first := `<decision id="d0" name="decision number 0"><literalExpression><text>1</text></literalExpression></decision>`
	status, out, errs := imports("--line", file(t, header+first+all.String()+"</definitions>"))
	if status != 0 || len(out) > profile.MostLine+1 || !strings.Contains(errs, `"decision number 498" has no service of its own`) {
		t.Errorf("status %d, %d bytes, and %.300s", status, len(out), errs)
	}
	for _, line := range strings.Split(strings.TrimSpace(errs), "\n") {
		if !strings.HasPrefix(line, "note: ") && !strings.HasPrefix(line, "desk import: the decision ") {
			t.Errorf("told is %s", line)
		}
	}
}

func TestImportOfNoFiles(t *testing.T) {
	if status, _, _ := imports(); status != statusUsage {
		t.Errorf("status %d", status)
	}
	if status, _, errs := imports(filepath.Join(t.TempDir(), "none.dmn")); status != statusUnopened || errs == "" {
		t.Errorf("status %d: %s", status, errs)
	}
	if status, _, _ := imports("--unknown"); status != statusUsage {
		t.Errorf("status %d", status)
	}
}

// repeated returns n parts with their numbers in them.
func repeated(n int, form string) string {
	var all strings.Builder
	for i := 0; i < n; i++ {
		all.WriteString(strings.ReplaceAll(form, "#", fmt.Sprint(i)))
	}
	return all.String()
}

// TestHostileFiles has files that grow, nest or loop: each is refused with status 3 and places.
func TestHostileFiles(t *testing.T) {
	invoked := func(form string, n int) string {
		var all strings.Builder
		for i := 1; i < n; i++ {
			all.WriteString(strings.NewReplacer("#", fmt.Sprint(i), "@", fmt.Sprint(i-1)).Replace(form))
		}
		return all.String()
	}
	knowledge := `<businessKnowledgeModel id="f#" name="f#"><encapsulatedLogic>%s</encapsulatedLogic><knowledgeRequirement>` +
		`<requiredKnowledge href="#f@"/></knowledgeRequirement></businessKnowledgeModel>`
	first := `<businessKnowledgeModel id="f0" name="f0"><encapsulatedLogic><list/></encapsulatedLogic></businessKnowledgeModel>`
	knows := func(n int) string {
		return fmt.Sprintf(`<decision id="d" name="d"><knowledgeRequirement><requiredKnowledge href="#f%d"/>`+
			`</knowledgeRequirement><literalExpression><text>f%[1]d()</text></literalExpression></decision>`, n)
	}
	invocation := "<invocation><literalExpression><text>f@</text></literalExpression></invocation>"
	greatContexts := func(of, text, declared string) string {
		return header + `<itemDefinition name="t">` + repeated(9900, `<itemComponent name="c#"><typeRef>`+of+`</typeRef></itemComponent>`) +
			`</itemDefinition><inputData id="o" name="o"><variable name="o"` + declared + `/></inputData><businessKnowledgeModel id="f" name="f">` +
			`<encapsulatedLogic><formalParameter name="x" typeRef="t"/><literalExpression><text>1</text></literalExpression></encapsulatedLogic>` +
			`</businessKnowledgeModel><decision id="d" name="d"><informationRequirement><requiredInput href="#o"/></informationRequirement>` +
			`<knowledgeRequirement><requiredKnowledge href="#f"/></knowledgeRequirement><literalExpression><text>[` + text +
			strings.Repeat(",f(o)", 100_000) + `]</text></literalExpression></decision></definitions>`
	}
	// In the forms # is a number, so a reference's sign is written as its entity.
	knowledge = strings.ReplaceAll(knowledge, `href="#`, `href="&#35;`)
	knowledge = strings.ReplaceAll(knowledge, "&#35;", "&hash;")
	build := func(form string, n int) string { return strings.ReplaceAll(invoked(form, n), "&hash;", "#") }
	for name, text := range map[string]string{
		"entities":                  `<!DOCTYPE a [<!ENTITY b "c"><!ENTITY d "&b;&b;">]>` + decided("&d;"),
		"an external entity":        `<!DOCTYPE a [<!ENTITY b SYSTEM "file:///etc/passwd">]>` + decided("&b;"),
		"50 MB":                     decided(strings.Repeat(" + 1", 50<<18)),
		"elements 100,000 deep":     header + strings.Repeat("<list>", 100_000),
		"parentheses 100,000 deep":  decided(strings.Repeat("(", 100_000) + "1" + strings.Repeat(")", 100_000)),
		"brackets 100,000 deep":     decided(strings.Repeat("[", 100_000)),
		"100,000 minus":             decided(strings.Repeat("-", 100_000) + "1"),
		"paths 100,000 deep":        decided("a" + strings.Repeat(".a", 100_000)),
		"a text past a line":        decided("1" + strings.Repeat(" + 1", 1<<18)),
		"a model past a line":       decided("[1" + strings.Repeat(",1234567890123", 80_000) + "]"),
		"bytes that are no text":    "\x00\x01\x02",
		"BPMN":                      `<definitions xmlns="http://www.omg.org/spec/BPMN/20100524/MODEL"/>`,
		"too many decisions":        header + repeated(1001, `<decision id="d#" name="d#"><literalExpression><text>1</text></literalExpression></decision>`) + "</definitions>",
		"a cycle of types":          header + `<itemDefinition name="a"><typeRef>b</typeRef></itemDefinition><itemDefinition name="b"><typeRef>a</typeRef></itemDefinition><decision id="d" name="d"><literalExpression><text>1</text></literalExpression></decision></definitions>`,
		"types that double":         header + `<itemDefinition name="t0"><typeRef>number</typeRef></itemDefinition>` + build(`<itemDefinition name="t#"><itemComponent name="a"><typeRef>t@</typeRef></itemComponent><itemComponent name="b"><typeRef>t@</typeRef></itemComponent></itemDefinition>`, 64) + `<inputData id="i" name="i"><variable name="i" typeRef="t63"/></inputData><decision id="d" name="d"><literalExpression><text>1</text></literalExpression></decision></definitions>`,
		"invocations that double":   header + first + build(fmt.Sprintf(knowledge, "<literalExpression><text>[f@(), f@()]</text></literalExpression>"), 64) + knows(63) + "</definitions>",
		"boxed ones that double":    header + first + build(fmt.Sprintf(knowledge, "<list>"+invocation+invocation+"</list>"), 64) + knows(63) + "</definitions>",
		"calls in a row":            header + first + build(fmt.Sprintf(knowledge, "<literalExpression><text>f@()</text></literalExpression>"), 5000) + knows(4999) + "</definitions>",
		"calls of great contexts":   greatContexts("number", "f(o)", ` typeRef="t"`),
		"calls of counted contexts": greatContexts("number", "0.5", ` typeRef="t"`),
		"calls of dated contexts":   greatContexts("date", "f(o)", ` typeRef="t"`),
		"calls of open contexts":    greatContexts("number", "f(o)", ""),
		"contexts beside numbers":   strings.ReplaceAll(greatContexts("number", "0.5", ` typeRef="t"`), ",f(o)", ",o,1,o,1,o,1"),
		"a literal of a megabyte":   decided("a + 0." + strings.Repeat("0", 1<<20) + "1"),
		"a long name":               header + `<inputData name="` + strings.Repeat("a ", 500_000) + `"/></definitions>`,
		"services without inputs":   header + repeated(200, `<inputData id="i#" name="i#"/>`) + `<decision id="d" name="d">` + strings.ReplaceAll(repeated(200, `<informationRequirement><requiredInput href="&hash;i#"/></informationRequirement>`), "&hash;", "#") + `<literalExpression><text>1</text></literalExpression></decision>` + strings.ReplaceAll(repeated(10_000, `<decisionService id="s#" name="s#"><outputDecision href="&hash;d"/></decisionService>`), "&hash;", "#") + "</definitions>",
		"values and literals":       header + `<decision id="d" name="d"><decisionTable><output name="r"><outputValues><text>0` + repeated(30_000, `,#`) + `</text></outputValues></output>` + strings.Repeat(`<rule><outputEntry><text>-1</text></outputEntry></rule>`, 30_000) + "</decisionTable></decision></definitions>",
		"ranges and literals":       header + `<decision id="d" name="d"><decisionTable><output name="r"><outputValues><text>0` + repeated(30_000, `,[#..#]`) + `</text></outputValues></output>` + strings.Repeat(`<rule><outputEntry><text>-1</text></outputEntry></rule>`, 30_000) + "</decisionTable></decision></definitions>",
		"invocations in each other": header + first + build(fmt.Sprintf(knowledge, "<list>"+invocation+"</list>"), 2000) + knows(1999) + "</definitions>",
	} {
		t.Run(name, func(t *testing.T) {
			path := file(t, text)
			before := time.Now()
			status, out, errs := imports(path)
			if status != 3 || out != "" || !strings.HasPrefix(errs, path+":1:") {
				t.Errorf("status %d, %d bytes, and %.300s", status, len(out), errs)
			}
			t.Logf("%d bytes took %v", len(text), time.Since(before))
		})
	}
}

// BenchmarkImport imports a file of 500 decisions, each a table that needs the one before it.
func BenchmarkImport(b *testing.B) {
	table := `<decision id="d#" name="decision #"><informationRequirement><requiredInput href="&hash;a"/></informationRequirement>` +
		`<decisionTable><input><inputExpression typeRef="number"><text>a</text></inputExpression></input><output name="r"/>` +
		strings.Repeat(`<rule><inputEntry><text>&lt; 5</text></inputEntry><outputEntry><text>"x"</text></outputEntry></rule>`, 10) +
		`</decisionTable></decision>`
	text := header + `<inputData id="a" name="a"/>` + strings.ReplaceAll(repeated(500, table), "&hash;", "#") + "</definitions>"
	path := filepath.Join(b.TempDir(), "f.dmn")
	if err := os.WriteFile(path, []byte(text), 0o600); err != nil {
		b.Fatal(err)
	}
	for i := 0; i < b.N; i++ {
		if status, _, errs := imports(path); status != 0 {
			b.Fatal(errs)
		}
	}
}
