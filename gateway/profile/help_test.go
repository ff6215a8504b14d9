package profile_test

import (
	"bufio"
	"encoding/json"
	"fmt"
	"os"
	"os/exec"
	"path/filepath"
	"strings"
	"testing"

	"gateway/dmn"
	"gateway/model"
	"gateway/profile"
)

// definitions puts parts of a model into a file of DMN 1.3.
func definitions(parts ...string) string {
	return `<definitions xmlns="https://www.omg.org/spec/DMN/20191111/MODEL/" name="m" namespace="test">` +
		strings.Join(parts, "\n") + `</definitions>`
}

var escaper = strings.NewReplacer("&", "&amp;", "<", "&lt;", ">", "&gt;", `"`, "&quot;")

// input returns an inputData; of is its type, or empty.
func input(name, of string) string {
	variable := ""
	if of != "" {
		variable = fmt.Sprintf(`<variable name="%s" typeRef="%s"/>`, escaper.Replace(name), of)
	}
	return fmt.Sprintf(`<inputData id="%[1]s" name="%[1]s">%[2]s</inputData>`, escaper.Replace(name), variable)
}

// requirements writes the requirements of a decision: names of decisions begin with "d:", of business knowledge with
// "k:".
func requirements(needs []string) string {
	var all strings.Builder
	for _, need := range needs {
		need = escaper.Replace(need)
		switch {
		case strings.HasPrefix(need, "d:"):
			fmt.Fprintf(&all, `<informationRequirement><requiredDecision href="#%s"/></informationRequirement>`, need[2:])
		case strings.HasPrefix(need, "k:"):
			fmt.Fprintf(&all, `<knowledgeRequirement><requiredKnowledge href="#%s"/></knowledgeRequirement>`, need[2:])
		default:
			fmt.Fprintf(&all, `<informationRequirement><requiredInput href="#%s"/></informationRequirement>`, need)
		}
	}
	return all.String()
}

// decision returns a decision with the XML of its logic.
func decision(name, of, logic string, needs ...string) string {
	variable := ""
	if of != "" {
		variable = fmt.Sprintf(`<variable name="%s" typeRef="%s"/>`, escaper.Replace(name), of)
	}
	return fmt.Sprintf(`<decision id="%[1]s" name="%[1]s">%[2]s%[3]s%[4]s</decision>`, escaper.Replace(name), variable,
		requirements(needs), logic)
}

// literal returns a literal expression.
func literal(text string) string {
	return "<literalExpression><text>" + escaper.Replace(text) + "</text></literalExpression>"
}

// column is an input or output column: its expression or name, its type, and its values if any.
type column struct{ text, of, values, fallback string }

// table returns a decision table. Each row has its input entries, then its output entries.
func table(attributes string, inputs, outputs []column, rows ...[]string) string {
	var all strings.Builder
	fmt.Fprintf(&all, "<decisionTable %s>", attributes)
	for _, c := range inputs {
		fmt.Fprintf(&all, `<input><inputExpression%s><text>%s</text></inputExpression>%s</input>`, typeRef(c.of),
			escaper.Replace(c.text), element("inputValues", c.values))
	}
	for _, c := range outputs {
		fmt.Fprintf(&all, `<output name="%s"%s>%s%s</output>`, c.text, typeRef(c.of), element("outputValues", c.values),
			element("defaultOutputEntry", c.fallback))
	}
	for _, row := range rows {
		all.WriteString("<rule>")
		for i, cell := range row {
			tag := "inputEntry"
			if i >= len(inputs) {
				tag = "outputEntry"
			}
			fmt.Fprintf(&all, "<%[1]s><text>%[2]s</text></%[1]s>", tag, escaper.Replace(cell))
		}
		all.WriteString("</rule>")
	}
	return all.String() + "</decisionTable>"
}

func typeRef(of string) string {
	if of == "" {
		return ""
	}
	return fmt.Sprintf(` typeRef="%s"`, of)
}

func element(tag, text string) string {
	if text == "" {
		return ""
	}
	return fmt.Sprintf("<%[1]s><text>%[2]s</text></%[1]s>", tag, escaper.Replace(text))
}

// knowledge returns a business knowledge model; parameters are "name" or "name:type".
func knowledge(name string, parameters []string, logic string, needs ...string) string {
	var all strings.Builder
	for _, p := range parameters {
		named, of, _ := strings.Cut(p, ":")
		fmt.Fprintf(&all, `<formalParameter name="%s"%s/>`, named, typeRef(of))
	}
	return fmt.Sprintf(`<businessKnowledgeModel id="%[1]s" name="%[1]s"><variable name="%[1]s"/><encapsulatedLogic>%[2]s%[3]s`+
		`</encapsulatedLogic>%[4]s</businessKnowledgeModel>`, name, all.String(), logic, requirements(needs))
}

// imported translates a file. The refusals are nil if it is accepted.
func imported(t testing.TB, file string) (*profile.Result, []profile.Refusal) {
	t.Helper()
	read, err := dmn.Read("test.dmn", strings.NewReader(file))
	if err != nil {
		t.Fatalf("the file is not read: %v\n%s", err, file)
	}
	return profile.Import([]*dmn.File{read}, profile.Options{})
}

// taken translates a file that has to be accepted.
func taken(t testing.TB, file string) *profile.Result {
	t.Helper()
	result, refusals := imported(t, file)
	for _, r := range refusals {
		t.Errorf("refused: %s", r)
	}
	if result == nil {
		t.FailNow()
	}
	return result
}

// refusedWith translates a file that has to be refused in exactly one place, with some words in the reason.
func refusedWith(t testing.TB, file, words string) profile.Refusal {
	t.Helper()
	result, refusals := imported(t, file)
	if result != nil {
		line, _ := profile.Line(&result.Model)
		t.Fatalf("it is taken: %s", line)
	}
	if len(refusals) != 1 || !strings.Contains(refusals[0].Why, words) {
		t.Fatalf("one refusal with %q is due, and these came: %v", words, refusals)
	}
	if refusals[0].Line == 0 || refusals[0].Column == 0 || refusals[0].File != "test.dmn" {
		t.Errorf("the refusal has no place: %s", refusals[0])
	}
	return refusals[0]
}

// logicOf returns the JSON of a decision's logic.
func logicOf(t testing.TB, result *profile.Result, word string) string {
	t.Helper()
	for _, d := range result.Model.Decisions {
		if d.Name == word {
			text, err := (&model.Model{Decisions: []model.Decision{{Expr: d.Expr}}}).JSON()
			if err != nil {
				t.Fatal(err)
			}
			return string(text)
		}
	}
	t.Fatalf("no decision %s", word)
	return ""
}

// engine returns the engine's program.
func engine(t testing.TB) string {
	t.Helper()
	if path := os.Getenv("DESK_ENGINE"); path != "" {
		return path
	}
	path := filepath.Join("..", "..", "dist", "desk")
	if _, err := os.Stat(path); err != nil {
		t.Skipf("the engine is not built: %v", err)
	}
	return path
}

// desk is a running engine that answers line by line.
type desk struct {
	t   testing.TB
	in  *bufio.Writer
	out *bufio.Scanner
}

func startDesk(t testing.TB) *desk {
	t.Helper()
	command := exec.Command(engine(t), "serve", "--workers", "1")
	in, err := command.StdinPipe()
	if err != nil {
		t.Fatal(err)
	}
	out, err := command.StdoutPipe()
	if err != nil {
		t.Fatal(err)
	}
	if err := command.Start(); err != nil {
		t.Fatal(err)
	}
	t.Cleanup(func() { in.Close(); command.Wait() })
	scanner := bufio.NewScanner(out)
	scanner.Buffer(nil, 4<<20)
	return &desk{t, bufio.NewWriter(in), scanner}
}

// send sends a line and returns the line of its answer.
func (d *desk) send(line string) string {
	d.t.Helper()
	fmt.Fprintln(d.in, line)
	if err := d.in.Flush(); err != nil {
		d.t.Fatal(err)
	}
	if !d.out.Scan() {
		d.t.Fatalf("the engine ended at %s", line)
	}
	return d.out.Text()
}

// model puts a model in force.
func (d *desk) model(result *profile.Result) {
	d.t.Helper()
	line, err := profile.Line(&result.Model)
	if err != nil {
		d.t.Fatal(err)
	}
	if answer := d.send(string(line)); !strings.Contains(answer, `"model":true`) {
		d.t.Fatalf("the engine refuses the model: %s\n%s", answer, line)
	}
}

// ask returns the JSON of a service's answer.
func (d *desk) ask(service, inputs string) string {
	d.t.Helper()
	answer := d.send(fmt.Sprintf(`{"client":"t","service":%q,"inputs":%s}`, service, inputs))
	var fields map[string]json.RawMessage
	if err := json.Unmarshal([]byte(answer), &fields); err != nil {
		d.t.Fatal(err)
	}
	if fields["result"] == nil {
		return answer
	}
	return string(fields["result"])
}

// answers sends requests to a service of a file, and checks the answers.
func answers(t *testing.T, file, service string, due [][2]string) {
	t.Helper()
	result := taken(t, file)
	if t.Failed() {
		return
	}
	d := startDesk(t)
	d.model(result)
	for _, pair := range due {
		if got := d.ask(service, pair[0]); got != pair[1] {
			t.Errorf("%s of %s: %s is due, and %s came\n%s", service, pair[0], pair[1], got,
				logicOf(t, result, result.Model.Decisions[len(result.Model.Decisions)-1].Name))
		}
	}
}
