package command

import (
	"os"
	"path/filepath"
	"strings"
	"testing"
)

// tested runs cases against a file, with options.
func tested(t *testing.T, options []string, text, cases string) (status int, out, faults string) {
	t.Helper()
	path := filepath.Join(t.TempDir(), "cases.xml")
	cases = `<testCases xmlns="http://www.omg.org/spec/DMN/20160719/testcase" xmlns:xsi="http://www.w3.org/2001/XMLSchema-instance" ` +
		`xmlns:xsd="http://www.w3.org/2001/XMLSchema">` + cases + `</testCases>`
	if err := os.WriteFile(path, []byte(cases), 0o600); err != nil {
		t.Fatal(err)
	}
	return runs("", append(append([]string{"test"}, options...), file(t, text), path)...)
}

// testCase returns a test case with input 1, and a number expected of a node.
func testCase(input, node, due string) string {
	return `<testCase id="1"><inputNode name="` + input + `"><value xsi:type="xsd:decimal">1</value></inputNode><resultNode name="` +
		node + `"><expected><value xsi:type="xsd:decimal">` + due + `</value></expected></resultNode></testCase>`
}

const tested1 = header + `<inputData id="a" name="a"/><decision id="d" name="d"><informationRequirement><requiredInput href="#a"/>` +
	`</informationRequirement><literalExpression><text>a</text></literalExpression></decision>` +
	`<decision id="e" name="e"><literalExpression><text>string length("a")</text></literalExpression></decision></definitions>`

func TestCasesHaveAStatus(t *testing.T) {
	for _, c := range []struct {
		name        string
		options     []string
		cases       string
		status      int
		out, faults string
	}{
		{"it passes", nil, testCase("a", "d", "1"), 0, "1 passed, 0 failed, 0 unsupported", ""},
		{"it fails", nil, testCase("a", "d", "2"), 1, "0 passed, 1 failed, 0 unsupported", ""},
		{"what is due can't come", nil, testCase("a", "d", "1.5"), 1, "1/d FAIL due 1.5, came 1", ""},
		{"nothing is tested", nil, testCase("a", "e", "1"), 1, "0 passed, 0 failed, 1 unsupported", "nothing was tested"},
		{"there are no cases", nil, "", 1, "0 passed, 0 failed, 0 unsupported", "nothing was tested"},
		{"one is tested", nil, testCase("a", "e", "1") + testCase("a", "d", "1"), 0, "1 passed, 0 failed, 1 unsupported", ""},
		{"an unknown node", nil, testCase("a", "dd", "1"), 3, "", `resultNode "dd": no decision and no service has this name; instead: "d"`},
		{"an unknown input", nil, testCase("A", "d", "1"), 3, "", `inputNode "A": no input and no decision has this name; instead: "a"`},
		{"a decision's tests alone", []string{"--service", "d"}, testCase("a", "e", "1") + testCase("a", "d", "1"), 0, "1 passed, 0 failed, 0 unsupported",
			`1 result nodes of others than "d" are left out`},
		{"an unknown service", []string{"--service", "f"}, testCase("a", "d", "1"), 3, "", `no service and no decision "f"`},
	} {
		t.Run(c.name, func(t *testing.T) {
			status, out, faults := tested(t, c.options, tested1, c.cases)
			if status != c.status || !strings.Contains(out, c.out) || !strings.Contains(faults, c.faults) ||
				(c.faults == "") != (faults == "") {
				t.Errorf("status %d\n%s%s", status, out, faults)
			}
		})
	}
}

func TestCasesOfInputsThatNothingDeclares(t *testing.T) {
	const undrawn = header + `<decision id="d" name="d"><decisionTable><input><inputExpression typeRef="number"><text>b c</text>` +
		`</inputExpression></input><output name="r"/><rule><inputEntry><text>1</text></inputEntry><outputEntry><text>2</text>` +
		`</outputEntry></rule></decisionTable></decision>`
	status, out, faults := tested(t, []string{"--free-inputs"}, undrawn+"</definitions>", testCase("b c", "d", "2"))
	if status != 0 || faults != "" || !strings.HasPrefix(out, "1/d PASS") {
		t.Errorf("status %d\n%s%s", status, out, faults)
	}
	// In a part of the file a name is still that of a decision which isn't required.
	other := `<decision id="e" name="b c"><literalExpression><text>1</text></literalExpression></decision></definitions>`
	status, out, faults = tested(t, []string{"--free-inputs"}, undrawn+other, testCase("b c", "d", "2"))
	if status != 1 || !strings.Contains(out, "no name in scope") {
		t.Errorf("status %d\n%s%s", status, out, faults)
	}
}
