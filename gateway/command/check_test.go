package command

import (
	"encoding/json"
	"fmt"
	"os"
	"path/filepath"
	"reflect"
	"strings"
	"testing"
)

// typed is a file with a decision on a typed input.
const typed = header + `<itemDefinition name="tAge"><typeRef>number</typeRef><allowedValues><text>[0..120]</text></allowedValues></itemDefinition>` +
	`<inputData id="i" name="age"><variable name="age" typeRef="tAge"/></inputData><decision id="d" name="d"><informationRequirement id="r">` +
	`<requiredInput href="#i"/></informationRequirement><literalExpression><text>age</text></literalExpression></decision></definitions>`

// engineThatKeeps returns an engine that saves its arguments and its input, and reports a valid model.
func engineThatKeeps(t *testing.T) (words, input string) {
	t.Helper()
	folder := t.TempDir()
	words, input = filepath.Join(folder, "words"), filepath.Join(folder, "input")
	const validLine = `{"lawful":true,"inputs":["age"],"decisions":[{"name":"d","kind":"expression"}],"services":[{"name":"d","parameters":["age"]}]}`
	script := fmt.Sprintf("#!/bin/sh\necho \"$*\" > %s\ncat > %s\necho '%s'\n", words, input, validLine)
	path := filepath.Join(folder, "engine")
	if err := os.WriteFile(path, []byte(script), 0o700); err != nil {
		t.Fatal(err)
	}
	t.Setenv("DESK_ENGINE", path)
	return words, input
}

// TestCheckHandsDomainsToTheEngine checks that the domains reach the engine, with the options.
func TestCheckHandsDomainsToTheEngine(t *testing.T) {
	words, input := engineThatKeeps(t)
	for _, options := range []string{"--gives --strict-null", "--tables", "--tables --strict"} {
		status, out, errs := runs("", append(append([]string{"check"}, strings.Fields(options)...), file(t, typed))...)
		if status != 0 || !strings.HasPrefix(out, "lawful\n") {
			t.Fatalf("status %d: %s%s", status, out, errs)
		}
		if said, err := os.ReadFile(words); err != nil || string(said) != "check --json "+options+"\n" {
			t.Errorf("%v: the words are %s", err, said)
		}
		text, err := os.ReadFile(input)
		var line struct {
			Model   map[string]json.RawMessage
			Domains map[string]string
		}
		if err != nil || json.Unmarshal(text, &line) != nil {
			t.Fatalf("%v: %s", err, text)
		}
		if due := map[string]string{"age": "[0..120]"}; !reflect.DeepEqual(line.Domains, due) || string(line.Model["inputs"]) != `["age"]` {
			t.Errorf("%s: the line is %s", options, text)
		}
	}
}

// TestImportWritesDomains expects domains next to the model, and not in its line.
func TestImportWritesDomains(t *testing.T) {
	path := file(t, typed)
	for _, it := range []struct {
		words []string
		due   string
	}{{nil, `"domains":{"age":"[0..120]"},"required":["age"]`}, {[]string{"--nullable", "age"}, `"domains":{"age":"[0..120], null"},"places":`}} {
		if _, out, errs := imports(append(it.words, path)...); !strings.Contains(out, it.due) {
			t.Errorf("%s%s", out, errs)
		}
	}
	if _, out, _ := imports("--line", path); strings.Contains(out, "domains") {
		t.Errorf("the line is %s", out)
	}
}

// parted is a file with an input of a structure.
const parted = header + `<itemDefinition name="t"><itemComponent name="Net pay"><typeRef>number</typeRef><allowedValues><text>[0..9]</text></allowedValues>` +
	`</itemComponent></itemDefinition><inputData id="i" name="a"><variable name="a" typeRef="t"/></inputData><decision id="d" name="d">` +
	`<informationRequirement id="r"><requiredInput href="#i"/></informationRequirement><literalExpression><text>a.Net pay</text></literalExpression>` +
	`</decision></definitions>`

// TestImportWritesComponents expects domains of components by their paths, and nullable ones by names or by words.
func TestImportWritesComponents(t *testing.T) {
	path := file(t, parted)
	for _, it := range []struct {
		words  []string
		status int
		due    string
	}{
		{nil, 0, `"domains":{"a":"not(null)","a.Net_pay":"[0..9]"},"required":["a","a.Net_pay"]`},
		{[]string{"--nullable", "a.Net pay"}, 0, `"domains":{"a":"not(null)","a.Net_pay":"[0..9], null"},"required":["a"]`},
		{[]string{"--nullable", "a.Net_pay"}, 0, `"a.Net_pay":"[0..9], null"},"required":["a"]`},
		{[]string{"--nullable", "a"}, 0, `"domains":{"a.Net_pay":"[0..9], null"},"places":`},
		{[]string{"--nullable", "a.pay"}, 2, "--nullable a.pay: there is no such input, and no such component of one; there are a"},
		{[]string{"--nullable", "pay"}, 2, "--nullable pay: there is no such input"},
	} {
		if status, out, errs := imports(append(it.words, path)...); status != it.status || !strings.Contains(out+errs, it.due) {
			t.Errorf("%q: %d %s%s, and %s is due", it.words, status, out, errs, it.due)
		}
	}
}

// TestCheckOfComponents gives an engine the domains of components.
func TestCheckOfComponents(t *testing.T) {
	path := file(t, parted)
	_, input := engineThatKeeps(t)
	status, out, errs := runs("", "check", "--gives", path)
	came, err := os.ReadFile(input)
	if due := `"domains":{"a":"not(null)","a.Net_pay":"[0..9]"}`; status != 0 || err != nil || !strings.Contains(string(came), due) {
		t.Errorf("%d %s%s: came %s, and %s is due", status, out, errs, came, due)
	}
}
