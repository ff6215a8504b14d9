package domain

import (
	"bytes"
	"encoding/json"
	"fmt"
	"os"
	"os/exec"
	"strings"
	"testing"
	"time"

	"gateway/domain/domaintest"
)

// drawnValues is how many values of each domain a run compares with the engine, atOnce how many domains one engine gets.
const (
	drawnValues = 24
	atOnce      = 100
)

// drawnDomains is how many domains a run compares with the engine.
func drawnDomains() int {
	if testing.Short() {
		return 3 * atOnce
	}
	return 13 * atOnce
}

// engineOf returns what the engine answers to lines.
func engineOf(t *testing.T, input []byte, words ...string) [][]byte {
	t.Helper()
	run := exec.Command(os.Getenv("DESK_ENGINE"), words...)
	run.Stdin = bytes.NewReader(input)
	output, _ := run.Output()
	return bytes.Split(bytes.TrimSpace(output), []byte("\n"))
}

func marshal(t *testing.T, value any) []byte {
	t.Helper()
	text, err := json.Marshal(value)
	if err != nil {
		t.Fatal(err)
	}
	return text
}

// tested returns a model with the services s0, s1 .. , of which each gives true if the value at a path lies in the domain. Null at the path
// is always in, as far as nulls says so.
func tested(t *testing.T, path string, nulls bool, domains []string) []byte {
	t.Helper()
	type object = map[string]any
	rule := func(test string) object { return object{"when": []string{test}, "then": []string{"true"}} }
	var decisions, services []object
	for at, domain := range domains {
		name := fmt.Sprintf("d%d", at)
		rules := []object{rule(domain)}
		if nulls {
			rules = append(rules, rule("null"))
		}
		decisions = append(decisions, object{"name": name, "needs": []string{"x"}, "expr": object{"table": object{"hit": "F", "inputs": []string{path},
			"outputs": []object{{"name": "o", "default": "false"}}, "rules": rules}}})
		services = append(services, object{"name": fmt.Sprintf("s%d", at), "outputs": []string{name}, "encapsulated": []string{},
			"inputDecisions": []string{}, "inputData": []string{"x"}})
	}
	return append(marshal(t, object{"model": object{"inputs": []string{"x"}, "decisions": decisions, "services": services}}), '\n')
}

// asked asks an engine about values for each service of a model. It returns true for those that lie in the domain; a broken limit is none.
func asked(t *testing.T, model []byte, values [][]string) []bool {
	t.Helper()
	input := append([]byte(nil), model...)
	count := 0
	for at, some := range values {
		for _, value := range some {
			input = append(input, fmt.Sprintf(`{"client":"c","service":"s%d","inputs":{"x":%s}}`+"\n", at, value)...)
			count++
		}
	}
	answers := make([]bool, count)
	found := 0
	for _, line := range engineOf(t, input, "serve") {
		var answer struct {
			Ticket *int
			Result any
			Fault  string
		}
		if json.Unmarshal(line, &answer) != nil || answer.Fault != "" && answer.Fault != "limit" {
			t.Fatalf("%s", line)
		}
		if answer.Ticket != nil {
			answers[*answer.Ticket], found = answer.Result == true, found+1
		}
	}
	if found != count {
		t.Fatalf("%d answers of %d", found, count)
	}
	return answers
}

// TestEngineHasTheSame compares with the engine which drawn values lie in drawn domains.
func TestEngineHasTheSame(t *testing.T) {
	seed := time.Now().UnixNano()
	draw, faults, inside, all := domaintest.New(seed), 0, 0, 0
	for done := 0; done < drawnDomains() && faults < 20; done += atOnce {
		var domains []string
		var values [][]string
		for len(domains) < atOnce {
			domain := draw.Domain()
			if _, is := Read(domain); !is {
				continue
			}
			some := make([]string, drawnValues)
			for at := range some {
				some[at] = draw.Value(2)
			}
			domains, values = append(domains, domain), append(values, some)
		}
		answers := asked(t, tested(t, "x", false, domains), values)
		for at, domain := range domains {
			d, _ := Read(domain)
			for n, text := range values[at] {
				is, isDue := d.Has(tree(t, text)), answers[at*drawnValues+n]
				all++
				if isDue {
					inside++
				}
				if is != isDue {
					faults++
					t.Errorf("seed %d: %s in %q: %v, and %v is due", seed, text, domain, is, isDue)
				}
				if place := (&Place{own: d}); place.Holds([]byte(text)) && !isDue && text != "null" {
					faults++
					t.Errorf("seed %d: %s is seen in %q", seed, text, domain)
				}
			}
		}
	}
	if inside < all/8 || inside > all*7/8 {
		t.Errorf("seed %d: %d of %d are inside", seed, inside, all)
	}
	t.Logf("seed %d: %d of %d are inside", seed, inside, all)
}

// TestEngineHasTheSameWithin compares what paths lead to.
func TestEngineHasTheSameWithin(t *testing.T) {
	seed := time.Now().UnixNano()
	draw, faults, seen := domaintest.New(seed), 0, 0
	for done := 0; done < drawnDomains()/3 && faults < 20; done += atOnce {
		path := draw.One("x.a", "x.a.b", "x.a.a")
		var domains []string
		var values [][]string
		for len(domains) < atOnce {
			domain := draw.Domain()
			d, is := Read(domain)
			if !is || d.isBroken {
				continue
			}
			some := make([]string, drawnValues)
			for at := range some {
				some[at] = draw.Within(3)
			}
			domains, values = append(domains, domain), append(values, some)
		}
		answers := asked(t, tested(t, path, true, domains), values)
		for at, domain := range domains {
			places, unread := Places(map[string]string{path: domain})
			if unread != nil {
				t.Fatal(unread)
			}
			for n, text := range values[at] {
				isIn, isDue := places["x"].Outside(tree(t, text)) == nil, answers[at*drawnValues+n]
				isSeen := places["x"].Holds([]byte(text))
				if isSeen {
					seen++
				}
				if isIn != isDue || isSeen && !isDue {
					faults++
					t.Errorf("seed %d: %s of %s in %q: %v, seen %v, and %v is due", seed, path, text, domain, isIn, isSeen, isDue)
				}
			}
		}
	}
	if seen < drawnDomains() {
		t.Errorf("seed %d: %d are seen", seed, seen)
	}
}

// TestEngineReadsTheSame compares with the engine which drawn texts are domains.
func TestEngineReadsTheSame(t *testing.T) {
	seed := time.Now().UnixNano()
	draw, faults, read, all := domaintest.New(seed), 0, 0, 0
	for done := 0; done < 4*drawnDomains() && faults < 20; done += atOnce {
		inputs, domains := []string{}, map[string]string{}
		for len(inputs) < atOnce {
			name := fmt.Sprintf("i%d", len(inputs))
			inputs, domains[name] = append(inputs, name), draw.Broken()
		}
		model := marshal(t, map[string]any{"model": map[string]any{"inputs": inputs, "decisions": []any{}, "services": []any{}}, "domains": domains})
		isWrong := map[string]bool{}
		for _, line := range engineOf(t, model, "check", "--json", "--gives") {
			var found struct{ Fault, Pointer string }
			if json.Unmarshal(line, &found) == nil && found.Fault == "domain" {
				isWrong[strings.TrimPrefix(found.Pointer, "/domains/")] = true
			}
		}
		for name, domain := range domains {
			_, is := Read(domain)
			all++
			if is {
				read++
			}
			if is == isWrong[name] {
				faults++
				t.Errorf("seed %d: %q is read: %v, and %v is due", seed, domain, is, !is)
			}
		}
	}
	if read < all/8 || read > all*7/8 {
		t.Errorf("seed %d: %d of %d are read", seed, read, all)
	}
	t.Logf("seed %d: %d of %d are read", seed, read, all)
}
