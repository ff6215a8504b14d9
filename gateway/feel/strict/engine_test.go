package strict

import (
	"bytes"
	"encoding/json"
	"io"
	"math/rand"
	"os"
	"os/exec"
	"strconv"
	"strings"
	"testing"
	"time"
)

// texts is how many random texts a run compares with the engine.
const texts = 100_000

// atOnce is how many texts the engine gets at once, as it reports that many places.
const atOnce = 100

var pieces = []string{
	"a", "b1", "_x", "1", "23", "007", "9223372036854775807", "9223372036854775808", `"t"`, `"a\n\""`, `"bad\q"`, `"open`, "true", "false", "null",
	"if", "then", "else", "and", "or", "not", "between", "abs", "sum", "modulo", "count", "+", "-", "*", "=", "!=", "<", "<=", ">", ">=", "(", ")", "[", "]",
	",", ".", "..", "/", "?", "{", "é", "1a", "&", "!", "…", strings.Repeat("n", 64), strings.Repeat("n", 65), "\t", "\n", "not(", "if a then", "sum([",
	"else 1", "[1..5]", "(1..", "a.b", "between 1 and", "modulo(a,", "-1", ">= 5", ", ", "",
}

// randomText returns a text of pieces in a plausible or impossible order.
func randomText(random *rand.Rand) string {
	var text strings.Builder
	for count := random.Intn(12); count >= 0; count-- {
		text.WriteString(pieces[random.Intn(len(pieces))])
		if random.Intn(3) > 0 {
			text.WriteByte(' ')
		}
	}
	return text.String()
}

// validText returns a text by the grammar, with a byte or piece changed now and then.
func validText(random *rand.Rand, depth int) string {
	if depth == 0 {
		return pieces[random.Intn(15)]
	}
	part := func() string { return validText(random, depth-1-random.Intn(depth)) }
	operators := []string{"+", "-", "*", "=", "!=", "<", "<=", ">", ">=", "and", "or"}
	switch random.Intn(12) {
	case 0:
		return "if " + part() + " then " + part() + " else " + part()
	case 1:
		return "(" + part() + ")"
	case 2:
		return "[" + part() + "," + part() + "]"
	case 3:
		return "not(" + part() + ")"
	case 4:
		return "-" + part()
	case 5:
		return part() + ".entry"
	case 6:
		return "max(" + part() + ")"
	case 7:
		return "modulo(" + part() + "," + part() + ")"
	case 8:
		return part() + " between " + part() + " and " + part()
	}
	return part() + " " + operators[random.Intn(len(operators))] + " " + part()
}

func validTests(random *rand.Rand) string {
	var tests []string
	for count := random.Intn(3); count >= 0; count-- {
		one, other := validText(random, random.Intn(3)), validText(random, random.Intn(3))
		switch random.Intn(4) {
		case 0:
			tests = append(tests, "<= "+one)
		case 1:
			tests = append(tests, "[("[random.Intn(2):][:1]+one+".."+other+"])["[random.Intn(3):][:1])
		default:
			tests = append(tests, one)
		}
	}
	text := strings.Join(tests, ", ")
	if random.Intn(4) == 0 {
		return "not(" + text + ")"
	}
	return text
}

func changed(random *rand.Rand, text string) string {
	if random.Intn(2) == 0 {
		return text
	}
	at := random.Intn(len(text) + 1)
	return strings.ToValidUTF8(text[:at]+pieces[random.Intn(len(pieces))]+text[min(at+random.Intn(3), len(text)):], "?")
}

func min(one, other int) int {
	if one < other {
		return one
	}
	return other
}

func drawn(random *rand.Rand, kind Kind) string {
	switch {
	case random.Intn(3) == 0:
		return randomText(random)
	case random.Intn(40) == 0:
		return strings.Repeat("(", 60+random.Intn(8)) + "1" + strings.Repeat(")", 60+random.Intn(8))
	case random.Intn(40) == 0:
		return "1" + strings.Repeat(" + 1", 60+random.Intn(8))
	case kind == UnaryTests:
		return changed(random, validTests(random))
	case kind == Literal:
		return changed(random, []string{"- 7", `"x"`, "true", "12", "-3"}[random.Intn(5)])
	}
	return changed(random, validText(random, random.Intn(6)))
}

// modelOf returns a model with these texts, all of this kind.
func modelOf(kind Kind, texts []string) []byte {
	type any = interface{}
	var logic any = map[string]any{"list": texts}
	table := func(values any, rules []any) any {
		return map[string]any{"table": map[string]any{"hit": "C", "inputs": []string{"1"}, "rules": rules,
			"outputs": []any{map[string]any{"name": "x", "values": values}}}}
	}
	switch kind {
	case UnaryTests:
		rules := []any{}
		for _, text := range texts {
			rules = append(rules, map[string]any{"when": []string{text}, "then": []string{"1"}})
		}
		logic = table([]string{}, rules)
	case Literal:
		logic = table(texts, []any{})
	}
	model, err := json.Marshal(map[string]any{"inputs": []any{}, "services": []any{},
		"decisions": []any{map[string]any{"name": "d", "needs": []any{}, "expr": logic}}})
	if err != nil {
		panic(err)
	}
	return model
}

// indexOf returns the index of the text that a pointer leads to.
func indexOf(kind Kind, pointer string) int {
	parts := strings.Split(pointer, "/")
	at := len(parts) - 1
	if kind == UnaryTests {
		at -= 2
	}
	index, err := strconv.Atoi(parts[at])
	if err != nil {
		panic(pointer)
	}
	return index
}

// asked returns which of the texts have no reading in the engine.
func asked(engine string, kind Kind, texts []string) map[int]bool {
	run := exec.Command(engine, "check", "--json")
	run.Stdin = bytes.NewReader(modelOf(kind, texts))
	output, _ := run.Output()
	found := map[int]bool{}
	for _, line := range bytes.Split(output, []byte("\n")) {
		var one struct{ Pointer, Fault string }
		if json.Unmarshal(line, &one) == nil && one.Fault == "expression" && one.Pointer != "" {
			found[indexOf(kind, one.Pointer)] = true
		}
	}
	return found
}

func isRead(kind Kind, text string) bool {
	ok := false
	switch kind {
	case Expression:
		_, ok = ReadExpression(text)
	case UnaryTests:
		_, ok = ReadTests(text)
	case Literal:
		_, ok = ReadLiteral(text)
	}
	return ok
}

// TestEngineReadsTheSame compares with the engine whether random texts have a reading.
func TestEngineReadsTheSame(t *testing.T) {
	engine := os.Getenv("DESK_ENGINE")
	if engine == "" {
		t.Skip("DESK_ENGINE names no engine")
	}
	seed := time.Now().UnixNano()
	random := rand.New(rand.NewSource(seed))
	count := texts
	if testing.Short() {
		count /= 100
	}
	valid, faults := 0, 0
	for done := 0; done < count && faults < 20; done += atOnce {
		kind := Kind(random.Intn(3))
		var some []string
		for len(some) < atOnce {
			some = append(some, drawn(random, kind))
		}
		isWrong := asked(engine, kind, some)
		for at, text := range some {
			ok := isRead(kind, text)
			if ok {
				valid++
			}
			if ok == isWrong[at] {
				faults++
				t.Errorf("seed %d, kind %d, %q: read %v; the engine: %v", seed, kind, text, ok, !isWrong[at])
			}
		}
	}
	t.Logf("%d texts, of which %d have a reading", count, valid)
}

// TestStops compares stops with rows: where each text stops, and what could be there. The rows are from an independent reader,
// the engine's up to version 0.19.
func TestStops(t *testing.T) {
	rows, err := os.Open("testdata/stops.jsonl")
	if err != nil {
		t.Fatal(err)
	}
	defer rows.Close()
	var row struct {
		Kind Kind
		Text string
		Stop int
		Due  string
	}
	count := 0
	for decoder := json.NewDecoder(rows); ; count++ {
		if err := decoder.Decode(&row); err == io.EOF {
			break
		} else if err != nil {
			t.Fatal(err)
		}
		if stop := StopOf(row.Kind, row.Text); isRead(row.Kind, row.Text) || stop.At != row.Stop || stop.DueText() != row.Due {
			t.Errorf("kind %d, %q: %d %s, and %d %s is due", row.Kind, row.Text, stop.At, stop.DueText(), row.Stop, row.Due)
		}
	}
	if count < 1_000 {
		t.Errorf("%d rows", count)
	}
}
