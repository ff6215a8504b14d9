package profile_test

import (
	"encoding/json"
	"fmt"
	"math/rand"
	"os"
	"sort"
	"strconv"
	"strings"
	"testing"

	"gateway/decimal"
	"gateway/dmn"
	"gateway/feel"
	"gateway/profile"
)

// A writer writes texts with decimals, all of whose constructs have an exact form.
type writer struct {
	*rand.Rand
	depth int
	// literals are the ones written so far.
	literals []string
	names    []string
	// dated is true if dates and durations are written too.
	dated bool
	// mixes is true if values of a wrong kind are written at times.
	mixes bool
}

func (w *writer) one(texts ...string) string { return texts[w.Intn(len(texts))] }

func (w *writer) literal() string {
	made := w.one("0", "1", "2", "12", "100", "0.5", "1.5", "0.19", "0.05", "1.015", "2.25", "0.005", "99.95", "1.19", "0.125", "10.5", "0.36", "3")
	w.literals = append(w.literals, made)
	return made
}

func (w *writer) name() string { return w.one(w.names...) }

// number writes a number that isn't a quotient.
func (w *writer) number() string {
	w.depth++
	defer func() { w.depth-- }()
	if w.depth > 3 || w.Intn(4) == 0 {
		return w.one(w.name(), w.name(), w.literal())
	}
	if w.dated && w.Intn(3) == 0 {
		return w.numberOfDates()
	}
	if w.mixes && w.Intn(12) == 0 {
		return w.other()
	}
	switch w.Intn(22) {
	case 0, 1:
		return fmt.Sprintf("%s + %s", w.number(), w.number())
	case 2, 3:
		return fmt.Sprintf("%s - (%s)", w.number(), w.number())
	case 4, 5:
		return fmt.Sprintf("%s * %s", w.name(), w.literal())
	case 6:
		return fmt.Sprintf("(%s) * %s", w.number(), w.name())
	case 7:
		return fmt.Sprintf("-(%s)", w.number())
	case 8:
		return fmt.Sprintf("abs(%s)", w.number())
	case 9:
		return fmt.Sprintf("%s(%s, %s)", w.one("min", "max", "sum"), w.number(), w.number())
	case 10, 11:
		return fmt.Sprintf("(if %s then %s else %s)", w.condition(), w.number(), w.number())
	case 12, 13:
		return w.rounding(w.number())
	case 14:
		return fmt.Sprintf("(%s) / %s", w.number(), w.one("2", "4", "8", "100", "10", "0.5", "1.25"))
	case 15, 16:
		return w.rounding(fmt.Sprintf("(%s) / %s", w.number(), w.one("3", "12", "7", "1.19", "365", "(1 + 0.19)")))
	case 17:
		return w.rounding(fmt.Sprintf("(%s) / (%s)", w.rounded(), w.rounded()))
	case 18:
		return fmt.Sprintf("modulo(%s, %s)", w.number(), w.one("3", "0.3", "100", "1.5"))
	case 19:
		return fmt.Sprintf("g(%s, %s)", w.number(), w.name())
	case 20:
		return fmt.Sprintf("{p: %s, q: p * 0.5}.%s", w.number(), w.one("p", "q"))
	}
	return w.one("sum(l)", "c.x", "count(l)", "max(l)", fmt.Sprintf("%s ** 2", w.name()), "u * "+w.literal(), "(u - "+w.literal()+")", "abs(u)",
		w.rounding("u"), w.rounding(w.name()+" / u"))
}

// rounded writes a number with few decimals.
func (w *writer) rounded() string {
	return w.one(w.name(), w.name(), w.literal(), fmt.Sprintf("%s + %s", w.name(), w.literal()))
}

func (w *writer) rounding(x string) string {
	return w.one(fmt.Sprintf("decimal(%s, %s)", x, w.one("2", "2", "1", "0", "-1")), fmt.Sprintf("floor(%s)", x), fmt.Sprintf("ceiling(%s)", x),
		fmt.Sprintf("%s(%s, %s)", w.one("round half up", "round up", "round down", "round half down"), x, w.one("2", "0", "1")))
}

func (w *writer) comparison() string { return w.one("<", "<=", ">", ">=", "=", "!=") }

func (w *writer) condition() string {
	w.depth++
	defer func() { w.depth-- }()
	if w.dated && w.Intn(2) == 0 {
		return w.conditionOfDates()
	}
	switch w.Intn(12) {
	case 0, 1, 2:
		return fmt.Sprintf("%s %s %s", w.number(), w.comparison(), w.literal())
	case 3, 4:
		return fmt.Sprintf("%s %s %s", w.number(), w.comparison(), w.number())
	case 5:
		return fmt.Sprintf("%s / %s %s %s", w.name(), w.name(), w.comparison(), w.literal())
	case 6:
		return fmt.Sprintf("%s / %s %s %s", w.name(), w.one("3", "7", "1.19"), w.comparison(), w.rounded())
	case 7:
		return fmt.Sprintf("%s / %s %s %s / %s", w.name(), w.name(), w.comparison(), w.name(), w.one(w.name(), "3"))
	case 8:
		return fmt.Sprintf("%s in %s", w.name(), w.interval())
	case 9:
		return fmt.Sprintf("%s between %s and %s", w.name(), w.literal(), w.rounded())
	case 10:
		return fmt.Sprintf("not(%s)", w.condition())
	}
	return w.one(`s = "a"`, "f", "u "+w.comparison()+" "+w.literal(), "u "+w.one("<", ">")+" "+w.name(), fmt.Sprintf("%s in (%s, > %s)", w.name(), w.literal(), w.literal()))
}

func (w *writer) interval() string {
	return w.one("[", "(") + w.literal() + ".." + w.literal() + w.one("]", ")")
}

// result writes an expression for the result of a decision.
func (w *writer) result() string {
	if w.dated && w.Intn(2) == 0 {
		return w.resultOfDates()
	}
	switch w.Intn(12) {
	case 10:
		return fmt.Sprintf("if %s then u else %s", w.condition(), w.one(w.name(), w.literal(), `"none"`))
	case 11:
		return fmt.Sprintf("[%s, l]", w.name())
	case 0:
		return w.condition()
	case 1:
		return fmt.Sprintf("(%s) / %s", w.number(), w.one("3", "7", "1.19", "12"))
	case 2:
		return fmt.Sprintf("{p: %s, q: %s, t: s}", w.number(), w.number())
	case 3:
		return fmt.Sprintf("[%s, %s, null]", w.number(), w.number())
	case 4:
		return fmt.Sprintf("if %s then %s / 3 else %s", w.condition(), w.name(), w.number())
	}
	return w.number()
}

// entry writes an input entry for a number.
func (w *writer) entry() string {
	return w.one("-", w.one("< ", "<= ", "> ", ">= ")+w.rounded(), w.interval(), w.interval(), w.literal(), w.literal()+", "+w.literal(),
		fmt.Sprintf("not(%s)", w.literal()), "null", fmt.Sprintf("? * 2 > %s", w.literal()))
}

// A generated is a file with its texts: decisions e and d of expressions, d over e, and a table t.
type generated struct {
	file, first, second, other string
	columns                    []string
	rows                       [][]string
	hit                        string
}

func generate(w *writer) generated {
	it := generated{hit: w.one("UNIQUE", "FIRST", "COLLECT", "COLLECT SUM", "COLLECT MIN", "COLLECT MAX", "RULE ORDER")}
	w.names = []string{"a", "b", "x", "y", "c.x", "r"}
	it.first = w.number()
	w.names = append(w.names, "e", "e")
	it.second = w.result()
	w.names = w.names[:6]
	it.columns = []string{w.one("a", "b", w.number()), w.one("x / y", "(a + b) / x", "y", "a / 7")}
	for i := 0; i < 3; i++ {
		second := w.entry()
		if strings.Contains(second, "? *") && strings.Contains(it.columns[1], "/") {
			second = "-"
		}
		it.rows = append(it.rows, []string{w.entry(), second, w.number()})
	}
	of := "number"
	if w.dated {
		of = it.overDates(w)
	}
	policy, aggregation, _ := strings.Cut(it.hit, " ")
	if policy == "RULE" {
		policy, aggregation = it.hit, ""
	}
	attributes := fmt.Sprintf(`hitPolicy=%q`, policy)
	if aggregation != "" {
		attributes += fmt.Sprintf(` aggregation=%q`, aggregation)
	}
	if w.Intn(3) == 0 && policy != "RULE ORDER" && (policy != "COLLECT" || aggregation != "") {
		it.other = map[string]func() string{"number": w.number, "date": w.date}[of]()
	}
	t := table(attributes, []column{{text: it.columns[0]}, {text: it.columns[1]}}, []column{{text: "r", of: of, fallback: it.other}}, it.rows...)
	needs := decimalNeeds
	parts := decimalParts()
	if w.dated {
		parts, needs = append(parts, generatedDateParts...), append(generatedDateNeeds, needs...)
	}
	parts = append(parts, decision("e", "", literal(it.first), needs...), decision("d", "", literal(it.second), append([]string{"d:e"}, needs...)...),
		decision("t", "", t, needs...))
	it.file = definitions(parts...)
	return it
}

// decimalsOf returns the number of decimals in a schema.
func decimalsOf(schema json.RawMessage) int {
	var form struct {
		MultipleOf string      `json:"-"`
		Raw        json.Number `json:"multipleOf"`
	}
	if json.Unmarshal(schema, &form) != nil || form.Raw == "" {
		return 0
	}
	_, after, _ := strings.Cut(form.Raw.String(), ".")
	return len(after)
}

// request writes inputs near the literals of a file, each in the unit of its type.
func (w *writer) request(result *profile.Result) string {
	number := func(schema json.RawMessage) string {
		places := decimalsOf(schema)
		units := w.Intn(4000) - 1000
		switch w.Intn(6) {
		case 0, 1:
			if len(w.literals) > 0 {
				digits, _ := decimal.Unit{Decimals: 3}.Units(w.literals[w.Intn(len(w.literals))])
				at, _ := strconv.Atoi(digits)
				for i := places; i < 3; i++ {
					at /= 10
				}
				units = at + w.Intn(3) - 1
			}
		case 2:
			units = w.Intn(1_000_000_000)
		case 3:
			units = []int{0, 1, -1, 5, -5, 15, 25, 50, 100, -100, 12, 36}[w.Intn(12)]
		}
		return decimal.Unit{Decimals: places}.Text(strconv.Itoa(units))
	}
	var inputs []string
	for _, name := range []string{"a", "b", "x", "y"} {
		if w.Intn(12) > 0 {
			inputs = append(inputs, fmt.Sprintf("%q:%s", name, number(result.Types[name])))
		}
	}
	var list struct{ Items json.RawMessage }
	_ = json.Unmarshal(result.Types["l"], &list)
	var record struct{ Properties map[string]json.RawMessage }
	_ = json.Unmarshal(result.Types["c"], &record)
	inputs = append(inputs, fmt.Sprintf(`"l":[%s,%s]`, number(list.Items), number(list.Items)), fmt.Sprintf(`"c":{"x":%s,"y":"b"}`, number(record.Properties["x"])),
		`"s":`+w.one(`"a"`, `"b"`, "null"), `"f":`+w.one("true", "false"), `"u":`+w.one(number(result.Types["u"]), number(result.Types["u"]), "null", `"a"`), `"r":`+w.one("0", "0.125", "0.5"))
	if w.dated {
		inputs = append(inputs, w.requestOfDates()...)
	}
	return "{" + strings.Join(inputs, ",") + "}"
}

// due returns what a decision of a generated file should answer.
func (it *generated) due(t *testing.T, service string, values decimals) any {
	scope := decimalScope()
	for _, name := range append([]string{"e"}, generatedDateNeeds...) {
		scope.Add(name)
	}
	read := func(text string) feel.Node {
		node, fault := feel.Expression(text, scope, nil)
		if fault != nil {
			t.Fatalf("%s: %v", text, fault)
		}
		return node
	}
	switch service {
	case "e":
		return values.value(read(it.first))
	case "d":
		return values.with("e", values.value(read(it.first))).value(read(it.second))
	}
	columns := []any{values.value(read(it.columns[0])), values.value(read(it.columns[1]))}
	var hits []any
	for _, row := range it.rows {
		hit := true
		for i, x := range columns {
			tests, fault := feel.Tests(row[i], scope, nil)
			if fault != nil {
				t.Fatalf("%s: %v", row[i], fault)
			}
			hit = hit && values.anyTest(tests, x) == true
		}
		if hit {
			hits = append(hits, values.value(read(row[2])))
		}
	}
	switch {
	case len(hits) == 0 && it.other != "":
		return values.value(read(it.other))
	case len(hits) == 0:
		return nil
	case strings.HasPrefix(it.hit, "COLLECT "):
		return aggregated(strings.ToLower(strings.TrimPrefix(it.hit, "COLLECT ")), []any{hits})
	case it.hit == "COLLECT" || it.hit == "RULE ORDER":
		return hits
	case it.hit == "UNIQUE" && len(hits) > 1:
		return nil
	}
	return hits[0]
}

// TestGeneratedDecimals checks generated files against the evaluator: no answer differs, nearly all files are accepted,
// and few answers are limit errors. DECIMAL_FILES sets how many files, DECIMAL_SEED the seed.
func TestGeneratedDecimals(t *testing.T) {
	files, seed := 120, int64(1)
	if text := os.Getenv("DECIMAL_FILES"); text != "" {
		files, _ = strconv.Atoi(text)
	}
	if text := os.Getenv("DECIMAL_SEED"); text != "" {
		seed, _ = strconv.ParseInt(text, 10, 64)
	}
	t.Run("numbers", func(t *testing.T) { holdGenerated(t, files, seed, false) })
	t.Run("dates", func(t *testing.T) { holdGenerated(t, files, seed, true) })
}

func holdGenerated(t *testing.T, files int, seed int64, dated bool) {
	d := startDesk(t)
	refused, counts := map[string]int{}, map[string]int{}
	for i := 0; i < files && !t.Failed(); i++ {
		w := &writer{Rand: rand.New(rand.NewSource(seed*1_000_003 + int64(i))), dated: dated}
		it := generate(w)
		read, err := dmn.Read("test.dmn", strings.NewReader(it.file))
		if err != nil {
			t.Fatal(err)
		}
		result, refusals := profile.Import([]*dmn.File{read}, profile.Options{})
		if result == nil {
			counts["refused"]++
			refused[refusals[0].Why]++
			continue
		}
		d.model(result)
		for j := 0; j < 6; j++ {
			inputs := w.request(result)
			values := decimalValues(t, inputs)
			if dated {
				values.readDates(t)
			}
			for _, service := range []string{"e", "d", "t"} {
				came := countedAsk(d, result, service, inputs)
				counts["answers"]++
				if came == "limit" {
					counts["limit"]++
					continue
				}
				if due := decimalText(it.due(t, service, values)); came != due {
					t.Errorf("file %d: %s of %s: %s is due, and %s came\ne: %s\nd: %s\nt: %s %q %q", i, service, inputs, due, came, it.first, it.second,
						it.hit, it.columns, it.rows)
				}
			}
		}
	}
	reasons := make([]string, 0, len(refused))
	for why := range refused {
		reasons = append(reasons, fmt.Sprintf("%d %s", refused[why], why))
	}
	sort.Strings(reasons)
	t.Logf("%d files, %d refused, %d answers, %d of them limit\n%s", files, counts["refused"], counts["answers"], counts["limit"], strings.Join(reasons, "\n"))
	if counts["refused"]*20 > files {
		t.Errorf("%d of %d files are refused", counts["refused"], files)
	}
	if counts["limit"]*100 > counts["answers"] {
		t.Errorf("%d of %d answers are limits", counts["limit"], counts["answers"])
	}
}
