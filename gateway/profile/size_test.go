package profile_test

import (
	"fmt"
	"strings"
	"syscall"
	"testing"

	"gateway/profile"
)

// mostSeconds is how much processor time the import of a file of this test may take. It takes a tenth of that, and took
// many times more when some work grew with the square of the file.
const mostSeconds = 3.0

// processorTime returns the processor time of this process so far, in seconds.
func processorTime(t *testing.T) (all float64) {
	t.Helper()
	var used syscall.Rusage
	if err := syscall.Getrusage(syscall.RUSAGE_SELF, &used); err != nil {
		t.Fatal(err)
	}
	for _, it := range []syscall.Timeval{used.Utime, used.Stime} {
		all += float64(it.Sec) + float64(it.Usec)/1e6
	}
	return all
}

// filled returns a text repeated up to a size, with a joint in between.
func filled(text, joint string, size int) string {
	return strings.TrimSuffix(strings.Repeat(text+joint, size/len(text+joint)), joint)
}

const dearSize, halfSize = 100_000, 50_000

// overX returns a file with a decision q over a number x.
func overX(text string) string {
	return definitions(input("x", "number"), decision("q", "", literal(text), "x"))
}

// dearContexts returns files over contexts with thousands of entries, from an undeclared input.
func dearContexts() map[string]string {
	var entries strings.Builder
	for i := 0; i < 4000; i++ {
		fmt.Fprintf(&entries, "a%d: u, ", i)
	}
	over := func(text string) string {
		return definitions(input("u", ""), decision("c", "", literal("{"+entries.String()+"z: 0.5}"), "u"),
			decision("e", "", literal("{"+entries.String()+"y: 1, z: 0.5}"), "u"),
			decision("q", "", literal("["+filled(text, ", ", halfSize)+"]"), "d:c", "d:e"))
	}
	return map[string]string{"comparisons of an open context": over("c = c"), "choices of open contexts": over("if true then c else e")}
}

// dearExpressions returns files of one long expression.
func dearExpressions() map[string]string {
	finest := "0." + strings.Repeat("0", 6000) + "1"
	long, tight := strings.Repeat("a + ", 240)+"b", strings.Repeat("a+", 450)+"b"
	return map[string]string{
		"a quotient times tens":     overX("x / 3 " + filled("* 10 / 10", " ", dearSize)),
		"roundings":                 overX(filled("decimal(x * 1.015, 2)", " + ", dearSize)),
		"a list with many decimals": overX("[" + finest + ", " + filled("1", ", ", dearSize) + "]"),
		"a sum with many decimals":  overX(finest + " + " + filled("1", " + ", dearSize)),
		"deep lists":                overX("[" + filled(strings.Repeat("[", 240)+"x * 1.5"+strings.Repeat("]", 240), ", ", dearSize) + "]"),
		"deep contexts":             overX("[" + filled(strings.Repeat("{a: ", 200)+"x * 1.5"+strings.Repeat("}", 200), ", ", dearSize) + "]"),
		"powers":                    overX(filled("x**8", "+", dearSize)),
		"powers of sums":            overX(filled("(x+0.5)**3", "+", dearSize)),
		"quotients by many":         overX("[" + filled("x / 3, x / 7, x / 11, x / 13, x / 17, x / 19, x / 23", ", ", dearSize) + "]"),
		"choices of quotients":      overX("[" + filled("if x > 1 then x * 0.5 else x / 3", ", ", dearSize) + "]"),
		"names that begin alike without blanks": definitions(input("a", "number"), input(tight, "number"),
			decision("q", "", literal(filled("a", "+", dearSize)), "a", tight)),
		"names that begin alike": definitions(input("a", "number"), input(long, "number"),
			decision("q", "", literal(filled("a", " + ", dearSize)), "a", long)),
	}
}

// dearParts returns files of many parts, or with parts that are used many times.
func dearParts() map[string]string {
	var words strings.Builder
	var known, needs []string
	for i := 0; i < 500; i++ {
		name := strings.Repeat("x", 60) + fmt.Sprint(1000+i)
		words.WriteString(input(name, "") + input(name+"y", ""))
		known, needs = append(known, knowledge(fmt.Sprintf("k%d", i), nil, literal("1"))), append(needs, fmt.Sprintf("k:k%d", i))
	}
	invoked := func(body string, needs ...string) string {
		return definitions(strings.Join(known, ""), knowledge("f", nil, literal(body), needs...),
			decision("q", "", literal("["+filled("f()", ", ", halfSize)+"]"), "k:f"))
	}
	const columns = 700
	inputs, outputs, row := make([]column, columns), make([]column, columns), make([]string, 2*columns)
	for i := range inputs {
		inputs[i], outputs[i] = column{text: "x"}, column{text: fmt.Sprintf("o%d", i)}
		row[i], row[columns+i] = "1", "decimal(x * 1.015, 2)"
	}
	return map[string]string{
		"knowledge that requires much": invoked("1", needs...),
		"knowledge with a long sum":    invoked(filled("0.5", " + ", halfSize)),
		"knowledge with a long fault":  invoked(filled("0.5", " + ", halfSize) + " +"),
		"a wide table of roundings":    definitions(input("x", "number"), decision("q", "", table(first, inputs, outputs, row), "x")),
		"words that begin alike":       definitions(words.String(), decision("q", "", literal("1"))),
		"inputs of a large type":       definitions(inputsOf(largeType(900), 400), decision("q", "", literal("large0.c0 * 0.5"), "large0")),
	}
}

// dearTypes returns files whose values have large types, or types with many values.
func dearTypes() map[string]string {
	var doubled, passed, chosen, wide []string
	for i := 1; i < 40; i++ {
		doubled = append(doubled, decision(fmt.Sprintf("d%d", i), "", literal(fmt.Sprintf("{a: d%d, b: d%[1]d}", i-1)), fmt.Sprintf("d:d%d", i-1)))
	}
	for i := 0; i < 300; i++ {
		passed = append(passed, decision(fmt.Sprintf("q%d", i), "", literal("large0"), "large0"))
		chosen = append(chosen, decision(fmt.Sprintf("q%d", i), "tText", literal(fmt.Sprintf(`if x > 0.5 then t else "v%d"`, i)), "t", "x"))
	}
	var texts, numbers []string
	for i := 0; i < 5000; i++ {
		texts, numbers = append(texts, fmt.Sprintf(`"v%d"`, i)), append(numbers, fmt.Sprintf("%d.5", i))
	}
	columns := make([]column, 20)
	for i := range columns {
		wide = append(wide, fmt.Sprintf("x%d", i))
		columns[i] = column{text: wide[i], values: strings.Join(numbers[:1000], ", ")}
	}
	row := append(filledWith("1.5", len(columns)), "0.5")
	return map[string]string{
		"contexts that hold each other twice": definitions(append([]string{input("x", "number"),
			decision("d0", "", literal("{a: x, b: x * 0.5}"), "x")}, doubled...)...),
		"decisions of a large type":      definitions(append([]string{inputsOf(largeType(500), 1)}, passed...)...),
		"decisions of many values":       definitions(append([]string{item("tText", amongst("string", strings.Join(texts, ", "))), input("t", "tText"), input("x", "number")}, chosen...)...),
		"columns with many input values": definitions(append(inputsOfNumbers(wide), decision("q", "", table(first, columns, []column{{text: "r"}}, row), wide...))...),
		"entries of a large input":       definitions(inputsOf(largeType(9000), 1), decision("q", "", literal("{"+manyEntries("large0", 4000)+"}"), "large0")),
	}
}

// filledWith returns count texts.
func filledWith(text string, count int) []string {
	return strings.Split(strings.TrimSuffix(strings.Repeat(text+"|", count), "|"), "|")
}

func inputsOfNumbers(names []string) (all []string) {
	for _, name := range names {
		all = append(all, input(name, "number"))
	}
	return all
}

// manyEntries returns count entries of a context with the same value.
func manyEntries(value string, count int) string {
	all := make([]string, count)
	for i := range all {
		all[i] = fmt.Sprintf("a%d: %s", i, value)
	}
	return strings.Join(all, ", ")
}

// dearRelations returns files that go through a relation again and again.
func dearRelations() map[string]string {
	columns := []string{"p", "q", "r", "s", "t"}
	var rows [][]string
	for i := 0; i < 40; i++ {
		rows = append(rows, []string{fmt.Sprintf("%d.5", i), "1", "2", "3", "4"})
	}
	over := func(text string) string {
		return definitions(input("x", "number"), decision("rows", "", relation(columns, rows...)),
			decision("q", "", literal("["+filled(text, ", ", halfSize)+"]"), "x", "d:rows"))
	}
	return map[string]string{"members of a relation": over("for m in rows return m.p * x"), "first rows of a relation": over("rows[p > x][1].q"),
		"rows of a relation": over("rows[7].q"), "sums over a relation": over("count(rows[p > x])")}
}

// TestDearShapes measures files of about a tenth of a megabyte, each with an expensive shape, accepted or not.
func TestDearShapes(t *testing.T) {
	for _, shapes := range []map[string]string{dearContexts(), dearExpressions(), dearParts(), dearTypes(), dearRelations()} {
		for name, file := range shapes {
			t.Run(name, func(t *testing.T) {
				before := processorTime(t)
				run(t, profile.Options{}, file)
				took := processorTime(t) - before
				t.Logf("%d bytes in %.2f processor seconds", len(file), took)
				if took > mostSeconds {
					t.Errorf("%.2f processor seconds", took)
				}
			})
		}
	}
}
