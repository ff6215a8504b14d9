package profile_test

import (
	"fmt"
	"math/big"
	"math/rand"
	"strings"
	"testing"

	"gateway/dmn"
	"gateway/profile"
)

// divisors are constants of each sort: powers of two, three and ten, primes, and those used to find quotients.
var divisors = []int64{2, 3, 4, 5, 6, 7, 8, 9, 11, 12, 13, 16, 24, 27, 30, 52, 60, 64, 81, 97, 100, 128, 365, 1000, 1200, 3600, 12345, 65536, 999983,
	1000003, 1000000000, 2147483629, 2147483646, 2147483647, 2 * 2147483647, 1 << 27, 1<<63 - 2, 1<<63 - 1}

// numerators covers the whole range: both ends, where products would leave it, multiples of a divisor and their
// neighbours.
func numerators(random *rand.Rand, divisor int64) (all []int64) {
	const most = 1<<63 - 1
	add := func(n int64) {
		for _, it := range []int64{n - 1, n, n + 1} {
			if it != -most-1 {
				all = append(all, it)
			}
		}
	}
	for _, n := range []int64{0, divisor, divisor / 2, 1 << 31, 1 << 32, 1 << 61, 1 << 62, most - 1, most - 1 - most%divisor, (most - 1) / 2} {
		add(n)
		add(-n)
	}
	for i := 0; i < 12; i++ {
		add(random.Int63n(most-1) - random.Int63n(most-1))
		add(random.Int63n(most/divisor) * divisor)
	}
	return all
}

// rounded returns n / d, rounded.
func rounded(rounding string, n, d int64) *big.Int {
	floor, rest := new(big.Int).DivMod(big.NewInt(n), big.NewInt(d), new(big.Int))
	twice := rest.Cmp(new(big.Int).Sub(big.NewInt(d), rest))
	isUp := rounding == "ceiling" && rest.Sign() > 0 || rounding == "decimal" && (twice > 0 || twice == 0 && floor.Bit(0) == 1)
	if isUp {
		floor.Add(floor, big.NewInt(1))
	}
	return floor
}

// wholeInputs imports parts whose inputs have no decimals, into a desk.
func wholeInputs(t *testing.T, parts []string) (*desk, *profile.Result) {
	read, err := dmn.Read("test.dmn", strings.NewReader(definitions(parts...)))
	if err != nil {
		t.Fatal(err)
	}
	said := profile.NoDecimals()
	said.All = 0
	result, refusals := profile.Import([]*dmn.File{read}, profile.Options{Decimals: &said})
	if result == nil {
		t.Fatal(refusals)
	}
	d := startDesk(t)
	d.model(result)
	return d, result
}

// TestDivisionOverTheWholeRange divides by constants, and checks each quotient against math/big. None exceeds a limit.
func TestDivisionOverTheWholeRange(t *testing.T) {
	parts := []string{input("x", "number")}
	for _, divisor := range divisors {
		for rounding, form := range map[string]string{"floor": "floor(x / %d)", "ceiling": "ceiling(x / %d)", "decimal": "decimal(x / %d, 0)"} {
			parts = append(parts, decision(fmt.Sprintf("%s_%d", rounding, divisor), "number", literal(fmt.Sprintf(form, divisor)), "x"))
		}
	}
	d, result := wholeInputs(t, parts)
	random := rand.New(rand.NewSource(11))
	for _, divisor := range divisors {
		for _, n := range numerators(random, divisor) {
			for _, rounding := range []string{"floor", "ceiling", "decimal"} {
				came := countedAsk(d, result, fmt.Sprintf("%s_%d", rounding, divisor), fmt.Sprintf(`{"x":%d}`, n))
				if due := rounded(rounding, n, divisor).String(); came != due {
					t.Errorf("%s of %d / %d: %s came, and %s is due", rounding, n, divisor, came, due)
				}
			}
		}
	}
}

// borders are the divisors at which quotients by a variable are found in another way, and ends of ranges.
var borders = []int64{1, 2, 3, 7, 10, 1_999_999, 2_000_000, 2_000_001, 2_305_844, 2_305_845, 1 << 31, 1<<31 - 1, 2_147_483_629, 1 << 32,
	3_999_998_000_000, 4_611_686_018_427, 4_611_686_018_428, 1 << 61, 1 << 62, 1<<63 - 2, 1<<63 - 1}

// pairs returns numerators and divisors: quotients at borders and between them, with rests next to 0 and next to half,
// of all signs.
func pairs(random *rand.Rand) (all [][2]int64) {
	const most = 1<<63 - 1
	divisors := append([]int64(nil), borders...)
	for len(divisors) < 40 {
		divisors = append(divisors, random.Int63()>>uint(random.Intn(62))|1)
	}
	for _, divisor := range divisors {
		top := most / divisor
		quotients := []int64{0, top, top / 2, random.Int63n(top/2+1) + top/2}
		for _, border := range borders {
			if border <= top {
				quotients = append(quotients, border-1, border)
			}
		}
		for _, quotient := range quotients {
			n := quotient * divisor
			for _, rest := range []int64{-1, 0, divisor / 2, divisor - divisor/2} {
				if n < -rest || n > most-rest {
					continue
				}
				sign, over := int64(1-len(all)%2*2), int64(1-len(all)/2%2*2)
				all = append(all, [2]int64{sign * (n + rest), over * divisor})
			}
		}
	}
	return all
}

// TestQuotientsByAVariableOverTheWholeRange divides by a variable and rounds. Each quotient is right, and none exceeds
// a limit.
func TestQuotientsByAVariableOverTheWholeRange(t *testing.T) {
	forms := map[string]string{"floor": "floor(x / y)", "ceiling": "ceiling(x / y)", "decimal": "decimal(x / y, 0)"}
	parts := []string{input("x", "number"), input("y", "number")}
	for rounding, form := range forms {
		parts = append(parts, decision(rounding, "number", literal(form), "x", "y"))
	}
	d, result := wholeInputs(t, parts)
	for _, it := range pairs(rand.New(rand.NewSource(12))) {
		n, divisor := it[0], it[1]
		if divisor < 0 {
			n, divisor = -n, -divisor
		}
		for rounding := range forms {
			came := countedAsk(d, result, rounding, fmt.Sprintf(`{"x":%d,"y":%d}`, it[0], it[1]))
			if due := rounded(rounding, n, divisor).String(); came != due {
				t.Errorf("%s of %d / %d: %s came, and %s is due", rounding, it[0], it[1], came, due)
			}
		}
	}
	for _, inputs := range []string{`{"x":0,"y":0}`, `{"x":5,"y":0}`, `{"x":5,"y":null}`, `{"x":null,"y":5}`, `{"x":null,"y":0}`} {
		if came := countedAsk(d, result, "floor", inputs); came != "null" {
			t.Errorf("floor of %s: %s came", inputs, came)
		}
	}
}

// TestAWrongQuotientIsALimit spoils a model's quotients by a variable. Multiplied back they are not the numerator, so
// each answer is a limit error and none is a wrong number.
func TestAWrongQuotientIsALimit(t *testing.T) {
	result := taken(t, definitions(input("x", "number"), input("y", "number"), decision("q", "number", literal("decimal(x / y, 0)"), "x", "y")))
	line, err := profile.Line(&result.Model)
	if err != nil {
		t.Fatal(err)
	}
	const found = `"quotient_1","expr":"`
	if strings.Count(string(line), found) != 1 {
		t.Fatalf("no quotient is in %s", line)
	}
	d := startDesk(t)
	for _, wrong := range []string{"1 + ", "-1 + ", "2 * "} {
		d.send(strings.Replace(string(line), found, found+wrong, 1))
		for _, inputs := range []string{`{"x":7,"y":2}`, `{"x":-7,"y":2}`, `{"x":9,"y":-3}`, `{"x":2147483647,"y":2147483647}`, `{"x":9223372036854775807,"y":1}`} {
			if answer := d.ask("q", inputs); !strings.Contains(answer, `"fault":"limit"`) {
				t.Errorf("%s with a wrong quotient: %s came", inputs, answer)
			}
		}
		if answer := d.ask("q", `{"x":7,"y":0}`); answer != "null" {
			t.Errorf("of a divisor of 0 came %s", answer)
		}
	}
}
