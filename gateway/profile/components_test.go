package profile

import (
	"fmt"
	"sort"
	"strings"
	"testing"

	"gateway/dmn"
)

// componentFile is a file of these item definitions, with an input for each of these names, of the type after its colon, and a
// decision that needs them all.
func componentFile(t testing.TB, definitions string, inputs ...string) *dmn.File {
	t.Helper()
	text, needs, names := `<definitions xmlns="https://www.omg.org/spec/DMN/20191111/MODEL/" id="d" name="d" namespace="n">`+definitions, "", []string{}
	for at, it := range inputs {
		name, ref, isTyped := strings.Cut(it, ":")
		if isTyped {
			ref = ` typeRef="` + ref + `"`
		}
		names = append(names, name)
		text += fmt.Sprintf(`<inputData id="i%d" name="%[2]s"><variable name="%[2]s"%s/></inputData>`, at, name, ref)
		needs += fmt.Sprintf(`<informationRequirement id="r%d"><requiredInput href="#i%d"/></informationRequirement>`, at, at)
	}
	text += `<decision id="e" name="e"><variable name="e"/>` + needs + `<literalExpression><text>[` + strings.Join(names, ", ") +
		`]</text></literalExpression></decision></definitions>`
	file, err := dmn.Read("x.dmn", strings.NewReader(text))
	if err != nil {
		t.Fatal(err)
	}
	return file
}

func definition(name, of string) string {
	return `<itemDefinition name="` + name + `">` + of + `</itemDefinition>`
}

func part(name, of string) string {
	return `<itemComponent name="` + name + `">` + of + `</itemComponent>`
}

func ref(name string) string { return "<typeRef>" + name + "</typeRef>" }

// said has what a result says of inputs and components, one in a line: its path, its domain and ! where it is required.
func said(result *Result) string {
	all := map[string]string{}
	for path, text := range result.Domains {
		all[path] = " " + text
	}
	for _, path := range result.Required {
		all[path] += " !"
	}
	lines := make([]string, 0, len(all))
	for path, text := range all {
		lines = append(lines, path+text)
	}
	sort.Strings(lines)
	return strings.Join(lines, "\n")
}

// TestComponents are worked out by hand: what each input and component may be, and which are required.
func TestComponents(t *testing.T) {
	age := part("age", values("number", "[0..120]"))
	city := part("address", part("city", values("string", `"Bonn", "Kiel"`))+part("zip", ref("string")))
	for name, it := range map[string]struct {
		definitions string
		inputs      []string
		options     Options
		due         string
	}{
		"kinds": {definition("t", age+part("name", ref("string"))+part("ok", ref("boolean"))+part("day", ref("date"))+part("n", ref("number"))),
			[]string{"a:t"}, Options{}, "a not(null) !\na.age [0..120] !\na.day [1..3652059] !\na.n " + anyNumber + " !\na.name >= \"\" !\na.ok true, false !"},
		"null among the values": {definition("t", age+part("kind", values("string", `"x", null`))),
			[]string{"a:t"}, Options{}, "a not(null) !\na.age [0..120] !\na.kind \"x\", null"},
		"a typeConstraint": {definition("t", part("n", ref("number")+`<typeConstraint><text>[1..3]</text></typeConstraint>`)),
			[]string{"a:t"}, Options{}, "a not(null) !\na.n [1..3] !"},
		"types of their own": {definition("t", part("age", ref("tAge"))+part("to", ref("tTo"))) + definition("tAge", values("number", "[0..9]")) +
			definition("tTo", part("zip", ref("tAge"))),
			[]string{"a:t"}, Options{}, "a not(null) !\na.age [0..9] !\na.to not(null) !\na.to.zip [0..9] !"},
		"nested": {definition("t", age+city),
			[]string{"a:t"}, Options{}, "a not(null) !\na.address not(null) !\na.address.city \"Bonn\", \"Kiel\" !\na.address.zip >= \"\" !\na.age [0..120] !"},
		"two of one type, and another input": {definition("t", age), []string{"a:t", "b:t", "c:number"}, Options{},
			"a not(null) !\na.age [0..120] !\nb not(null) !\nb.age [0..120] !\nc " + anyNumber + " !"},
		"a nullable component": {definition("t", age+city), []string{"a:t"}, Options{Nullable: []string{"a.age", "a.address.city"}},
			"a not(null) !\na.address not(null) !\na.address.city \"Bonn\", \"Kiel\", null\na.address.zip >= \"\" !\na.age [0..120], null"},
		"a nullable structure": {definition("t", age+city), []string{"a:t"}, Options{Nullable: []string{"a"}},
			"a.address.city \"Bonn\", \"Kiel\", null\na.address.zip >= \"\", null\na.age [0..120], null"},
		"a nullable structure within": {definition("t", age+city), []string{"a:t"}, Options{Nullable: []string{"a.address"}},
			"a not(null) !\na.address.city \"Bonn\", \"Kiel\", null\na.address.zip >= \"\", null\na.age [0..120] !"},
		"lists": {definition("t", part("n", ref("tList"))+part("m", ref("tTo"))) + `<itemDefinition name="tList" isCollection="true">` + age +
			`</itemDefinition>` + definition("tTo", age), []string{"a:t", "b:tList"}, Options{},
			"a not(null) !\na.m not(null) !\na.m.age [0..120] !\na.n not(null) !\nb not(null) !"},
		"any value": {definition("t", age+part("some", ref("Any"))+part("none", "")), []string{"a:t", "b:Any"}, Options{},
			"a not(null) !\na.age [0..120] !"},
		"names that are no words": {definition("t", part("Net pay", ref("number"))+part("Größe", part("in.cm", ref("number")))), []string{"The one:t"}, Options{},
			"The_one not(null) !\nThe_one.Groesse not(null) !\nThe_one.Groesse.in_cm " + anyNumber + " !\nThe_one.Net_pay " + anyNumber + " !"},
		"nullable by names": {definition("t", part("Net pay", ref("number"))+part("Größe", part("in.cm", ref("number")))), []string{"The one:t"},
			Options{Nullable: []string{"The one.Net  pay", "The one.Größe.in.cm"}},
			"The_one not(null) !\nThe_one.Groesse not(null) !\nThe_one.Groesse.in_cm " + anyNumber + ", null\nThe_one.Net_pay " + anyNumber + ", null"},
		"nullable by words": {definition("t", part("Net pay", ref("number"))+part("Größe", part("in.cm", ref("number")))), []string{"The one:t"},
			Options{Nullable: []string{"The_one.Net_pay", "The one.Groesse"}},
			"The_one not(null) !\nThe_one.Groesse.in_cm " + anyNumber + ", null\nThe_one.Net_pay " + anyNumber + ", null"},
		"decimals": {definition("t", part("n", values("number", "[0..1.5]"))), []string{"a:t"}, Options{Decimals: &Decimals{All: -1, Named: map[string]int{"a.n": 2}}},
			"a not(null) !\na.n [0..150] !"},
		"no structure": {definition("t", age), []string{"a"}, Options{}, ""},
	} {
		options := it.options
		report := Run([]*dmn.File{componentFile(t, it.definitions, it.inputs...)}, options)
		if report.Result == nil {
			t.Errorf("%s: %v", name, report.Refusals)
			continue
		}
		if got := said(report.Result); got != it.due {
			t.Errorf("%s:\n%s\nand this is due:\n%s", name, got, it.due)
		}
		if err := report.Result.UnknownNullable(); err != nil {
			t.Errorf("%s: %v", name, err)
		}
	}
}

// TestUnknownComponents are names that are neither inputs nor components.
func TestUnknownComponents(t *testing.T) {
	file := componentFile(t, definition("t", part("age", ref("number"))+part("list", ref("tList")))+
		`<itemDefinition name="tList" isCollection="true">`+part("n", ref("number"))+`</itemDefinition>`, "a:t", "b", "c:number")
	for _, name := range []string{"a.nobody", "a.list.n", "b.age", "c.age", "age", "a.age.age", "a.", ".age", "a..age", "", "."} {
		result := Run([]*dmn.File{file}, Options{Nullable: []string{"a.age", name}}).Result
		if err := result.UnknownNullable(); err == nil || !strings.Contains(err.Error(), "--nullable "+name+": ") {
			t.Errorf("%q: %v", name, err)
		}
	}
}

// TestUndeclaredComponents has no promise of entries that are taken of an input without a type.
func TestUndeclaredComponents(t *testing.T) {
	text := `<definitions xmlns="https://www.omg.org/spec/DMN/20191111/MODEL/" id="d" name="d" namespace="n">` +
		`<inputData id="i" name="x"><variable name="x"/></inputData><decision id="e" name="e"><variable name="e"/>` +
		`<informationRequirement id="r"><requiredInput href="#i"/></informationRequirement>` +
		strings.Replace(columnOver("", "number"), "<text>x</text>", "<text>x.y</text>", 1) + `</decision></definitions>`
	file, err := dmn.Read("x.dmn", strings.NewReader(text))
	if err != nil {
		t.Fatal(err)
	}
	if got := said(Run([]*dmn.File{file}, Options{}).Result); got != "" {
		t.Error(got)
	}
}

// chain are definitions of a structure with as many levels below it.
func chain(levels int, name string) string {
	text := definition("t0", part(name, ref("number")))
	for at := 1; at < levels; at++ {
		text += definition(fmt.Sprintf("t%d", at), part(name, ref(fmt.Sprintf("t%d", at-1))))
	}
	return text
}

// wide are the components of a structure that has so many.
func wide(count int) string {
	var text strings.Builder
	for at := 0; at < count; at++ {
		text.WriteString(part(fmt.Sprintf("c%d", at), ref("number")))
	}
	return text.String()
}

// TestManyComponents follows as many as are due, and notes the inputs of which it follows none.
func TestManyComponents(t *testing.T) {
	doubled := definition("t0", part("n", ref("number")))
	for at := 1; at <= 10; at++ {
		doubled += definition(fmt.Sprintf("t%d", at), part("l", ref(fmt.Sprintf("t%d", at-1)))+part("r", ref(fmt.Sprintf("t%d", at-1))))
	}
	for name, it := range map[string]struct {
		definitions string
		inputs      []string
		// due is how many inputs and components are required, notes of how many inputs no component is.
		due, notes int
	}{
		"as many as are followed":     {definition("t", wide(mostComponents)), []string{"a:t"}, 1 + mostComponents, 0},
		"one more":                    {definition("t", wide(mostComponents+1)), []string{"a:t"}, 1, 1},
		"thousands":                   {definition("t", wide(9_999)), []string{"a:t"}, 1, 1},
		"what is left":                {definition("t", wide(2_000)) + definition("u", wide(1_000)), []string{"a:t", "b:t", "c:t", "x:u", "y:u"}, 5 + 2*2_000 + 1_000, 2},
		"twice as many at each level": {doubled, []string{"a:t10"}, 1 + 3<<10 - 2, 0},
		"deep":                        {chain(100, "n"), []string{"a:t99"}, 1 + mostLevels, 0},
		"as deep as goes":             {chain(mostLevels, "n"), []string{fmt.Sprintf("a:t%d", mostLevels-1)}, 1 + mostLevels, 0},
	} {
		report := Run([]*dmn.File{componentFile(t, it.definitions, it.inputs...)}, Options{})
		if report.Result == nil {
			t.Errorf("%s: %v", name, report.Refusals)
			continue
		}
		notes := 0
		for _, note := range report.Result.Notes {
			if strings.Contains(note.Why, "its components bring those of all inputs over 5000") {
				notes++
			}
		}
		if due := len(report.Result.Required); due != it.due || notes != it.notes || len(report.Result.Domains) != due {
			t.Errorf("%s: %d required, %d domains, %d notes", name, due, len(report.Result.Domains), notes)
		}
	}
}

// TestRecursiveComponents are refused where they are defined, as ever.
func TestRecursiveComponents(t *testing.T) {
	for _, definitions := range []string{definition("t", part("of", ref("t"))), definition("t", part("of", ref("u"))) + definition("u", part("of", ref("t")))} {
		report := Run([]*dmn.File{componentFile(t, definitions, "a:t")}, Options{Nullable: []string{"a.of.of"}})
		if report.Result != nil || len(report.Refusals) == 0 || !strings.Contains(report.Refusals[0].Why, "made of itself") {
			t.Errorf("%v", report.Refusals)
		}
	}
}

// TestDottedComponents finds names that have dots, in time, whatever other names are called.
func TestDottedComponents(t *testing.T) {
	parts, name := "", "a"
	for at := 1; at <= 24; at++ {
		name += ".a"
		parts += part(strings.TrimPrefix(name, "a."), ref("t"))
	}
	definitions := definition("t0", part("z", ref("number")))
	for at := 1; at <= 3; at++ {
		definitions += definition(fmt.Sprintf("t%d", at), strings.ReplaceAll(parts, ">t<", fmt.Sprintf(">t%d<", at-1)))
	}
	file := componentFile(t, definitions, "a:t2")
	result := Run([]*dmn.File{file}, Options{Nullable: []string{name + ".z"}}).Result
	if err := result.UnknownNullable(); err != nil {
		t.Error(err)
	}
	result = Run([]*dmn.File{file}, Options{Nullable: []string{name + ".a.a.a.a.a.a.a.a.a.a.a.a.a.a.a.a.a.a.a.a.a.a.a.a.a.a.b"}}).Result
	if err := result.UnknownNullable(); err == nil {
		t.Error("a name that nothing has is known")
	}
}
