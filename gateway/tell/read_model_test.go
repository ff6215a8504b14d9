package tell

import (
	"math/rand"
	"reflect"
	"testing"

	"gateway/lines"
	"gateway/model"
)

// TestModelsAreReadAsTheModelPackageReads reads changed model texts both ways.
func TestModelsAreReadAsTheModelPackageReads(t *testing.T) {
	const whole = `{"inputs":["a"],"decisions":[{"name":"d","needs":["a"],"expr":{"list":["1",{"list":[]},{"context":[{"name":"x",` +
		`"expr":"a"}],"result":"2"},{"table":{"hit":"P","inputs":["a"],"outputs":[{"name":"o","values":["\"\u00e9\""],"default":"1"},` +
		`{"name":"p"}],"rules":[{"when":["> 1"],"then":["\"<\"","1"]}]}}]}}],"services":[{"name":"s","outputs":["d"],` +
		`"encapsulated":[],"inputDecisions":[],"inputData":["a"]}]}`
	random := rand.New(rand.NewSource(75))
	read := 0
	for count := 0; count < 20_000; count++ {
		text := []byte(whole)
		for changes := random.Intn(3); changes > 0; changes-- {
			at, length := random.Intn(len(text)), 1+random.Intn(12)
			if at+length < len(text) && random.Intn(2) == 0 {
				text = append(text[:at:at], text[at+length:]...)
			} else {
				text[at] = `{}[]",:nr1xe`[random.Intn(12)]
			}
		}
		doc := lines.NewDocument(text)
		if doc == nil {
			continue
		}
		due, err := model.Of(doc.Go(doc.Whole))
		if err != nil {
			due = nil
		}
		if got := modelOf(doc, doc.Whole); !reflect.DeepEqual(got, due) {
			t.Fatalf("%s: %+v, and %+v is due", text, got, due)
		}
		if due != nil {
			read++
		}
	}
	if read < 1_000 {
		t.Errorf("%d models were read", read)
	}
}
