package line

import (
	"fmt"
	"math/rand"
	"reflect"
	"strings"
	"testing"
)

func TestRequestsStayByteForByte(t *testing.T) {
	read, err := Read([]byte(` {"id" : 1E5 ,"key":"a\u0062","inputs":{"a" : -0,"b":[1.50,{"x":"}"}]},"service":"s\n" } `))
	if err != nil {
		t.Fatal(err)
	}
	if got := string(read.Key) + " " + string(read.ID); got != `"a\u0062" 1E5` {
		t.Errorf("key and id are %s", got)
	}
	want := fmt.Sprintf(`{"client":"%s","service":"s\n","inputs":{"a" : -0,"b":[1.50,{"x":"}"}]}}`, ClientName(read.Client))
	if string(read.Engine) != want {
		t.Errorf("the engine is given %s, and not %s", read.Engine, want)
	}
	same, err := Read([]byte(`{"key":"ab","service":"s","inputs":{},"id":null}`))
	if err != nil || same.Client != read.Client || same.Partition(1000) != read.Partition(1000) {
		t.Errorf("one key has two places, or %v", err)
	}
}

// The SHA-256 of "ann" begins with 49915e0d 7d4b402e 30 (by sha256sum): the first eight bytes are 6 modulo 8, and the
// ninth is 48.
func TestPlaceOfAKey(t *testing.T) {
	read, err := Read([]byte(`{"key":"ann","service":"s","inputs":{},"id":0}`))
	if err != nil {
		t.Fatal(err)
	}
	if read.Client != 48 || read.Partition(8) != 6 {
		t.Errorf("client %d, partition %d", read.Client, read.Partition(8))
	}
}

func TestModels(t *testing.T) {
	read, err := Read([]byte(`{"model": {"inputs":["a < b"]} }`))
	if err != nil || !read.IsModel() || string(read.Engine) != `{"model":{"inputs":["a < b"]}}` || read.Key != nil {
		t.Errorf("%s, %v", read.Engine, err)
	}
}

func TestWhatIsNoLine(t *testing.T) {
	request := `{"key":%s,"service":%s,"inputs":%s,"id":%s}`
	deep := func(levels int) string { return strings.Repeat("[", levels) + strings.Repeat("]", levels) }
	for _, text := range []string{
		"", "{", "[]", "7", "no JSON", `{"key":"k"}`, `{"model":1,"id":2}`, `{"model":1,"model":1}`, `{"key":"k"} {}`,
		fmt.Sprintf(request, `""`, `"s"`, `{}`, `1`),
		fmt.Sprintf(request, `7`, `"s"`, `{}`, `1`),
		fmt.Sprintf(request, `"`+strings.Repeat("k", 256)+`"`, `"s"`, `{}`, `1`),
		fmt.Sprintf(request, `"k"`, `null`, `{}`, `1`),
		fmt.Sprintf(request, `"k"`, `"s"`, `[]`, `1`),
		fmt.Sprintf(request, `"k"`, `"s"`, `{}`, `"`+strings.Repeat("i", 4096)+`"`),
		fmt.Sprintf(request, `"k"`, `"s"`, `{"a":`+deep(126)+`}`, `1`),
		fmt.Sprintf(request, `"k"`, `"s"`, `{"a":"`+strings.Repeat("x", 1<<20)+`"}`, `1`),
		fmt.Sprintf(request, `"k"`, `"s"`, "{\"a\":\"\xff\"}", `1`),
		`{"key":"k","service":"s","inputs":{},"id":1,"more":2}`,
	} {
		if read, err := Read([]byte(text)); err == nil {
			t.Errorf("%.80q is read as %+v", text, read)
		}
	}
	if _, err := Read([]byte(fmt.Sprintf(request, `"k"`, `"s"`, `{"a":`+deep(125)+`}`, `1`))); err != nil {
		t.Errorf("127 deep: %v", err)
	}
}

func TestClientNames(t *testing.T) {
	for client := 0; client < Clients; client++ {
		if number, known := ClientNumber([]byte(ClientName(client))); !known || number != client {
			t.Errorf("client %d is %d, %v", client, number, known)
		}
	}
	for _, name := range []string{"n64", "x01", "n1", "n001", "n-1"} {
		if _, known := ClientNumber([]byte(name)); known {
			t.Errorf("%s is a client", name)
		}
	}
}

// A usual request is read like any line. Usual requests are changed at random, a byte or two at a time.
func TestUsualRequests(t *testing.T) {
	random := rand.New(rand.NewSource(1))
	bytes := []byte("{}[]\",:\\ \t\n\r0123456789+-.eEtruefalsnbk\x00\x1f/\x7f\xc3\xa9\xff\xed\xa0\x80")
	isUsual := 0
	for _, text := range []string{
		`{"key":"key 17","service":"s","inputs":{"a":17},"id":17}`,
		` { "id" : [ ] , "inputs" : { "a" : [ 1 , -0.5e-3 , { } , { "x" : null } ] , "b" : "\\\"\/\u00e9" } , "service" : "s" , "key" : "é" } `,
		`{"key":"k","service":"s","inputs":{"a":true,"b":false,"c":[0,10,1E+5,2e7]},"id":{"x":"y"}}`,
		`{"key":"k","service":"s","inputs":{"a":` + strings.Repeat("[", 125) + strings.Repeat("]", 125) + `},"id":1}`,
		`{"key":"` + strings.Repeat("k", 255) + `","service":"s","inputs":{},"id":"` + strings.Repeat("i", 4094) + `"}`,
	} {
		if _, is := usual([]byte(text)); !is {
			t.Errorf("%.100s is not usual", text)
		}
		for round := 0; round < 4000; round++ {
			changed := []byte(text)
			for change := random.Intn(3); change >= 0; change-- {
				at, next := random.Intn(len(changed)), bytes[random.Intn(len(bytes))]
				switch random.Intn(3) {
				case 0:
					changed[at] = next
				case 1:
					changed = append(changed[:at], changed[at+1:]...)
				case 2:
					changed = append(changed[:at:at], append([]byte{next}, changed[at:]...)...)
				}
			}
			found, is := usual(changed)
			if !is {
				continue
			}
			isUsual++
			if due, err := anyLine(changed); err != nil || !reflect.DeepEqual(found, due) {
				t.Fatalf("%q is read as %+v, and not as %+v, %v", changed, found, due, err)
			}
		}
	}
	if isUsual < 2000 {
		t.Errorf("only %d were usual", isUsual)
	}
}
