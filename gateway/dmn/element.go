package dmn

import (
	"bytes"
	"encoding/xml"
	"errors"
	"fmt"
	"io"
	"strings"
	"unicode/utf8"
)

// Limits of a file. A model must fit in a line of 1,048,576 bytes, so these are far larger than any usable file; they bound the
// cost of a hostile one.
const (
	MostBytes    = 16 << 20
	MostDepth    = 256
	MostElements = 500_000
	// MostName limits a name's bytes, as each text that may use the name is read with it.
	MostName = 1000
)

// An Element is an element of the file and its content.
type Element struct {
	// Space is the namespace of its prefix, Tag its name without prefix.
	Space, Tag string
	Attributes []xml.Attr
	Children   []*Element
	// Text is the characters directly in it, joined.
	Text  string
	Place Place
}

// Attribute returns the trimmed value of an attribute without prefix, or "".
func (e *Element) Attribute(name string) string {
	for _, a := range e.Attributes {
		if a.Name.Space == "" && a.Name.Local == name {
			return strings.TrimSpace(a.Value)
		}
	}
	return ""
}

// xmlSpace is the namespace of the prefix xml, which files don't declare.
const xmlSpace = "http://www.w3.org/XML/1998/namespace"

// Language returns the element's xml:lang, such as "de", or "".
func (e *Element) Language() string {
	for _, a := range e.Attributes {
		if a.Name.Space == xmlSpace && a.Name.Local == "lang" {
			return strings.TrimSpace(a.Value)
		}
	}
	return ""
}

// ID returns the element's id, or "".
func (e *Element) ID() string { return e.Attribute("id") }

// Name returns the element's name, else its label. A long label doesn't count.
func (e *Element) Name() string {
	if name := e.Attribute("name"); name != "" {
		return name
	}
	if label := e.Attribute("label"); len(label) <= MostName {
		return label
	}
	return ""
}

// A treeReader builds the elements of a file.
type treeReader struct {
	decoder *xml.Decoder
	lines   *ruler
	open    []*Element
	root    *Element
	count   int
	// words caches tags and namespaces.
	words map[string]string
	texts []*strings.Builder
}

// readTree reads UTF-8 text as one root element.
func readTree(text []byte) (*Element, *Fault) {
	decoder := xml.NewDecoder(bytes.NewReader(text))
	// The text is UTF-8 whatever its declaration says, as it was decoded before.
	decoder.CharsetReader = func(_ string, input io.Reader) (io.Reader, error) { return input, nil }
	r := &treeReader{decoder: decoder, lines: newRuler(text), words: map[string]string{}}
	for {
		offset := int(decoder.InputOffset())
		token, err := decoder.Token()
		if errors.Is(err, io.EOF) {
			return r.finished(len(text))
		}
		if err != nil {
			return nil, r.syntax(err)
		}
		fault := r.take(token, offset)
		if fault == nil && hasUnknown(token) && bytes.Contains(text[offset:decoder.InputOffset()], []byte("&#")) {
			// A reference to half of a UTF-16 pair is replaced by U+FFFD.
			fault = &Fault{Why: "no XML: a reference to what is no character"}
		}
		if fault != nil {
			fault.Place = r.lines.place(offset)
			return nil, fault
		}
	}
}

func (r *treeReader) finished(end int) (*Element, *Fault) {
	if r.root == nil {
		return nil, &Fault{Place: r.lines.place(end), Why: "the file has no element"}
	}
	return r.root, nil
}

// syntax reports an error of the XML reader at its current place.
func (r *treeReader) syntax(err error) *Fault {
	why := err.Error()
	var syntax *xml.SyntaxError
	if errors.As(err, &syntax) {
		why = syntax.Msg
	}
	return &Fault{Place: r.lines.place(int(r.decoder.InputOffset())), Why: "no XML: " + why}
}

// take takes one token, which begins at a byte of the text.
func (r *treeReader) take(token xml.Token, offset int) *Fault {
	switch t := token.(type) {
	case xml.StartElement:
		return r.start(t, offset)
	case xml.EndElement:
		r.end()
	case xml.CharData:
		return r.characters(t)
	case xml.Directive:
		return &Fault{Text: "<!" + firstWord(string(t)), Why: "a document type or entities of its own are not read",
			Instead: "take the declaration out"}
	case xml.ProcInst:
		if t.Target == "xml" && offset > 0 {
			return &Fault{Why: "an XML declaration stands behind the file's start"}
		}
	}
	return nil
}

func (r *treeReader) start(token xml.StartElement, offset int) *Fault {
	r.count++
	switch {
	case r.root != nil && len(r.open) == 0:
		return &Fault{Text: token.Name.Local, Why: "a second root element"}
	case len(r.open) == MostDepth:
		return &Fault{Text: token.Name.Local, Why: fmt.Sprintf("elements stand in each other over %d deep", MostDepth)}
	case r.count > MostElements:
		return &Fault{Text: token.Name.Local, Why: fmt.Sprintf("the file has over %d elements", MostElements)}
	}
	if twice := attributeTwice(token.Attr); twice != "" {
		return &Fault{Text: twice, Why: "the attribute stands twice in its element"}
	}
	if name := longName(token.Attr); name != "" {
		return &Fault{Text: name, Why: fmt.Sprintf("the name has over %d bytes", MostName), Instead: "a shorter name"}
	}
	e := &Element{Space: r.word(token.Name.Space), Tag: r.word(token.Name.Local), Place: r.lines.place(offset)}
	if len(token.Attr) > 0 {
		e.Attributes = append([]xml.Attr(nil), token.Attr...)
	}
	r.attach(e)
	r.open = append(r.open, e)
	r.texts = append(r.texts, nil)
	return nil
}

// attach puts an element under the open one. Content of other tools' elements is dropped.
func (r *treeReader) attach(e *Element) {
	if len(r.open) == 0 {
		r.root = e
		return
	}
	parent := r.open[len(r.open)-1]
	if !isOfTools(parent) {
		parent.Children = append(parent.Children, e)
	}
}

func (r *treeReader) end() {
	last := len(r.open) - 1
	if r.texts[last] != nil {
		r.open[last].Text = r.texts[last].String()
	}
	r.open, r.texts = r.open[:last], r.texts[:last]
}

func (r *treeReader) characters(data xml.CharData) *Fault {
	last := len(r.open) - 1
	blank := len(bytes.TrimSpace(data)) == 0
	if last < 0 {
		if blank {
			return nil
		}
		return &Fault{Text: firstWord(string(data)), Why: "characters stand outside of the root element"}
	}
	if isOfTools(r.open[last]) || blank && r.texts[last] == nil {
		return nil
	}
	if r.texts[last] == nil {
		r.texts[last] = &strings.Builder{}
	}
	r.texts[last].Write(data)
	return nil
}

// isOfTools reports whether an element is for other tools; its content is not kept.
func isOfTools(e *Element) bool { return e.Tag == "extensionElements" }

func (r *treeReader) word(text string) string {
	if kept, found := r.words[text]; found {
		return kept
	}
	r.words[text] = text
	return text
}

// hasUnknown reports whether a token has U+FFFD.
func hasUnknown(token xml.Token) bool {
	switch t := token.(type) {
	case xml.CharData:
		return bytes.ContainsRune(t, utf8.RuneError)
	case xml.StartElement:
		for _, a := range t.Attr {
			if strings.ContainsRune(a.Value, utf8.RuneError) {
				return true
			}
		}
	}
	return false
}

// attributeTwice returns a repeated attribute.
func attributeTwice(attributes []xml.Attr) string {
	seen := make(map[xml.Name]bool, len(attributes))
	for _, a := range attributes {
		if seen[a.Name] {
			return a.Name.Local
		}
		seen[a.Name] = true
	}
	return ""
}

// longName returns an element's name if it is too long, else "".
func longName(attributes []xml.Attr) string {
	for _, a := range attributes {
		if a.Name.Local == "name" && len(a.Value) > MostName {
			return a.Value
		}
	}
	return ""
}

func firstWord(text string) string {
	fields := strings.Fields(text)
	if len(fields) == 0 {
		return ""
	}
	if len(fields[0]) > 40 {
		return fields[0][:40]
	}
	return fields[0]
}
