package export

import (
	"strings"
)

// An element is an element of the written file. Its name and attribute names have their prefixes.
type element struct {
	name       string
	attributes []attribute
	// content is its text. An element has either text or children.
	content  string
	children []*element
}

type attribute struct{ name, value string }

// tag makes an element with a name, and attributes as pairs of name and value. It leaves out attributes without a value.
func tag(name string, pairs ...string) *element {
	e := &element{name: name}
	for i := 0; i+1 < len(pairs); i += 2 {
		if pairs[i+1] != "" {
			e.attributes = append(e.attributes, attribute{pairs[i], pairs[i+1]})
		}
	}
	return e
}

// add adds children to an element, and returns it.
func (e *element) add(children ...*element) *element {
	e.children = append(e.children, children...)
	return e
}

// text returns a text element with FEEL in it.
func text(content string) *element {
	return &element{name: "text", content: content}
}

// file returns the bytes of a file with this root. encoding/xml would write each quotation mark of a rule as &#34; and empty
// elements in long form, which is hard to read.
func (e *element) file() []byte {
	var out strings.Builder
	out.WriteString(`<?xml version="1.0" encoding="UTF-8"?>` + "\n")
	e.write(&out, "")
	return []byte(out.String())
}

// Characters that XML uses as signs, or that a reader would change.
var (
	inText      = strings.NewReplacer("&", "&amp;", "<", "&lt;", ">", "&gt;", "\r", "&#13;")
	inAttribute = strings.NewReplacer("&", "&amp;", "<", "&lt;", `"`, "&quot;", "\t", "&#9;", "\n", "&#10;", "\r", "&#13;")
)

func (e *element) write(out *strings.Builder, indent string) {
	out.WriteString(indent + "<" + e.name)
	for _, a := range e.attributes {
		out.WriteString(" " + a.name + `="` + inAttribute.Replace(a.value) + `"`)
	}
	switch {
	case len(e.children) > 0:
		out.WriteString(">\n")
		for _, child := range e.children {
			child.write(out, indent+"  ")
		}
		out.WriteString(indent + "</" + e.name + ">\n")
	case e.content != "":
		out.WriteString(">" + inText.Replace(e.content) + "</" + e.name + ">\n")
	default:
		out.WriteString(" />\n")
	}
}
