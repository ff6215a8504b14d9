package profile

import (
	"fmt"
	"sort"
	"strings"

	"gateway/dmn"
)

// A Refusal is a place of a file that can't be translated.
type Refusal struct {
	// File is the path of the file. Line and Column count from 1, and are 0 for the file as a whole.
	File         string
	Line, Column int
	// Element is the tag of the element, Name and ID its own or those of the nearest element around it that has any.
	// Each may be empty.
	Element, Name, ID string
	// Where is the place as an editor shows it; empty for the file itself.
	Where string
	// Text is the text of the place; it may be empty.
	Text string
	// Why is the reason, Instead what to write; Instead may be empty.
	Why, Instead string
}

// mostText is how many characters of a text a refusal shows.
const mostText = 100

// String returns the refusal on one line.
func (r Refusal) String() string {
	var line strings.Builder
	line.WriteString(r.File + ":")
	if r.Line > 0 {
		fmt.Fprintf(&line, "%d:%d:", r.Line, r.Column)
	}
	line.WriteString(" " + r.Sentence())
	return strings.Join(strings.Fields(line.String()), " ")
}

// Sentence returns the refusal without its file, line and column.
func (r Refusal) Sentence() string {
	var line strings.Builder
	if r.Where != "" {
		line.WriteString(r.Where)
	} else {
		line.WriteString(r.Element)
	}
	if r.Text != "" {
		fmt.Fprintf(&line, "%s %q", colon(&line), shortened(r.Text))
	}
	fmt.Fprintf(&line, "%s %s", colon(&line), r.Why)
	if r.Instead != "" {
		fmt.Fprintf(&line, "; instead: %s", r.Instead)
	}
	return strings.Join(strings.Fields(line.String()), " ")
}

// colon returns the colon that ends a part of a line, unless it has one.
func colon(line *strings.Builder) string {
	if line.Len() == 0 || strings.HasSuffix(line.String(), ":") {
		return ""
	}
	return ":"
}

func shortened(text string) string {
	text, count := strings.TrimSpace(text), 0
	for i := range text {
		if count == mostText {
			return text[:i] + ".."
		}
		count++
	}
	return text
}

// A sameRefusal is what equal refusals of one place have in common. It treats texts of one length that begin alike as
// the same, as a text may be as long as a file.
type sameRefusal struct {
	element              *dmn.Element
	length               int
	begins, why, instead string
}

// refusals collects the refusals of one run, each once.
type refusals struct {
	all []Refusal
	// owners has, for each of them, the parts of the files that can't be made with it; spoiled has all such parts.
	owners  [][]*dmn.Element
	spoiled map[*dmn.Element]bool
	// notes are remarks on places that are accepted.
	notes []Refusal
	seen  map[sameRefusal]bool
	// muted drops all refusals, in the pass that finds types.
	muted bool
	// homes has the file and the parent of each element.
	homes map[*dmn.Element]home
}

// A home is the position of an element: index counts the earlier elements of its tag in the parent, place all of them.
type home struct {
	path         string
	order        int
	parent       *dmn.Element
	index, place int
}

func newRefusals() *refusals {
	return &refusals{seen: map[sameRefusal]bool{}, homes: map[*dmn.Element]home{}, spoiled: map[*dmn.Element]bool{}}
}

// copied returns the refusals so far, for a pass that may go back to them.
func (r *refusals) copied() refusals {
	own := *r
	own.spoiled, own.seen = map[*dmn.Element]bool{}, map[sameRefusal]bool{}
	for e, is := range r.spoiled {
		own.spoiled[e] = is
	}
	for refusal, is := range r.seen {
		own.seen[refusal] = is
	}
	return own
}

// know notes the positions of a file's elements.
func (r *refusals) know(file *dmn.File, order int) {
	var walk func(e *dmn.Element, at home)
	walk = func(e *dmn.Element, at home) {
		r.homes[e] = at
		if len(e.Children) == 0 {
			return
		}
		counts := map[string]int{}
		for i, child := range e.Children {
			walk(child, home{file.Path, order, e, counts[child.Tag], i})
			counts[child.Tag]++
		}
	}
	walk(file.Root, home{path: file.Path, order: order})
}

// mostReported is how many places a run reports.
const mostReported = 100_000

// refuse notes that an element can't be translated, nor the part of the file that contains it, nor the parts of other
// elements that it concerns.
func (r *refusals) refuse(e *dmn.Element, text, why, instead string, concerned ...*dmn.Element) {
	if r.muted {
		return
	}
	owners := []*dmn.Element{r.spoil(e)}
	for _, other := range concerned {
		owners = append(owners, r.spoil(other))
	}
	if len(r.all) > mostReported {
		return
	}
	made, fresh := r.made(e, text, why, instead)
	if !fresh {
		return
	}
	r.all, r.owners = append(r.all, made), append(r.owners, owners)
	if len(r.all) == mostReported {
		made, _ = r.made(e, "", fmt.Sprintf("over %d places can't be taken: those that were looked at later are not reported", mostReported), "")
		r.all, r.owners = append(r.all, made), append(r.owners, owners)
	}
}

// spoil notes that the part around an element can't be made, and returns this part.
func (r *refusals) spoil(e *dmn.Element) *dmn.Element {
	part := r.partOf(e)
	if !r.muted {
		r.spoiled[part] = true
	}
	return part
}

// partOf returns the input, decision, type, service or other part of the file that contains or is an element.
func (r *refusals) partOf(e *dmn.Element) *dmn.Element {
	for {
		parent := r.homes[e].parent
		if parent == nil || r.homes[parent].parent == nil {
			return e
		}
		e = parent
	}
}

// note notes a remark on an element that is accepted.
func (r *refusals) note(e *dmn.Element, why, instead string) {
	if made, fresh := r.made(e, "", why, instead); fresh {
		r.notes = append(r.notes, made)
	}
}

// made returns a refusal, and whether to report it: each is reported once.
func (r *refusals) made(e *dmn.Element, text, why, instead string) (made Refusal, fresh bool) {
	if r.muted {
		return made, false
	}
	same := sameRefusal{e, len(text), shortened(text), why, instead}
	if r.seen[same] {
		return made, false
	}
	r.seen[same] = true
	made = Refusal{File: r.homes[e].path, Line: e.Place.Line, Column: e.Place.Column, Element: e.Tag, Text: text,
		Why: why, Instead: instead}
	made.Name, made.ID = r.called(e)
	made.Where = r.where(e)
	return made, true
}

// called returns the name and the id by which people find an element.
func (r *refusals) called(e *dmn.Element) (name, id string) {
	for ; e != nil && e.Tag != "definitions"; e = r.homes[e].parent {
		if name == "" {
			name = e.Name()
		}
		if id == "" {
			id = e.ID()
		}
	}
	return name, id
}

// inOrder returns the refusals in the order of the files' lines.
func (r *refusals) inOrder(files []*dmn.File) []Refusal {
	rank := map[string]int{}
	for i, f := range files {
		rank[f.Path] = i
	}
	order := make([]int, len(r.all))
	for i := range order {
		order[i] = i
	}
	sort.Slice(order, func(i, j int) bool {
		a, b := &r.all[order[i]], &r.all[order[j]]
		switch {
		case rank[a.File] != rank[b.File]:
			return rank[a.File] < rank[b.File]
		case a.Line != b.Line:
			return a.Line < b.Line
		case a.Column != b.Column:
			return a.Column < b.Column
		}
		return order[i] < order[j]
	})
	sorted := make([]Refusal, len(order))
	for i, at := range order {
		sorted[i] = r.all[at]
	}
	return sorted
}

// RefusalOf returns the refusal of a file that isn't DMN.
func RefusalOf(path string, fault *dmn.Fault) Refusal {
	r := Refusal{File: path, Line: fault.Place.Line, Column: fault.Place.Column, Text: fault.Text, Why: fault.Why,
		Instead: fault.Instead}
	if fault.Element != nil {
		r.Element, r.Name, r.ID = fault.Element.Tag, fault.Element.Name(), fault.Element.ID()
	}
	return r
}
