package dmn

import (
	"math"
	"strconv"
	"strings"
)

// A Box is where a diagram draws an element: its top left corner, width and height.
type Box [4]float64

// mostPlace limits how far from the origin a box may be.
const mostPlace = 1e6

// Boxes returns the boxes of the first diagram that draws something, by element id.
func (f *File) Boxes() map[string]Box {
	for _, part := range f.Root.Children {
		if part.Tag != "DMNDI" {
			continue
		}
		for _, diagram := range part.Children {
			if boxes := boxesOf(diagram); len(boxes) > 0 {
				return boxes
			}
		}
	}
	return nil
}

func boxesOf(diagram *Element) map[string]Box {
	boxes := map[string]Box{}
	for _, shape := range diagram.Children {
		_, id, isPrefixed := strings.Cut(shape.Attribute("dmnElementRef"), ":")
		if !isPrefixed {
			id = shape.Attribute("dmnElementRef")
		}
		if _, twice := boxes[id]; shape.Tag != "DMNShape" || id == "" || twice {
			continue
		}
		for _, bounds := range shape.Children {
			if box, is := boxOf(bounds); is {
				boxes[id] = box
			}
		}
	}
	return boxes
}

// boxOf reads the bounds of a shape if its numbers are valid and within limits.
func boxOf(bounds *Element) (box Box, is bool) {
	if bounds.Tag != "Bounds" {
		return box, false
	}
	for at, name := range []string{"x", "y", "width", "height"} {
		number, err := strconv.ParseFloat(bounds.Attribute(name), 64)
		if err != nil || math.IsNaN(number) || math.Abs(number) > mostPlace || at > 1 && number <= 0 {
			return box, false
		}
		box[at] = number
	}
	return box, true
}
