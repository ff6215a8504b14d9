package export

import (
	"sort"
	"strconv"
)

// A box is a shape of the diagram, or its place in a layer during layout.
type box struct {
	x, y, width, height int
}

// Sizes of the diagram, in its units.
const (
	inputWidth, inputHeight       = 125, 45
	decisionWidth, decisionHeight = 180, 80
	serviceWidth, serviceHeight   = 180, 80
	columnWidth, layerHeight      = 220, 160
	margin                        = 80
)

// A graph is what is drawn: nodes by word, and what each needs.
type graph struct {
	inputs    []string
	decisions []string
	needs     map[string][]string
}

// boxes lays out the graph in layers, with inputs at the bottom and each decision above all that it needs. Within a layer each
// node is near the middle of what it needs, so that few lines cross. The graph has no cycle.
func (g graph) boxes() map[string]box {
	layers := g.layers()
	places := map[string]float64{}
	boxes := map[string]box{}
	for depth, layer := range layers {
		order(layer, places, g.needs)
		for i, word := range layer {
			places[word] = float64(i) - float64(len(layer)-1)/2
		}
		for _, word := range layer {
			boxes[word] = g.box(word, places[word], widest(layers), len(layers)-1-depth)
		}
	}
	return boxes
}

// layers returns the nodes by the length of the longest path down from them.
func (g graph) layers() [][]string {
	depths := map[string]int{}
	layers := [][]string{append([]string(nil), g.inputs...)}
	for _, word := range g.decisions {
		depth := g.depth(word, depths)
		for len(layers) <= depth {
			layers = append(layers, nil)
		}
		layers[depth] = append(layers[depth], word)
	}
	return layers
}

// depth returns 0 for an input, and for a decision one more than the deepest of what it needs, at least 1.
func (g graph) depth(word string, known map[string]int) int {
	if depth, found := known[word]; found {
		return depth
	}
	if g.needs[word] == nil {
		known[word] = 0
		return 0
	}
	deepest := 0
	for _, need := range g.needs[word] {
		if depth := g.depth(need, known); depth > deepest {
			deepest = depth
		}
	}
	known[word] = deepest + 1
	return deepest + 1
}

// order sorts the nodes of a layer by the middle of what each needs.
func order(layer []string, places map[string]float64, needs map[string][]string) {
	middles := map[string]float64{}
	for i, word := range layer {
		middles[word] = middle(needs[word], places, float64(i)-float64(len(layer)-1)/2)
	}
	sort.SliceStable(layer, func(i, j int) bool { return middles[layer[i]] < middles[layer[j]] })
}

func middle(needed []string, places map[string]float64, otherwise float64) float64 {
	if len(needed) == 0 {
		return otherwise
	}
	sum := 0.0
	for _, word := range needed {
		sum += places[word]
	}
	return sum / float64(len(needed))
}

func widest(layers [][]string) int {
	most := 1
	for _, layer := range layers {
		if len(layer) > most {
			most = len(layer)
		}
	}
	return most
}

// box returns the shape of a node at a place from the middle, in a row from the top. Rows are below the services.
func (g graph) box(word string, place float64, most, row int) box {
	width, height := decisionWidth, decisionHeight
	if g.needs[word] == nil {
		width, height = inputWidth, inputHeight
	}
	center := margin + columnWidth*most/2 + int(place*columnWidth)
	return box{center - width/2, margin + layerHeight*(row+1) + (decisionHeight-height)/2, width, height}
}

// diagram draws the services in a row, collapsed, then the graph, and business knowledge at the bottom.
func (p *page) diagram() *element {
	g := graph{inputs: p.Model.Inputs, needs: map[string][]string{}}
	for _, d := range p.Model.Decisions {
		g.decisions = append(g.decisions, d.Name)
		g.needs[d.Name] = append([]string{}, d.Needs...)
	}
	boxes := g.boxes()
	diagram := tag("dmndi:DMNDiagram", "id", "diagram", "name", p.Title)
	for i, s := range p.services {
		b := box{margin + columnWidth*i, margin, serviceWidth, serviceHeight}
		diagram.add(drawn("shape_service_"+strconv.Itoa(i+1), p.ids.of("service", s.Name), b, "isCollapsed", "true"))
	}
	for i, word := range append(append([]string{}, p.Model.Inputs...), g.decisions...) {
		diagram.add(drawn("shape_"+strconv.Itoa(i+1), p.ids.node(word), boxes[word]))
	}
	for i, k := range p.knowledge {
		boxes[k.key()] = box{margin + columnWidth*i, margin + layerHeight*(len(g.layers())+1), decisionWidth, decisionHeight}
		diagram.add(drawn("shape_"+k.id, k.id, boxes[k.key()]))
	}
	for i, requirement := range p.requirements {
		diagram.add(edge("edge_"+strconv.Itoa(i+1), requirement.id, boxes[requirement.needed], boxes[requirement.by]))
	}
	return tag("dmndi:DMNDI").add(diagram)
}

// drawn returns the shape of an element in a box.
func drawn(id, of string, b box, more ...string) *element {
	bounds := tag("dc:Bounds", "height", strconv.Itoa(b.height), "width", strconv.Itoa(b.width), "x", strconv.Itoa(b.x),
		"y", strconv.Itoa(b.y))
	return tag("dmndi:DMNShape", append([]string{"id", id, "dmnElementRef", of}, more...)...).add(bounds)
}

// edge returns a line from the top of one box to the bottom of another.
func edge(id, of string, from, to box) *element {
	start := tag("di:waypoint", "x", strconv.Itoa(from.x+from.width/2), "y", strconv.Itoa(from.y))
	end := tag("di:waypoint", "x", strconv.Itoa(to.x+to.width/2), "y", strconv.Itoa(to.y+to.height))
	return tag("dmndi:DMNEdge", "id", id, "dmnElementRef", of).add(start, end)
}
