package profile

import (
	"fmt"
	"strings"

	"gateway/dmn"
)

// mostDecisions is how many decisions a model may have.
const mostDecisions = 1000

// A Report is the outcome of an import.
type Report struct {
	// Result is the model; nil if none was made.
	Result *Result
	// Refusals are the places that can't be translated, in the order of the files; for a single service, those that it
	// needs. With a result they are the reasons for what was left out.
	Refusals []Refusal
	// Made and Unmade are the names of the services that can be made, and of those that can't.
	Made, Unmade []string
}

// Import translates files to one model. If there are refusals it returns all of them, and a result only with
// Options.Partial.
func Import(files []*dmn.File, options Options) (*Result, []Refusal) {
	report := Run(files, options)
	return report.Result, report.Refusals
}

// Run translates files to one model, and reports what can be made of them.
func Run(files []*dmn.File, options Options) *Report {
	whole := newRun(files, options)
	whole.translate()
	report := whole.report()
	if options.Service == "" || len(report.Refusals) == 0 || whole.fault {
		return report
	}
	alone := newRun(files, options)
	if !alone.restrict() {
		return &Report{Refusals: whole.serviceRefusal()}
	}
	alone.translate()
	return alone.report()
}

// Check returns the names that FreeInputs and Clock turn into inputs, and a refusal for each option about an input that
// the files don't have.
func Check(files []*dmn.File, options Options) (free []string, faults []Refusal) {
	if !options.FreeInputs && options.Clock == "" && options.Offsets == nil && options.Decimals == nil {
		return nil, nil
	}
	r := newRun(files, options)
	r.translate()
	for _, n := range r.graph.free.nodes {
		free = append(free, n.name)
	}
	for _, name := range r.graph.clock.order {
		free = append(free, r.graph.clock.nodes[name].name)
	}
	if r.fault {
		r.refusals.only(map[*dmn.Element]bool{files[0].Root: true})
		faults = r.refusals.inOrder(files)
	}
	return free, faults
}

// Settled returns options that fix what was found in all of the files: the decimals of inputs, and which times have an
// offset. With them a part of the files is read like the whole.
func Settled(files []*dmn.File, options Options) Options {
	r := newRun(files, options)
	r.translate()
	options.Decimals, options.Offsets = nil, r.graph.offsets.names()
	if r.units == nil {
		return options
	}
	found := NoDecimals()
	found.Named = map[string]int{}
	for _, name := range r.graph.offsets.timed {
		found.Named[name] = r.graph.offsets.tick.Decimals
	}
	for _, each := range r.units.all {
		found.Named[each.name] = each.scale
	}
	options.Decimals = &found
	return options
}

// A run is one translation of some files.
type run struct {
	files    []*dmn.File
	options  Options
	refusals *refusals
	graph    *graph
	// alone are the parts that the requested service needs; nil if all parts are translated.
	alone map[*dmn.Element]bool
	// units has the units of the inputs; nil if all numbers are whole.
	units *cells
	// fault is true if an option is about something that the files don't have.
	fault bool
}

func newRun(files []*dmn.File, options Options) *run {
	r := newRefusals()
	return &run{files: files, options: options, refusals: r, graph: newGraph(files, r, newWords(), options)}
}

// translate makes the passes. Those that find types are muted; the last ones translate.
func (r *run) translate() {
	trees := map[*dmn.Text]*tree{}
	r.refusals.muted = true
	counts := passOver(r.graph, trees, false) || r.options.Decimals != nil
	if r.graph.addFree() {
		trees = map[*dmn.Text]*tree{}
		counts = passOver(r.graph, trees, false) || counts
	}
	for r.graph.offsets.settle() {
		counts = passOver(r.graph, trees, false) || counts
	}
	if counts {
		r.units = countedInputs(r.graph, trees, r.options.Decimals)
	}
	r.refusals.muted = false
	if r.units != nil && !r.options.Part && r.alone == nil {
		r.fault = r.units.refuseUnused()
	}
	if !r.options.Part && r.alone == nil {
		r.fault = r.graph.offsets.refuseUnused(r.graph) || r.fault
	}
	r.pass(trees, counts)
	r.graph.free.note(r.refusals)
	r.graph.clock.note(r.refusals)
	r.graph.checkNesting()
	if len(r.graph.decisions) == 0 && len(r.files) > 0 {
		r.refusals.refuse(r.files[0].Root, "", "there is no decision", "a decision")
	}
}

// mostPasses is how many passes look for units that fit. Each makes some unit finer.
const mostPasses = 20

// pass makes the pass whose texts are kept: the first one that needs no finer unit of an input.
func (r *run) pass(trees map[*dmn.Text]*tree, counts bool) {
	for pass := 0; ; pass++ {
		before := r.refusals.copied()
		translate(r.graph, trees, counts)
		if r.units == nil || pass == mostPasses || !r.units.settle() {
			return
		}
		*r.refusals = before
		r.graph.words.forgetFresh()
		r.graph.forgetTypes()
	}
}

// restrict reduces the graph to what the requested service needs; false if there is no such service.
func (r *run) restrict() bool {
	services := newServices(r.graph).all(r.options.Service)
	if len(services) == 0 {
		return false
	}
	n := r.graph.needed(services)
	r.alone = n.parts
	r.graph.keep(n)
	return true
}

// report makes the report, with the result if there is one.
func (r *run) report() *Report {
	g := r.graph
	services := newServices(g).all(r.options.Service)
	report := &Report{Refusals: r.reported()}
	if len(report.Refusals) > 0 {
		candidates := services
		if len(candidates) == 0 && r.options.Service == "" {
			candidates = g.eachDecision()
		}
		clean := r.sorted(report, candidates)
		if r.fault || !r.options.Partial || r.options.Service != "" || len(clean) == 0 {
			return report
		}
		g.keep(g.needed(clean))
		if len(services) > 0 {
			services = clean
		}
	}
	if r.alone != nil {
		r.alone[r.files[0].Root] = true
	}
	before := len(r.refusals.all)
	if len(g.decisions) > mostDecisions {
		r.refusals.refuse(g.decisions[mostDecisions].element(), "", fmt.Sprintf("there are over %d decisions", mostDecisions),
			"several models")
	}
	result, tooLarge := assembled(g, services, r.units != nil)
	if tooLarge != nil {
		r.refusals.refuse(tooLarge.element(), tooLarge.name, fmt.Sprintf("the schemas of the values up to here have over %d bytes in all",
			mostOfSchemas), "smaller types, or fewer decisions of them")
		report.Refusals = r.reported()
		return report
	}
	nullable, unknown := g.nullablePaths(r.options.Nullable)
	promises := g.promises(nullable)
	result.Required, result.Domains, result.unknownNullable = required(promises), domains(promises, g.offsets.tick), unknown
	if r.options.Service == "" && len(services) == 0 && len(g.decisions) <= mostDecisions {
		defaultServices(g, result)
	}
	r.renamed(result)
	result.Notes = r.refusals.notes
	r.fitsLine(result)
	if len(r.refusals.all) > before {
		report.Refusals = r.reported()
		return report
	}
	report.Result = result
	return report
}

// sorted returns the services that can be made, and notes in the report which these are.
func (r *run) sorted(report *Report, services []service) []service {
	n := r.graph.needed(nil)
	var clean []service
	for _, s := range services {
		if n.isClean(s) {
			clean = append(clean, s)
			report.Made = append(report.Made, spelled(s.name))
		} else {
			report.Unmade = append(report.Unmade, spelled(s.name))
		}
	}
	return clean
}

// reported returns the refusals in the order of the files: all, or those of the requested service.
func (r *run) reported() []Refusal {
	if r.alone != nil {
		r.refusals.only(r.alone)
	}
	if len(r.refusals.all) == 0 {
		return nil
	}
	return r.refusals.inOrder(r.files)
}

// serviceRefusal returns the refusal of a service that the files don't have.
func (r *run) serviceRefusal() []Refusal {
	for _, refusal := range r.refusals.all {
		if refusal.Why == noSuchService {
			return []Refusal{refusal}
		}
	}
	return r.reported()
}

// fitsLine refuses a model that doesn't fit in a line.
func (r *run) fitsLine(result *Result) {
	bytes, err := Line(&result.Model)
	if err == nil && len(bytes) <= MostLine {
		return
	}
	why := fmt.Sprintf("the model takes %d bytes, and a line has %d at most", len(bytes), MostLine)
	if err != nil {
		why = err.Error()
	}
	r.refusals.refuse(r.files[0].Root, "", why, "several models, each with fewer decisions")
}

// eachDecision returns a service for each decision.
func (g *graph) eachDecision() []service {
	all := make([]service, 0, len(g.decisions))
	for _, n := range g.decisions {
		all = append(all, service{name: n.name, nodes: []*node{n}})
	}
	return all
}

// Summary returns the line that says which services can be made, if some can't; empty if there is nothing to say.
func (r *Report) Summary() string {
	switch all := len(r.Made) + len(r.Unmade); {
	case len(r.Made) == 0 || len(r.Unmade) == 0:
		return ""
	case r.Result == nil:
		return fmt.Sprintf("%d of %d services could be made: --partial makes these, --service NAME one of them", len(r.Made), all)
	default:
		return fmt.Sprintf("%d of %d services are made; not made: %s", len(r.Made), all, strings.Join(shortList(r.Unmade), ", "))
	}
}

// mostListed is how many names a line lists.
const mostListed = 20

func shortList(names []string) []string {
	if len(names) > mostListed {
		return append(append([]string(nil), names[:mostListed]...), fmt.Sprintf("and %d more", len(names)-mostListed))
	}
	return names
}
