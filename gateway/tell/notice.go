package tell

import (
	"fmt"
	"sort"
	"strings"
)

// A Level is the severity of a finding, in SARIF's words.
type Level string

const (
	Error   Level = "error"
	Warning Level = "warning"
	Note    Level = "note"
)

// A Spot is a position in a file. Lines and columns are counted from 1; line 0 is the whole file. File is "" for the file that
// is checked.
type Spot struct {
	File         string
	Line, Column int
}

// A Notice is one finding, for programs that show it at its place.
type Notice struct {
	// Kind is a kind of the catalogue.
	Kind  string
	Level Level
	// Spot has its column in characters. Its file is "" if none is known.
	Spot Spot
	// Pointer is the JSON Pointer of the place in the model; it may be "".
	Pointer string
	// Said says what was found, and where in the model.
	Said string
}

// said returns the message, with the place if no file is known.
func (n Notice) said() string {
	if n.Spot.File == "" && n.Spot.Line > 0 {
		return fmt.Sprintf("line %d, column %d: %s", n.Spot.Line, n.Spot.Column, n.Said)
	}
	return n.Said
}

// Prefixes of kinds: faults, warnings, findings about tables, request lines, and findings of an import.
const (
	ofFault    = "fault-"
	ofWarning  = "warning-"
	ofTable    = "table-"
	ofRequests = "request-"
	// ImportRefused is the kind of a place that an import refuses, ImportNote that of a note.
	ImportRefused = "import-refused"
	ImportNote    = "import-note"
)

// kindName returns the name of a kind: its prefix, and the word used in the lines of JSON.
func kindName(of, word string) string { return of + strings.ReplaceAll(word, " ", "-") }

// A noticeKind is a kind's meaning and its usual level.
type noticeKind struct {
	level   Level
	meaning string
}

// catalogue has all kinds.
var catalogue = map[string]noticeKind{
	"fault-syntax":     {Error, "The file is not JSON"},
	"fault-shape":      {Error, "A value has not the form of its part of a model"},
	"fault-name":       {Error, "A name is not valid"},
	"fault-twice":      {Error, "A name occurs twice"},
	"fault-expression": {Error, "A text is not a valid expression, test or literal"},
	"fault-table":      {Error, "A decision table is not valid"},
	"fault-unknown":    {Error, "A needed name is neither an input nor a decision"},
	"fault-cycle":      {Error, "A decision needs itself"},
	"fault-service":    {Error, "A service doesn't fit the decisions"},
	"fault-large":      {Error, "The model has over 1,000 decisions"},
	"fault-long":       {Error, "The model is too long for a line"},
	"fault-domain":     {Error, "What is declared of an input can't be taken"},

	"warning-repeated-key":             {Warning, "A key occurs twice in an object, and the last one counts"},
	"warning-hidden-letter":            {Warning, "A text has letters that turn or hide what is seen"},
	"warning-unbound":                  {Warning, "A name is not bound, so it is null"},
	"warning-unneeded":                 {Warning, "No decision needs the input or decision"},
	"warning-unreached":                {Warning, "No output of a service needs the decision"},
	"warning-unused-need":              {Warning, "The decision doesn't use what it needs"},
	"warning-unused-entry":             {Warning, "Nothing uses the entry of a context"},
	"warning-ungiven-value":            {Warning, "No rule gives the listed value"},
	"warning-unlisted-value":           {Warning, "A rule gives a value that isn't listed"},
	"warning-unmet-tests":              {Warning, "No value meets the tests"},
	"warning-other-kind":               {Warning, "A test asks for another kind of value than those of the other rules"},
	"warning-never-decides":            {Warning, "Another rule always goes before this one"},
	"warning-two-hits":                 {Warning, "Two rules hit together, so the result is null"},
	"warning-no-priority":              {Warning, "The hit policy needs listed output values"},
	"warning-no-number":                {Warning, "The hit policy aggregates numbers, and a rule gives none"},
	"warning-truth-in-cell":            {Warning, "A cell has a condition where a test is due"},
	"warning-list-for-interval":        {Warning, "A list is written where an interval is meant"},
	"warning-cut-number":               {Warning, "A comma cuts a number into two tests"},
	"warning-added-text":               {Warning, "+ adds numbers, and of a text it makes null"},
	"warning-never-given":              {Warning, "A decision never gives the value that it is compared with"},
	"warning-no-entry":                 {Warning, "A decision never has the entry"},
	"warning-no-condition":             {Warning, "A condition is a number or a text"},
	"warning-settled-condition":        {Warning, "A condition has the same value in each case"},
	"warning-dead-branch":              {Warning, "A branch is never taken"},
	"warning-always-null":              {Warning, "An expression is always null"},
	"warning-counted-cell":             {Warning, "A subtraction is written where an interval is meant"},
	"warning-same-rule":                {Warning, "Two rules are the same, so one counts twice"},
	"warning-unused-column":            {Warning, "Each rule accepts every value of the column"},
	"warning-unreached-input-decision": {Warning, "No output of the service needs the input decision"},
	"warning-unused-default":           {Warning, "Some rule hits in each case, so the default is never taken"},
	"table-overlap":                    {Warning, "Two rules both hit, and the hit policy allows one"},
	"table-gap":                        {Warning, "No rule hits for some values"},
	"table-other-kinds":                {Note, "No rule hits for values of other kinds than the tests ask for"},
	"table-never":                      {Warning, "A rule never hits"},
	"table-masked":                     {Warning, "A rule never decides, for others go before it"},
	"table-undecided":                  {Note, "What was asked of a table is not decided"},
	givesNull:                          {Warning, "A service can give null or break a limit"},
	givesMore:                          {Note, "Further services were not looked at"},
	"table-more":                       {Note, "Further tables are not listed"},
	"request-long":                     {Error, "The line is too long"},
	"request-syntax":                   {Error, "The line is not JSON"},
	"request-shape":                    {Error, "The line is none that serve reads"},
	"request-model":                    {Error, "The model of the line has a fault"},
	"request-closed":                   {Error, "The client of the line is closed"},
	"request-capacity":                 {Error, "The capacity is out of range"},
	"request-service":                  {Warning, "The model has no such service"},
	"request-no-parameter":             {Warning, "The service has no such parameter"},
	"request-missing":                  {Note, "A parameter is missing, so it is null"},
	"request-value":                    {Warning, "The value can't be taken"},
	"request-no-entry":                 {Warning, "No text of the model takes the entry"},
	"request-text-for-number":          {Warning, "A text is given where all tests ask for numbers"},
	"request-more":                     {Note, "Further lines are not listed"},
	ImportRefused:                      {Error, "The import doesn't support this"},
	ImportNote:                         {Note, "A note of the import on what it took"},
}

// kindsInOrder returns the kinds, sorted by bytes.
func kindsInOrder() []string {
	var names []string
	for name := range catalogue {
		names = append(names, name)
	}
	sort.Strings(names)
	return names
}

// notice keeps a finding at a place of the model.
func (r *report) notice(kind string, level Level, place Place, said string) {
	if !r.format.HasNotices() {
		return
	}
	r.noticeAt(kind, level, r.file.position(place), place.Pointer(), afterColon(r.file.words(place), said))
}

// noticeAt keeps a finding at a place of the file.
func (r *report) noticeAt(kind string, level Level, spot Spot, pointer, said string) {
	if !r.format.HasNotices() {
		return
	}
	if spot.File == "" {
		spot = Spot{r.name, spot.Line, r.lines.characters(spot)}
	}
	r.notices = append(r.notices, Notice{kind, level, spot, pointer, said})
}
