package compare

import (
	"html/template"
	"io"
)

// A Difference is a request whose answers differ.
type Difference struct {
	// Row is where the request is in its file, and Inputs are its inputs in JSON.
	Row    string `json:"row"`
	Inputs string `json:"inputs"`
	// Old and New are the answers, or why there is none; the rules are those that decided.
	Old      string `json:"old"`
	New      string `json:"new"`
	OldRules string `json:"oldRules,omitempty"`
	NewRules string `json:"newRules,omitempty"`
}

// A Report is all that is said of two models.
type Report struct {
	Old     string   `json:"old"`
	New     string   `json:"new"`
	Changes []Change `json:"changes"`
	// Requests is how many requests were asked of both models, Differ how many of them have other answers, and Differences has
	// the first of these. Refused counts those that neither or only one of the models takes.
	Requests    int          `json:"requests"`
	Differ      int          `json:"differ"`
	Refused     int          `json:"refused"`
	Differences []Difference `json:"differences"`
}

// IsSame says whether nothing differs.
func (r *Report) IsSame() bool { return len(r.Changes) == 0 && r.Differ == 0 }

var page = template.Must(template.New("page").Parse(`<!DOCTYPE html>
<html lang="en"><head><meta charset="utf-8"><title>{{.Old}} and {{.New}}</title>
<style>
body { font: 15px/1.5 sans-serif; margin: 2rem auto; max-width: 70rem; padding: 0 1rem; color: #222 }
table { border-collapse: collapse; width: 100% } th, td { border: 1px solid #ccc; padding: .3rem .6rem; text-align: left; vertical-align: top }
td { overflow-wrap: anywhere } .new { background: #e6f5e6 } .gone { background: #fbe6e6 } .changed { background: #fff6da }
</style></head><body>
<h1>{{.Old}} and {{.New}}</h1>
<h2>The models</h2>
{{if .Changes}}<p>{{len .Changes}} changes.</p>
<table><tr><th>Of</th><th>Change</th><th>Part</th><th>Old</th><th>New</th></tr>
{{range .Changes}}<tr class="{{.Kind}}"><td>{{.Of}}</td><td>{{.Kind}}</td><td>{{.What}} {{.Name}}</td><td>{{.Old}}</td><td>{{.New}}</td></tr>
{{end}}</table>{{else}}<p>The models are the same.</p>{{end}}
{{if .Requests}}<h2>The answers</h2>
<p>{{.Differ}} of {{.Requests}} requests have other answers.{{if .Refused}} {{.Refused}} could not be asked.{{end}}</p>
{{if .Differences}}<table><tr><th>Row</th><th>Inputs</th><th>Old</th><th>New</th></tr>
{{range .Differences}}<tr><td>{{.Row}}</td><td>{{.Inputs}}</td><td>{{.Old}}{{with .OldRules}}<br>rules: {{.}}{{end}}</td><td>{{.New}}{{with .NewRules}}<br>rules: {{.}}{{end}}</td></tr>
{{end}}</table>{{end}}{{end}}
</body></html>
`))

// WriteHTML writes a page that needs no other file.
func (r *Report) WriteHTML(to io.Writer) error { return page.Execute(to, r) }
