package tell

import "fmt"

// A Format is an output format of `desk check`.
type Format string

// Text is for people, and the zero value means the same. JSON has a line for each finding. SARIF is OASIS SARIF 2.1.0. GitHub
// has annotations of GitHub's workflows.
const (
	Text   Format = "text"
	JSON   Format = "json"
	SARIF  Format = "sarif"
	GitHub Format = "github"
)

// Formats are all formats.
var Formats = []Format{Text, JSON, SARIF, GitHub}

// FormatOf returns the format of a name.
func FormatOf(name string) (Format, error) {
	for _, format := range Formats {
		if string(format) == name {
			return format, nil
		}
	}
	return "", fmt.Errorf("the formats are text, json, sarif and github, and %q is none", name)
}

// HasNotices reports whether a format consists of notices alone, so that findings of an import fit into it too.
func (f Format) HasNotices() bool { return f == SARIF || f == GitHub }

// WriteNotices writes notices in a format that consists of them. version is the program's.
func WriteNotices(format Format, notices []Notice, version string) ([]byte, error) {
	if format == SARIF {
		return sarif(notices, version)
	}
	return annotations(notices), nil
}
