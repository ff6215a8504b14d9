package tell

import (
	"bytes"
	"encoding/json"
	"fmt"
	"net/url"
	"path/filepath"
)

// The parts of a SARIF 2.1.0 log that are written, with SARIF's names.
type (
	sarifLog struct {
		Schema  string     `json:"$schema"`
		Version string     `json:"version"`
		Runs    []sarifRun `json:"runs"`
	}
	sarifRun struct {
		Tool       sarifTool     `json:"tool"`
		ColumnKind string        `json:"columnKind"`
		Results    []sarifResult `json:"results"`
	}
	sarifTool struct {
		Driver sarifDriver `json:"driver"`
	}
	sarifDriver struct {
		Name    string      `json:"name"`
		Version string      `json:"version,omitempty"`
		Rules   []sarifRule `json:"rules"`
	}
	sarifRule struct {
		ID               string             `json:"id"`
		ShortDescription sarifMessage       `json:"shortDescription"`
		Configuration    sarifConfiguration `json:"defaultConfiguration"`
	}
	sarifConfiguration struct {
		Level Level `json:"level"`
	}
	sarifMessage struct {
		Text string `json:"text"`
	}
	sarifResult struct {
		RuleID    string          `json:"ruleId"`
		RuleIndex int             `json:"ruleIndex"`
		Level     Level           `json:"level"`
		Message   sarifMessage    `json:"message"`
		Locations []sarifLocation `json:"locations,omitempty"`
	}
	sarifLocation struct {
		Physical *sarifPhysical `json:"physicalLocation,omitempty"`
		Logical  []sarifLogical `json:"logicalLocations,omitempty"`
	}
	sarifPhysical struct {
		Artifact sarifArtifact `json:"artifactLocation"`
		Region   *sarifRegion  `json:"region,omitempty"`
	}
	sarifArtifact struct {
		URI string `json:"uri"`
	}
	sarifRegion struct {
		StartLine   int `json:"startLine"`
		StartColumn int `json:"startColumn"`
	}
	sarifLogical struct {
		Name string `json:"fullyQualifiedName"`
	}
)

const sarifSchema = "https://docs.oasis-open.org/sarif/sarif/v2.1.0/errata01/os/schemas/sarif-schema-2.1.0.json"

// sarif returns a SARIF log with a rule for each kind of the catalogue and a result for each notice.
func sarif(notices []Notice, version string) ([]byte, error) {
	driver := sarifDriver{Name: "desk", Version: version}
	ranks := map[string]int{}
	for at, name := range kindsInOrder() {
		kind := catalogue[name]
		ranks[name] = at
		driver.Rules = append(driver.Rules, sarifRule{name, sarifMessage{kind.meaning}, sarifConfiguration{kind.level}})
	}
	results := []sarifResult{}
	for _, n := range notices {
		rank, ok := ranks[n.Kind]
		if !ok {
			return nil, fmt.Errorf("no kind of finding is called %s", n.Kind)
		}
		result := sarifResult{RuleID: n.Kind, RuleIndex: rank, Level: n.Level, Message: sarifMessage{n.said()}}
		if location := locationOf(n); location != nil {
			result.Locations = []sarifLocation{*location}
		}
		results = append(results, result)
	}
	var text bytes.Buffer
	encoder := json.NewEncoder(&text)
	encoder.SetEscapeHTML(false)
	encoder.SetIndent("", "  ")
	log := sarifLog{sarifSchema, "2.1.0", []sarifRun{{sarifTool{driver}, "unicodeCodePoints", results}}}
	if err := encoder.Encode(log); err != nil {
		return nil, fmt.Errorf("writing SARIF: %w", err)
	}
	return text.Bytes(), nil
}

// locationOf returns the location of a notice; nil if unknown.
func locationOf(n Notice) *sarifLocation {
	location := &sarifLocation{}
	if n.Spot.File != "" {
		location.Physical = &sarifPhysical{Artifact: sarifArtifact{uriOf(n.Spot.File)}}
		if n.Spot.Line > 0 {
			location.Physical.Region = &sarifRegion{n.Spot.Line, n.Spot.Column}
		}
	}
	if n.Pointer != "" {
		location.Logical = []sarifLogical{{n.Pointer}}
	}
	if location.Physical == nil && location.Logical == nil {
		return nil
	}
	return location
}

// uriOf returns the reference of a file, relative or absolute as its path is.
func uriOf(path string) string {
	if filepath.IsAbs(path) {
		return (&url.URL{Scheme: "file", Path: path}).String()
	}
	// A colon in the first part would end a scheme; String puts "./" before it.
	return (&url.URL{Path: filepath.ToSlash(path)}).String()
}
