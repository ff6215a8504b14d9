package service

import (
	"fmt"
	"net/http"
	"net/url"
	"sort"
	"strings"

	"gateway/near"
)

// anyName stands for the name of a service in a path.
const anyName = "*"

// queryWords are the parameters that the queries of a path take. Other paths ignore all parameters.
var queryWords = map[string][]string{
	"/v1/model":            {"text", "whole", "name", "version", "why"},
	listStart:              {},
	servicesPath:           {},
	servicesPath + anyName: {"explain"},
	explainStart + anyName: {"misses", "model"},
	"/v1/check":            {},
	"/v1/coverage":         {"model", "service"},
	"/v1/tables":           {"model"},
	"/v1/trial":            {"model", "against", "client", "service", "rule", "release", "from", "to", "most", "csv"},
	"/v1/releases":         {},
	"/openapi.json":        {},
}

// wordsOf returns the parameters that the query of a path takes; false if it ignores them.
func wordsOf(path string) ([]string, bool) {
	for _, start := range []string{servicesPath, explainStart} {
		if strings.HasPrefix(path, start) && len(path) > len(start) {
			path = start + anyName
		}
	}
	words, checked := queryWords[path]
	return words, checked
}

// queryProblem says which parameter of a query its path doesn't take; nil if there is none.
func queryProblem(r *http.Request) *problem {
	if r.URL.RawQuery == "" {
		return nil
	}
	words, checked := wordsOf(r.URL.Path)
	if !checked {
		return nil
	}
	values, err := url.ParseQuery(r.URL.RawQuery)
	if err != nil {
		return problemHeader.with("the query cannot be read: " + err.Error())
	}
	given := make([]string, 0, len(values))
	for word := range values {
		given = append(given, word)
	}
	sort.Strings(given)
	for _, word := range given {
		if len(values[word]) > 1 {
			return problemHeader.with(fmt.Sprintf("the query has %q more than once", word))
		}
		if !isOneOf(word, words) {
			return problemHeader.with(fmt.Sprintf("the query has %q, which is not known here%s", word, meant(word, words)))
		}
	}
	return nil
}

func isOneOf(word string, words []string) bool {
	for _, other := range words {
		if other == word {
			return true
		}
	}
	return false
}

// mostNamed is how many names are listed.
const mostNamed = 10

// meant suggests the name that was meant, or lists the existing ones.
func meant(name string, names []string) string {
	if nearest := near.To(name, names); nearest != "" {
		return fmt.Sprintf("; did you mean %q?", nearest)
	}
	if len(names) == 0 || len(names) > mostNamed {
		return ""
	}
	return `; it takes "` + strings.Join(names, `", "`) + `"`
}
