package openapi

import (
	"crypto/sha256"
	"encoding/hex"
	"strings"
)

// fixed are the names of operations and schemas in every document.
var fixed = []string{"Problem", "getModel", "putModel", "getServices", "getHealth", "getReady", "getMetrics", "getOpenAPI", "getProblems", "getProblem",
	"checkModel", "getTables", "countRules", "getPage", "tryModel", "getReleases"}

// operations returns the names of the services' operations. They differ from each other and from the fixed ones. A name depends
// only on the service's name: characters other than letters, digits and underscores become underscores, followed by some digits
// of the name's SHA-256.
func operations(services []Service) []string {
	names := make([]string, len(services))
	for at, service := range services {
		names[at] = operation(service.Name)
	}
	return names
}

// nameDigits is how many digits of a sum distinguish names.
const nameDigits = 8

func operation(name string) string {
	made := strings.Map(func(r rune) rune {
		if r >= 'a' && r <= 'z' || r >= 'A' && r <= 'Z' || r >= '0' && r <= '9' || r == '_' {
			return r
		}
		return '_'
	}, name)
	isOther := made == "" || made != name || made[0] >= '0' && made[0] <= '9' || strings.HasSuffix(name, "_explained") || strings.HasPrefix(name, "s_")
	for _, other := range fixed {
		isOther = isOther || strings.EqualFold(other, made)
	}
	if !isOther {
		return made
	}
	sum := sha256.Sum256([]byte(name))
	return "s_" + made + "_" + hex.EncodeToString(sum[:])[:nameDigits]
}
