package tell

import (
	"fmt"
	"strings"
)

// GitHub's escapes: for messages, and for their properties.
var (
	inMessage  = strings.NewReplacer("%", "%25", "\r", "%0D", "\n", "%0A")
	inProperty = strings.NewReplacer("%", "%25", "\r", "%0D", "\n", "%0A", ":", "%3A", ",", "%2C")
)

var githubCommands = map[Level]string{Error: "error", Warning: "warning", Note: "notice"}

// annotations writes notices as commands of GitHub's workflows, one a line.
func annotations(notices []Notice) []byte {
	var text strings.Builder
	for _, n := range notices {
		fmt.Fprintf(&text, "::%s ", githubCommands[n.Level])
		if n.Spot.File != "" {
			fmt.Fprintf(&text, "file=%s,", inProperty.Replace(n.Spot.File))
			if n.Spot.Line > 0 {
				fmt.Fprintf(&text, "line=%d,col=%d,", n.Spot.Line, n.Spot.Column)
			}
		}
		fmt.Fprintf(&text, "title=%s::%s\n", inProperty.Replace(n.Kind), inMessage.Replace(n.said()))
	}
	return []byte(text.String())
}
