package logs

import (
	"bytes"
	"regexp"
	"testing"
)

func TestALineHasATimeAndALevel(t *testing.T) {
	var text bytes.Buffer
	log := New(&text, "desk partition")
	log.Info("%d partitions", 4)
	log.OfPartition(3).Warning("not taken over")
	log.OfPartition(3).Of("line 7").Error("lost")
	const when = `\d{4}-\d\d-\d\dT\d\d:\d\d:\d\d\.\d{3}Z `
	due := regexp.MustCompile(`^` + when + "info desk partition: 4 partitions\n" + when + "warning desk partition: partition 3: not taken over\n" +
		when + "error desk partition: partition 3: line 7: lost\n$")
	if !due.Match(text.Bytes()) {
		t.Errorf("%s", text.Bytes())
	}
}
