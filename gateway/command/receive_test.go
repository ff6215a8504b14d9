package command

import (
	"testing"
	"time"

	"gateway/rabbit/bus"
)

func TestWhereAReceiverBegins(t *testing.T) {
	for text, due := range map[string]bus.From{"first": {}, "next": {Place: bus.Next}, "1000": bus.FromOffset(1000),
		"2026-11-27T16:00:00Z": {Place: bus.Since, Since: time.Date(2026, 11, 27, 16, 0, 0, 0, time.UTC)}} {
		if from, err := fromOf(text); err != nil || from != due {
			t.Errorf("%s: %v, %v", text, from, err)
		}
	}
	for _, text := range []string{"", "-1", "1.5", "last", "2026-11-27"} {
		if from, err := fromOf(text); err == nil {
			t.Errorf("%q: %v", text, from)
		}
	}
}
