package sender

import (
	"fmt"
	"testing"

	"gateway/rabbit/bus"
	"gateway/rabbit/ledger"
)

// The lines of a message count that the partition takes: none before the expected line, and none if that is missing.
func TestWhatIsTakenOfAMessage(t *testing.T) {
	message := bus.Message{Body: []byte("a\nb\nc")}
	for next, want := range map[int64]string{4: "[]", 5: "[a b c]", 6: "[b c]", 7: "[c]", 8: "[]"} {
		if got := fmt.Sprintf("%s", takenOf(message, ledger.Origin{Number: 5}, next)); got != want {
			t.Errorf("from line %d: %s", next, got)
		}
	}
}
