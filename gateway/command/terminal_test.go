package command

import (
	"testing"
	"time"
)

func TestProgressSaysWhatIsDoneAndHowLongYet(t *testing.T) {
	reading := &progress{what: "explain", total: 200e6, unit: megabytes}
	if got, due := reading.line(50e6, 5*time.Second), "explain: 50.0 of 200.0 MB (25 %), 10.0 MB/s, 15s left"; got != due {
		t.Errorf("it says %q, and %q is due", got, due)
	}
	if got, due := reading.line(0, time.Second), "explain: 0.0 of 200.0 MB (0 %)"; got != due {
		t.Errorf("it says %q, and %q is due", got, due)
	}
	testing := &progress{what: "testing", unit: unit{"cases", 1}}
	if got, due := testing.line(12, time.Second), "testing: 12"; got != due {
		t.Errorf("it says %q, and %q is due", got, due)
	}
}

func TestSizesAndTimes(t *testing.T) {
	for text, due := range map[string]string{"512MiB": "512MiB", "1048576": "1MiB", "0": "0", "1024GiB": "1024GiB", "7": "7"} {
		var got size
		if err := got.Set(text); err != nil || got.String() != due {
			t.Errorf("%s is %s, %v", text, got.String(), err)
		}
	}
	for _, text := range []string{"", "many", "-1", "1.5GiB", "99999999999GiB", "9223372036854775808", "1 MiB"} {
		var got size
		if err := got.Set(text); err == nil {
			t.Errorf("%q is read as %s", text, got.String())
		}
	}
	for text, due := range map[string]string{"1m": "1m", "90s": "1m30s", "2s": "2s", "0s": "0s", "20m": "20m"} {
		var got duration
		if err := got.Set(text); err != nil || got.String() != due {
			t.Errorf("%s is %s, %v", text, got.String(), err)
		}
	}
}
