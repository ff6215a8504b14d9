package calendar

import (
	"testing"
	"time"
)

func TestSecondsAt(t *testing.T) {
	due, _, err := whole.DateTime("2026-03-28T23:30:15+02:00")
	at := time.Date(2026, 3, 28, 21, 30, 15, 999, time.FixedZone("x", 0)).In(time.FixedZone("y", -3600))
	if seconds := whole.At(at); err != nil || seconds != due {
		t.Errorf("%d is due, and %d came, %v", due, seconds, err)
	}
}

func TestZones(t *testing.T) {
	at := time.Date(2026, 3, 28, 23, 30, 0, 0, time.UTC)
	for zone, due := range map[string]string{"UTC": "2026-03-28", "Z": "2026-03-28", "+00:30": "2026-03-29", "+00:29": "2026-03-28", "-05:00": "2026-03-28",
		"Europe/Berlin": "2026-03-29", "America/New_York": "2026-03-28", "Pacific/Kiritimati": "2026-03-29", "+14:00": "2026-03-29", "-00:00": "2026-03-28"} {
		location, err := Zone(zone)
		if err != nil || DayText(DayAt(at, location)) != due {
			t.Errorf("in %s it is %s, and %v, %v came", zone, due, location, err)
		}
	}
	for _, zone := range []string{"", "Local", "Berlin", "../etc/passwd", "+2", "+15:00", "+01:60", "utc ", "+14:01"} {
		if location, err := Zone(zone); err == nil {
			t.Errorf("%q is no zone, and %v came", zone, location)
		}
	}
}
