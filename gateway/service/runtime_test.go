package service

import "testing"

func TestAtOnce(t *testing.T) {
	for _, it := range []struct{ processors, engines, due int }{
		{1, 1, 1}, {2, 2, 2}, {4, 4, 2}, {4, 1, 3}, {4, 64, 2}, {64, 64, 32}, {64, 8, 56},
	} {
		if got := atOnce(it.processors, it.engines); got != it.due {
			t.Errorf("of %d processors, with %d engines: %d, and %d is due", it.processors, it.engines, got, it.due)
		}
	}
}
