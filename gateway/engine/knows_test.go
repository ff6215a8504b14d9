package engine

import (
	"context"
	"os"
	"path/filepath"
	"testing"
)

// TestKnows reads an engine's help, wherever its lines end.
func TestKnows(t *testing.T) {
	for help, due := range map[string]Known{
		"":                            {},
		"      --tables       Report": {Tables: true},
		"      --tables  Report\n      --gives  Report": {Tables: true, Gives: true},
		"--tables\n--gives":                             {Tables: true, Gives: true},
	} {
		path := filepath.Join(t.TempDir(), "engine")
		script := "#!/bin/sh\n[ \"$*\" = 'help check' ] || exit 1\ncat <<'E'\n" + help + "\nE\n"
		if err := os.WriteFile(path, []byte(script), 0o755); err != nil {
			t.Fatal(err)
		}
		if got := Knows(context.Background(), path); got != due {
			t.Errorf("%s: %+v, and %+v is due", help, got, due)
		}
	}
	if got := Knows(context.Background(), filepath.Join(t.TempDir(), "none")); got != (Known{}) {
		t.Errorf("no engine: %+v", got)
	}
}
