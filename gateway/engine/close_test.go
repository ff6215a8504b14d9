package engine

import (
	"context"
	"os"
	"path/filepath"
	"strings"
	"testing"
	"time"

	"gateway/engine/enginetest"
)

// An engine that doesn't end with status 0 once all is answered is reported.
func TestEnginesEndWell(t *testing.T) {
	path, err := filepath.Abs(desk())
	if err != nil {
		t.Fatal(err)
	}
	script := filepath.Join(t.TempDir(), "desk")
	text := "#!/bin/sh\n'" + path + "' \"$@\"\nexit 7\n"
	if err := os.WriteFile(script, []byte(text), 0o700); err != nil {
		t.Fatal(err)
	}
	model := adding(1)
	p := Start(Options{Path: script, Processes: 1, Deadline: 20 * time.Second, Patience: time.Minute, Died: func(int, error) {}}, model)
	var all asked
	put(t, p, "", all.job(model, adds(1)))
	all.once(t)
	if got := string(all.outcomes[0].Value); got != "2" {
		t.Errorf("the request has %q", got)
	}
	ctx, stop := context.WithTimeout(context.Background(), time.Minute)
	defer stop()
	if err := p.Close(ctx); err == nil || !strings.Contains(err.Error(), "exit status 7") {
		t.Errorf("closing says %v", err)
	}
}

// A request that is given up at the end doesn't make the end a failure.
func TestPoisonAtTheEnd(t *testing.T) {
	model := adding(1)
	p := start(t, Options{Path: enginetest.Waiting(t, desk()), Processes: 1, Deadline: 3 * time.Second}, model)
	var all asked
	put(t, p, "", all.job(model, waits(filepath.Join(t.TempDir(), "never"))))
	end(t, p)
	all.once(t)
	if all.outcomes[0].Kind != Late {
		t.Errorf("kind %d", all.outcomes[0].Kind)
	}
}
