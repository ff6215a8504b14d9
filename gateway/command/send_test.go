package command

import (
	"bytes"
	"context"
	"io"
	"regexp"
	"testing"

	"gateway/engine"
	"gateway/rabbit/bus"
)

// An until is written to until it has a text, and then closes its channel.
type until struct {
	bytes.Buffer
	found func(text string) bool
	then  func()
}

func (u *until) Write(text []byte) (int, error) {
	defer func() {
		if u.found(u.String()) {
			u.then()
		}
	}()
	return u.Buffer.Write(text)
}

var reportedBatch = regexp.MustCompile(`(?m)^desk send: batch ([0-9a-f]{32})$`)

// A named sender whose batch has no id gives it a new one each time, and reports it.
func TestABatchWithoutAnIDIsGivenOne(t *testing.T) {
	if _, err := engine.Path(); err != nil {
		t.Skip(err)
	}
	t.Setenv(bus.BrokersVariable, "amqp://127.0.0.1:1") // nobody is there
	ids := map[string]bool{}
	for range []int{1, 2} {
		ctx, stop := context.WithCancel(context.Background())
		said := &until{found: reportedBatch.MatchString, then: stop}
		root := newRoot()
		root.SetArgs([]string{"send", "--sender", "a"})
		root.SetIn(&bytes.Buffer{})
		root.SetOut(io.Discard)
		root.SetErr(said)
		root.ExecuteContext(ctx)
		if id := reportedBatch.FindStringSubmatch(said.String()); id != nil {
			ids[id[1]] = true
		}
	}
	if len(ids) != 2 {
		t.Errorf("%v", ids)
	}
}

// A name is remembered for ninety days without --sender-days.
func TestSenderDays(t *testing.T) {
	c, _, err := newRoot().Find([]string{"partition"})
	if err != nil {
		t.Fatal(err)
	}
	if got := c.Flags().Lookup("sender-days").Value.String(); got != "90" {
		t.Errorf("%s days", got)
	}
}
