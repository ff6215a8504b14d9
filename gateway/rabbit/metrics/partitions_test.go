package metrics

import (
	"context"
	"errors"
	"io"
	"net/http"
	"strings"
	"testing"
)

// An unreachable partition is reported at once, and no longer once it is reached.
func TestAFailingPartition(t *testing.T) {
	p := NewPartitions("send")
	ctx, stop := context.WithCancel(context.Background())
	defer stop()
	address, err := Serve(ctx, "127.0.0.1:0", p)
	if err != nil {
		t.Fatal(err)
	}
	get := func(path string) (int, string) {
		answer, err := http.Get("http://" + address.String() + path)
		if err != nil {
			t.Fatal(err)
		}
		defer answer.Body.Close()
		text, err := io.ReadAll(answer.Body)
		if err != nil {
			t.Fatal(err)
		}
		return answer.StatusCode, string(text)
	}
	p.Failed(3, errors.New("no stream"))
	p.Failed(1, errors.New("no leader"))
	if status, said := get("/readyz"); status != 503 || said != "partition 1 can't be reached: no leader; partition 3 can't be reached: no stream\n" {
		t.Errorf("%d %s", status, said)
	}
	if _, text := get("/metrics"); !strings.Contains(text, "\ndesk_send_failing_partitions 2\n") {
		t.Error(text)
	}
	p.Failed(3, nil)
	p.Failed(1, nil)
	if status, said := get("/readyz"); status != 200 || said != "each partition is reached\n" {
		t.Errorf("%d %s", status, said)
	}
}
