package partition

import (
	"context"
	"io"
	"net/http"
	"strings"
	"testing"
	"time"

	"gateway/rabbit/answer"
	"gateway/rabbit/metrics"
)

func TestMetricsAreShown(t *testing.T) {
	g := NewGauges()
	ctx, stop := context.WithCancel(context.Background())
	defer stop()
	address, err := metrics.Serve(ctx, "127.0.0.1:0", g)
	if err != nil {
		t.Fatal(err)
	}
	get := func(path string) (int, string) {
		answer, err := http.Get("http://" + address.String() + path)
		if err != nil {
			t.Fatal(err)
		}
		defer answer.Body.Close()
		text, err := io.ReadAll(answer.Body)
		if err != nil {
			t.Fatal(err)
		}
		return answer.StatusCode, string(text)
	}
	if status, said := get("/readyz"); status != 503 || !strings.Contains(said, "no broker") {
		t.Errorf("%d %s", status, said)
	}
	g.setConnected(true)
	if !g.setMissing(partitions(4, 2)) || g.setMissing(partitions(2, 4)) {
		t.Error("what is missing is new twice, or never")
	}
	if status, said := get("/readyz"); status != 503 || !strings.Contains(said, "partitions [2 4] have no queues") {
		t.Errorf("%d %s", status, said)
	}
	g.setMissing(nil)
	g.waitsFor(partitions(1)[0], errOtherLog, time.Now().Add(-time.Second))
	if is, said := g.Ready(); !is {
		t.Error(said)
	}
	g.waitsFor(partitions(1)[0], errOtherLog, time.Now().Add(time.Hour))
	if is, said := g.Ready(); is || !strings.HasPrefix(said, "partition 1 waits: the log is not the one") {
		t.Error(said)
	}
	if _, text := get("/metrics"); !strings.Contains(text, "\ndesk_partition_waiting_partitions 1\n") {
		t.Error(text)
	}
	g.takeover(partitions(3)[0])
	var s settled
	s.add(&entry{answered: true, reason: answer.Deadline})
	s.add(&entry{skipped: true})
	g.settled(s)
	g.lag(4, 5, 1.5)
	if status, said := get("/readyz"); status != 200 || said != "owns partition 3\n" {
		t.Errorf("%d %s", status, said)
	}
	_, text := get("/metrics")
	for _, line := range []string{"connected 1", "owned 3", "lag_lines 4", "lag_messages 5", "lag_seconds 1.5", "answers_total 1",
		`refusals_total{reason="deadline"} 1`, `refusals_total{reason="died"} 0`, "takeovers_total 1", "engine_restarts_total 0"} {
		if !strings.Contains(text, "\ndesk_partition_"+line+"\n") {
			t.Errorf("%s is missing in\n%s", line, text)
		}
	}
}
