package bus

import (
	"crypto/sha256"
	"encoding/binary"
	"fmt"
	"testing"
)

// Of changes begun at once the first counts, and a record that doesn't fit changes nothing.
func TestScaling(t *testing.T) {
	var s Scaling
	for step, c := range []struct {
		headers Headers
		counts  bool
		newest  Settings
		open    bool
	}{
		{BeginHeaders(Settings{4, 0}), false, Settings{}, false},
		{Headers{TokenHeader: "x"}, false, Settings{}, false},
		{DeclaredHeaders(0), false, Settings{}, false},
		{DeclaredHeaders(2), true, Settings{Partitions: 2}, false},
		{DeclaredHeaders(8), false, Settings{Partitions: 2}, false},
		{DoneHeaders(0), false, Settings{Partitions: 2}, false},
		{BeginHeaders(Settings{4, 1}), true, Settings{Partitions: 4, Epoch: 1}, true},
		{BeginHeaders(Settings{8, 1}), false, Settings{Partitions: 4, Epoch: 1}, true},
		{DoneHeaders(2), false, Settings{Partitions: 4, Epoch: 1}, true},
		{DoneHeaders(1), true, Settings{Partitions: 4, Epoch: 1}, false},
		{DoneHeaders(1), false, Settings{Partitions: 4, Epoch: 1}, false},
		{BeginHeaders(Settings{4, 1}), false, Settings{Partitions: 4, Epoch: 1}, false},
		{BeginHeaders(Settings{MaximumPartitions + 1, 2}), false, Settings{Partitions: 4, Epoch: 1}, false},
		{BeginHeaders(Settings{2, 2}), true, Settings{Partitions: 2, Epoch: 2}, true},
	} {
		counts := s.Take(Message{At: ScaleRoute, Headers: c.headers})
		if newest, _ := s.Newest(); counts != c.counts || newest != c.newest || s.Open != c.open {
			t.Errorf("step %d: %v, %+v", step, counts, s)
		}
	}
	if s.Take(Message{At: Route{AnswersExchange, string(TopicScale)}, Headers: DoneHeaders(2)}) {
		t.Error("a record of another exchange counts")
	}
	if before, is := s.Before(2); !is || before != (Settings{Partitions: 4, Epoch: 1}) {
		t.Errorf("%+v", before)
	}
	if _, is := s.Before(0); is {
		t.Error("something is before the first")
	}
}

// A partition's sources are those that had its keys.
func TestSources(t *testing.T) {
	for _, c := range [][2]int{{2, 4}, {4, 2}, {1, 3}, {3, 1}, {3, 5}, {6, 4}, {4, 4}} {
		before, after := Settings{Partitions: c[0]}, Settings{Partitions: c[1], Epoch: 1}
		found := make([]map[int]bool, c[1])
		for at := range found {
			found[at] = map[int]bool{}
		}
		for key := 0; key < 5000; key++ {
			digest := sha256.Sum256([]byte(fmt.Sprint(key)))
			hash := binary.BigEndian.Uint64(digest[:8])
			found[hash%uint64(c[1])][int(hash%uint64(c[0]))] = true
		}
		for partition, of := range found {
			sources := Sources(before, after, partition)
			if len(sources) != len(of) {
				t.Errorf("%v, partition %d: %v, and keys come from %v", c, partition, sources, of)
			}
			for _, source := range sources {
				if !of[source] {
					t.Errorf("%v, partition %d: no key comes from %d", c, partition, source)
				}
			}
		}
	}
}

// Each epoch has its own streams; the first one's names are those from before epochs.
func TestNamesOfEpochs(t *testing.T) {
	first, third := Settings{Partitions: 2}, Settings{Partitions: 2, Epoch: 2}
	for got, want := range map[string]string{
		first.Queue(Lines, 1): "desk.2.lines.1.of.2", third.Queue(Lines, 1): "desk.2.lines.1.of.2.2",
		first.Route(RequestsExchange, TopicLines, 1).Key: "lines.1.of.2", third.Route(RequestsExchange, TopicLines, 1).Key: "lines.1.of.2.2",
	} {
		if got != want {
			t.Errorf("%s, not %s", got, want)
		}
	}
}

// What a sender may publish closes no log and changes no number of partitions, even if more routing keys lead there.
func TestWhatASenderPublishesChangesNoNumber(t *testing.T) {
	of, to := Settings{Partitions: 2}, Settings{Partitions: 4, Epoch: 1}
	for _, route := range []Route{LookRoute, RegistryRoute, of.Route(RequestsExchange, TopicLines, 0), of.Route(RequestsExchange, TopicModels, 0)} {
		if _, is := ReadClose(Message{At: route, Headers: CloseHeaders(to)}, of); is {
			t.Errorf("%v closes a log", route)
		}
		s := Scaling{All: []Settings{of}}
		if s.Take(Message{At: route, Headers: BeginHeaders(to)}) {
			t.Errorf("%v changes the number", route)
		}
	}
	if _, is := ReadClose(Message{At: of.Route(RequestsExchange, TopicMarks, 0), Headers: CloseHeaders(to)}, of); !is {
		t.Error("a close closes no log")
	}
}
