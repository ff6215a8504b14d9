package partition

import (
	"fmt"
	"sort"
	"strings"
	"sync"
	"time"

	"github.com/prometheus/client_golang/prometheus"

	"gateway/rabbit/answer"
	"gateway/rabbit/bus"
	"gateway/rabbit/ledger"
)

// Gauges has a process's metrics: counts since its start, and its partition's lag.
type Gauges struct {
	mutex     sync.Mutex
	connected bool
	partition *bus.Partition // nil if none is owned
	waiting   int
	unread    int64
	seconds   float64
	answers   int64
	refusals  map[answer.Reason]int64
	takeovers int64
	restarts  int64
	unreads   int64 // unreadable snapshots
	lost      losses
	waits     map[bus.Partition]waiting // what partitions wait for
	missing   []bus.Partition           // the partitions without queues
	moved     time.Time                 // when a line was last answered, or nothing waited
}

// A waiting is why a partition can't be owned. Another process may own it after a while, once somebody has acted.
type waiting struct {
	reason error
	until  time.Time // when it expires; zero means never
}

// A losses counts what the brokers have lost.
type losses struct {
	gaps     int64 // of messages in logs
	messages int64 // in these gaps, at most
	lines    int64 // of batches whose other lines came
}

// NewGauges returns the gauges of a process that owns nothing.
func NewGauges() *Gauges {
	return &Gauges{refusals: make(map[answer.Reason]int64), waits: make(map[bus.Partition]waiting), moved: time.Now()}
}

func (g *Gauges) with(change func()) {
	g.mutex.Lock()
	change()
	g.mutex.Unlock()
}

func (g *Gauges) setConnected(connected bool) { g.with(func() { g.connected = connected }) }

func (g *Gauges) takeover(partition bus.Partition) {
	g.with(func() {
		g.partition, g.takeovers, g.moved = &partition, g.takeovers+1, time.Now()
		delete(g.waits, partition)
	})
}

func (g *Gauges) left() {
	g.with(func() { g.partition, g.waiting, g.unread, g.seconds = nil, 0, 0, 0 })
}

// waitsFor notes that a partition can't be owned before something is done.
func (g *Gauges) waitsFor(partition bus.Partition, reason error, until time.Time) {
	g.with(func() { g.waits[partition] = waiting{reason, until} })
}

// setMissing notes the partitions without queues, and reports whether that is new.
func (g *Gauges) setMissing(partitions []bus.Partition) (isNew bool) {
	inOrder(partitions)
	g.with(func() {
		isNew = fmt.Sprint(partitions) != fmt.Sprint(g.missing)
		g.missing = partitions
	})
	return isNew
}

// inOrder sorts partitions.
func inOrder(partitions []bus.Partition) {
	sort.Slice(partitions, func(a, b int) bool {
		first, second := partitions[a], partitions[b]
		return first.Of.Epoch < second.Of.Epoch || first.Of.Epoch == second.Of.Epoch && first.Number < second.Number
	})
}

func (g *Gauges) lostLines(lines int64) { g.with(func() { g.lost.lines += lines }) }
func (g *Gauges) lostMessages(gap ledger.Gap) {
	g.with(func() { g.lost.gaps, g.lost.messages = g.lost.gaps+1, g.lost.messages+gap.Messages() })
}
func (g *Gauges) unreadSnapshot() { g.with(func() { g.unreads++ }) }

func (g *Gauges) restart() { g.with(func() { g.restarts++ }) }

// A settled counts settled entries.
type settled struct {
	answers  int64
	refusals []answer.Reason
}

func (s *settled) add(e *entry) {
	if e.skipped || e.known {
		return
	}
	if s.answers++; e.reason != "" {
		s.refusals = append(s.refusals, e.reason)
	}
}

func (g *Gauges) settled(s settled) {
	if s.answers == 0 {
		return
	}
	g.with(func() {
		g.answers += s.answers
		g.moved = time.Now()
		for _, reason := range s.refusals {
			g.refusals[reason]++
		}
	})
}

func (g *Gauges) lag(waiting int, unread int64, seconds float64) {
	g.with(func() {
		g.waiting, g.unread, g.seconds = waiting, unread, seconds
		if waiting == 0 && unread == 0 {
			g.moved = time.Now()
		}
	})
}

// stuck is how long lines may wait without any answer while the process counts as ready.
const stuck = 2 * time.Minute

// Ready reports whether a broker is reached, and waiting lines are answered; and words it.
func (g *Gauges) Ready() (bool, string) {
	g.mutex.Lock()
	defer g.mutex.Unlock()
	switch {
	case !g.connected:
		return false, "no broker is reached"
	case g.partition != nil && time.Since(g.moved) > stuck:
		return false, fmt.Sprintf("partition %v: no line was answered for %v", g.partition, stuck)
	case g.partition == nil && g.whatFor() != "":
		return false, g.whatFor()
	case g.partition == nil:
		return true, "waits for a partition that is free" + g.lost.String()
	}
	return true, fmt.Sprintf("owns partition %v%s", g.partition, g.lost)
}

// waiters returns the partitions that wait for somebody to act, except those without queues.
func (g *Gauges) waiters() []bus.Partition {
	var found []bus.Partition
	for partition, w := range g.waits {
		if w.until.IsZero() || time.Now().Before(w.until) {
			found = append(found, partition)
		}
	}
	return found
}

// whatFor words what partitions wait for.
func (g *Gauges) whatFor() string {
	var said []string
	for _, partition := range g.waiters() {
		said = append(said, fmt.Sprintf("partition %v waits: %v", partition, g.waits[partition].reason))
	}
	sort.Strings(said)
	if len(g.missing) > 0 {
		said = append(said, fmt.Sprintf("partitions %v have no queues: %v", g.missing, bus.ErrMissing))
	}
	return strings.Join(said, "; ")
}

// String words the losses, if there are any.
func (l losses) String() string {
	if l == (losses{}) {
		return ""
	}
	return fmt.Sprintf("; lost: %d lines, and at most %d messages in %d gaps", l.lines, l.messages, l.gaps)
}

// Collectors returns the metrics for Prometheus.
func (g *Gauges) Collectors() []prometheus.Collector {
	all := []prometheus.Collector{
		g.gauge("connected", "1 where a broker is reached.", func() float64 {
			if g.connected {
				return 1
			}
			return 0
		}),
		g.gauge("owned", "The partition that is owned, or -1.", func() float64 {
			if g.partition == nil {
				return -1
			}
			return float64(g.partition.Number)
		}),
		g.gauge("waiting_partitions", "Partitions that this process can't own before somebody acts.",
			func() float64 { return float64(len(g.waiters()) + len(g.missing)) }),
		g.gauge("lag_lines", "Lines that were read and have no answer.", func() float64 { return float64(g.waiting) }),
		g.gauge("lag_messages", "Messages of the log that were not read, some seconds late.",
			func() float64 { return float64(g.unread) }),
		g.gauge("lag_seconds", "How long ago the first line without an answer was sent.",
			func() float64 { return g.seconds }),
		g.counter("answers_total", "Lines that were answered.", nil, func() float64 { return float64(g.answers) }),
		g.counter("takeovers_total", "Times that a partition was taken over.", nil,
			func() float64 { return float64(g.takeovers) }),
		g.counter("engine_restarts_total", "Times that the engine was begun anew.", nil,
			func() float64 { return float64(g.restarts) }),
	}
	all = append(all, g.counter("snapshots_unread_total", "Snapshots that could not be read; the one before counted.", nil,
		func() float64 { return float64(g.unreads) }))
	all = append(all, g.lossCollectors()...)
	for _, reason := range []answer.Reason{answer.Deadline, answer.Died, answer.TooLong, answer.Lost} {
		reason := reason
		all = append(all, g.counter("refusals_total", "Lines that were refused in the engine's stead.",
			prometheus.Labels{"reason": string(reason)}, func() float64 { return float64(g.refusals[reason]) }))
	}
	return all
}

func (g *Gauges) lossCollectors() []prometheus.Collector {
	return []prometheus.Collector{
		g.counter("lost_gaps_total", "Gaps in the log: messages that the brokers have lost, or that retention has cut.", nil,
			func() float64 { return float64(g.lost.gaps) }),
		g.counter("lost_messages_total", "Messages in these gaps, at most.", nil, func() float64 { return float64(g.lost.messages) }),
		g.counter("lost_lines_total", "Lines that are lost of batches of which other lines came.", nil,
			func() float64 { return float64(g.lost.lines) }),
	}
}

// namespace begins every metric's name.
const namespace = "desk_partition"

func (g *Gauges) gauge(name, help string, read func() float64) prometheus.Collector {
	return prometheus.NewGaugeFunc(prometheus.GaugeOpts{Namespace: namespace, Name: name, Help: help}, g.locked(read))
}

func (g *Gauges) counter(name, help string, labels prometheus.Labels, read func() float64) prometheus.Collector {
	options := prometheus.CounterOpts{Namespace: namespace, Name: name, Help: help, ConstLabels: labels}
	return prometheus.NewCounterFunc(options, g.locked(read))
}

func (g *Gauges) locked(read func() float64) func() float64 {
	return func() (value float64) {
		g.with(func() { value = read() })
		return value
	}
}
