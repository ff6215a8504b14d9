package service

import (
	"net/http"
	"strconv"
	"sync/atomic"
	"time"

	"github.com/prometheus/client_golang/prometheus"
	"github.com/prometheus/client_golang/prometheus/collectors"
	"github.com/prometheus/client_golang/prometheus/promhttp"
)

// metrics are the metrics of /metrics. docs/OPERATIONS.md says what each means.
type metrics struct {
	registry *prometheus.Registry
	calls    *prometheus.CounterVec
	seconds  prometheus.Histogram
	requests *prometheus.CounterVec
	restarts prometheus.Counter
	// refusedConnections counts connections whose address had no place.
	refusedConnections prometheus.Counter
	puts               *prometheus.CounterVec
	// releaseFaults counts releases that could not be put in force.
	releaseFaults prometheus.Counter
	nulls         *prometheus.CounterVec

	journalLines, journalBytes, journalFaults prometheus.Counter
	journalSeconds                            prometheus.Histogram
	// lastFault is the second at which a journal fault was last logged.
	lastFault atomic.Int64
	// ok and result are the counters of the most frequent labels.
	ok, result prometheus.Counter
}

func newMetrics(s *Service) *metrics {
	m := &metrics{registry: prometheus.NewRegistry()}
	counter := func(name, help string) prometheus.Counter {
		it := prometheus.NewCounter(prometheus.CounterOpts{Name: "desk_http_" + name, Help: help})
		m.registry.MustRegister(it)
		return it
	}
	counters := func(name, help, label string) *prometheus.CounterVec {
		it := prometheus.NewCounterVec(prometheus.CounterOpts{Name: "desk_http_" + name, Help: help}, []string{label})
		m.registry.MustRegister(it)
		return it
	}
	times := func(name, help string) prometheus.Histogram {
		it := prometheus.NewHistogram(prometheus.HistogramOpts{Name: "desk_http_" + name, Help: help,
			Buckets: []float64{.0005, .001, .0025, .005, .01, .025, .05, .1, .25, .5, 1, 2.5, 5, 10, 30}})
		m.registry.MustRegister(it)
		return it
	}
	m.calls = counters("calls_total", "Calls of services, by the status of the answer; 499 where the caller went away.", "status")
	m.seconds = times("call_seconds", "How long calls took, from the header to the answer.")
	m.requests = counters("requests_total", "Requests that were asked of engines, by what became of them.", "outcome")
	m.restarts = counter("engine_restarts_total", "Engines that ended and were begun anew.")
	m.refusedConnections = counter("refused_connections_total", "Connections that were refused since their address had too many.")
	m.puts = counters("puts_total", "Models that were put, by the status of the answer.", "status")
	m.releaseFaults = counter("release_faults_total", "Releases that could not be put in force.")
	m.nulls = counters("null_results_total", "Results that are null, by the name of the service.", "service")
	m.journalLines = counter("journal_lines_total", "Requests written to the journal.")
	m.journalBytes = counter("journal_bytes_total", "Bytes written to the journal.")
	m.journalFaults = counter("journal_faults_total", "Groups of requests that could not be written to the journal.")
	m.journalSeconds = times("journal_sync_seconds", "How long writing and syncing a group took.")
	m.ok, m.result = m.calls.WithLabelValues("200"), m.requests.WithLabelValues("result")
	m.gauges(s)
	m.registry.MustRegister(&modelInfo{s})
	m.registry.MustRegister(collectors.NewGoCollector(),
		collectors.NewProcessCollector(collectors.ProcessCollectorOpts{}))
	return m
}

// gauges registers the metrics that are read on request.
func (m *metrics) gauges(s *Service) {
	gauge := func(name, help string, read func() float64) {
		m.registry.MustRegister(prometheus.NewGaugeFunc(
			prometheus.GaugeOpts{Name: "desk_http_" + name, Help: help}, read))
	}
	gauge("engines", "Engines that there are to be.", func() float64 { return float64(s.options.Processes) })
	gauge("engines_ready", "Engines that have taken a model.", func() float64 { return float64(s.pool.Ready()) })
	gauge("ready", "1 where /readyz answers 200.", func() float64 {
		if s.unready() == "" {
			return 1
		}
		return 0
	})
	gauge("model_overridden", "1 where the model of the command line is not served, since another was put before the start.", func() float64 {
		if s.isOverridden && s.model.Load().origin == originPut {
			return 1
		}
		return 0
	})
	gauge("outstanding", "Requests that are taken and not yet answered.", func() float64 {
		requests, _ := s.clients.count()
		return float64(requests)
	})
	gauge("clients", "Named clients with requests that are not yet answered.", func() float64 {
		_, named := s.clients.count()
		return float64(named)
	})
	gauge("held_bytes", "Bytes of bodies and results that are held.", func() float64 { return float64(s.bodies.held.Load()) })
	gauge("connections", "Connections that are open.", func() float64 { return float64(s.places.count()) })
	gauge("model_since_seconds", "When the model in force was put in force, in seconds since 1970.", func() float64 {
		return float64(s.model.Load().since.Unix())
	})
}

// modelInfo is a metric whose labels name the model in force.
type modelInfo struct{ of *Service }

var modelInfoForm = prometheus.NewDesc("desk_model_info", "1, with labels that say which model is in force.",
	[]string{"name", "version", "sha256", "origin"}, nil)

// Describe sends the description of the metric.
func (i *modelInfo) Describe(to chan<- *prometheus.Desc) { to <- modelInfoForm }

// Collect sends the metric.
func (i *modelInfo) Collect(to chan<- prometheus.Metric) {
	model := i.of.model.Load()
	if model == nil {
		return
	}
	it := model.source.namedBy()
	to <- prometheus.MustNewConstMetric(modelInfoForm, prometheus.GaugeValue, 1, it.Name, it.Version, model.wholeSum, model.origin)
}

func (m *metrics) handler() http.Handler {
	return promhttp.HandlerFor(m.registry, promhttp.HandlerOpts{})
}

// called counts a call.
func (m *metrics) called(status int, took time.Duration) {
	m.seconds.Observe(took.Seconds())
	if status == http.StatusOK {
		m.ok.Inc()
		return
	}
	m.calls.WithLabelValues(strconv.Itoa(status)).Inc()
}

// asked counts the requests of a call.
func (m *metrics) asked(c *call) {
	results, nulls := 0, 0
	for _, job := range c.jobs {
		p := c.problemAt(job.Place)
		if p == nil {
			results++
			if string(c.outcomes[job.Place].Value) == "null" {
				nulls++
			}
			continue
		}
		m.requests.WithLabelValues(p.kind.word).Inc()
	}
	m.result.Add(float64(results))
	if nulls > 0 {
		m.nulls.WithLabelValues(c.decision.name).Add(float64(nulls))
	}
}

// synced counts a synced group of journal lines.
func (m *metrics) synced(lines int, bytes int64, took time.Duration, err error) {
	m.journalSeconds.Observe(took.Seconds())
	if err != nil {
		m.journalFaults.Inc()
		return
	}
	m.journalLines.Add(float64(lines))
	m.journalBytes.Add(float64(bytes))
}
