// Package metrics serves a program's metrics and health.
package metrics

import (
	"context"
	"fmt"
	"net"
	"net/http"
	"time"

	"github.com/prometheus/client_golang/prometheus"
	"github.com/prometheus/client_golang/prometheus/promhttp"
)

const requestTimeout = 10 * time.Second

// A Source is what is shown.
type Source interface {
	// Collectors are its metrics.
	Collectors() []prometheus.Collector
	// Ready reports whether the program does its work, and words it.
	Ready() (bool, string)
}

// Serve serves a source at an address until the context ends: /metrics for Prometheus; /healthz, with status 200 while the
// process is alive; and /readyz, with 503 while it isn't ready. It returns the address it listens on.
func Serve(ctx context.Context, address string, of Source) (net.Addr, error) {
	listener, err := net.Listen("tcp", address)
	if err != nil {
		return nil, fmt.Errorf("metrics: %w", err)
	}
	server := &http.Server{Handler: handler(of), ReadTimeout: requestTimeout, WriteTimeout: requestTimeout}
	go server.Serve(listener)
	go func() {
		<-ctx.Done()
		server.Close()
	}()
	return listener.Addr(), nil
}

func handler(of Source) http.Handler {
	registry := prometheus.NewRegistry()
	registry.MustRegister(of.Collectors()...)
	mux := http.NewServeMux()
	mux.Handle("/metrics", promhttp.HandlerFor(registry, promhttp.HandlerOpts{}))
	mux.HandleFunc("/healthz", func(w http.ResponseWriter, _ *http.Request) { fmt.Fprintln(w, "alive") })
	mux.HandleFunc("/readyz", func(w http.ResponseWriter, _ *http.Request) {
		ready, said := of.Ready()
		if !ready {
			w.WriteHeader(http.StatusServiceUnavailable)
		}
		fmt.Fprintln(w, said)
	})
	return mux
}
