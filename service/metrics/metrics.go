// Package metrics has what Prometheus scrapes of the orchestrator's service and of the CSI driver: docs/SERVICE.md, "Metrics", and docs/DRIVER.md.
package metrics

import (
	"net/http"
	"strings"
	"time"

	"github.com/prometheus/client_golang/prometheus"
	"github.com/prometheus/client_golang/prometheus/collectors"
	"github.com/prometheus/client_golang/prometheus/promhttp"
	"google.golang.org/grpc/codes"

	"tufayon/service/version"
)

const namespace = "tufayon"

// noReply is the status of a call that got no reply.
const noReply = "none"

// callBuckets are for calls and hooks, which may take minutes; commitBuckets for commits, in seconds.
var (
	callBuckets   = []float64{0.001, 0.003, 0.01, 0.03, 0.1, 0.3, 1, 3, 10, 30, 100, 300}
	commitBuckets = []float64{0.0003, 0.001, 0.003, 0.01, 0.03, 0.1, 0.3, 1, 3, 10, 30}
)

// newRegistry has what each program tells: its version, and how the process and Go's runtime do.
func newRegistry(program string) *prometheus.Registry {
	registry := prometheus.NewRegistry()
	build := prometheus.NewGauge(prometheus.GaugeOpts{
		Namespace: namespace, Name: "build_info", Help: "The program and its version; always 1.",
		ConstLabels: prometheus.Labels{"program": program, "version": version.Number},
	})
	build.Set(1)
	registry.MustRegister(build, collectors.NewGoCollector(), collectors.NewProcessCollector(collectors.ProcessCollectorOpts{}))
	return registry
}

// handler answers a scrape. What can't be gathered is left out, and counted. It isn't compressed: that would take several times as long as all else.
func handler(registry *prometheus.Registry) http.Handler {
	return promhttp.InstrumentMetricHandler(registry, promhttp.HandlerFor(registry, promhttp.HandlerOpts{
		ErrorHandling: promhttp.ContinueOnError, MaxRequestsInFlight: 4, Timeout: 10 * time.Second, DisableCompression: true,
	}))
}

// statusName is gRPC's name of a status.
func statusName(status uint8) string { return codes.Code(status).String() }

func newCounter(subsystem, name, help string, labels ...string) *prometheus.CounterVec {
	return prometheus.NewCounterVec(prometheus.CounterOpts{Namespace: namespace, Subsystem: subsystem, Name: name, Help: help}, labels)
}

func newSeconds(subsystem, name, help string, buckets []float64, labels ...string) *prometheus.HistogramVec {
	return prometheus.NewHistogramVec(prometheus.HistogramOpts{Namespace: namespace, Subsystem: subsystem, Name: name, Help: help, Buckets: buckets}, labels)
}

func newCommits(subsystem string) prometheus.Histogram {
	return prometheus.NewHistogram(prometheus.HistogramOpts{
		Namespace: namespace, Subsystem: subsystem, Name: "commit_seconds", Help: "How long commits to the store took.", Buckets: commitBuckets,
	})
}

func describe(subsystem, name, help string, labels ...string) *prometheus.Desc {
	return prometheus.NewDesc(prometheus.BuildFQName(namespace, subsystem, name), help, labels, nil)
}

func gauge(desc *prometheus.Desc, value float64, labels ...string) prometheus.Metric {
	for at, it := range labels {
		labels[at] = label(it)
	}
	return prometheus.MustNewConstMetric(desc, prometheus.GaugeValue, value, labels...)
}

// label is a text as a label's value: one that isn't UTF-8, as a path or a word of a command line may be, would end the process.
func label(text string) string { return strings.ToValidUTF8(text, "\ufffd") }

func flag(is bool) float64 {
	if is {
		return 1
	}
	return 0
}
