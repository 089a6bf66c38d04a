package metrics

import (
	"context"
	"net/http"
	"strings"
	"sync"
	"time"

	"github.com/prometheus/client_golang/prometheus"
	"google.golang.org/grpc"
	"google.golang.org/grpc/codes"
	"google.golang.org/grpc/status"

	"tufayon/service/frames"
	"tufayon/service/serving"
	"tufayon/service/upstream"
)

const driver = "driver"

// What a plugin says that doesn't begin a session: serving.ErrLater and serving.ErrEarlier.
const (
	laterHeard   = "later"
	earlierHeard = "earlier"
)

// A Driver has the metrics of a CSI driver. It is told what happens as an observer of its life.
type Driver struct {
	Ends  func() map[string]time.Time // when each certificate ends, by its file; may be nil
	Nodes func() int                  // how many nodes of a controller before another driver are configured or have something attached: nil of any other

	registry                         *prometheus.Registry
	calls                            *prometheus.CounterVec
	repeated, stale, deeds, sessions *prometheus.CounterVec
	callSeconds, deedSeconds         *prometheus.HistogramVec
	commitSeconds                    prometheus.Histogram
	commitFailures                   prometheus.Counter

	mutex   sync.Mutex
	core    *serving.Core
	isAmiss bool
}

// NewDriver makes those of a plugin, by its name: controller, or node: and the id.
func NewDriver(program, plugin string) *Driver {
	made := &Driver{
		registry: newRegistry(program),
		calls:    newCounter(driver, "calls_total", "Calls that were answered, by gRPC's name of the status.", "kind", "status"),
		repeated: newCounter(driver, "repeated_calls_total", "Calls that had the number of an earlier one, and got its reply again.", "kind"),
		stale:    newCounter(driver, "stale_calls_total", "Calls that came late, and were refused by the fence.", "kind"),
		sessions: newCounter(driver, "refused_sessions_total", "Sessions that the plugin didn't begin: it has heard of later numbers, so that the "+
			"service's store is an older copy, or of earlier ones than it said before, so that its own is.", "heard"),
		deeds:         newCounter(driver, "deeds_total", "Hooks, mounts, unmounts or calls of the driver behind that were done, or failed.", "kind", "outcome"),
		callSeconds:   newSeconds(driver, "call_seconds", "How long calls took.", callBuckets, "kind"),
		deedSeconds:   newSeconds(driver, "deed_seconds", "How long hooks, mounts, unmounts and calls of the driver behind took.", callBuckets, "kind"),
		commitSeconds: newCommits(driver),
		commitFailures: prometheus.NewCounter(prometheus.CounterOpts{Namespace: namespace, Subsystem: driver, Name: "commit_failures_total",
			Help: "Commits that failed, each of which ends the driver."}),
	}
	made.sessions.WithLabelValues(laterHeard)
	made.sessions.WithLabelValues(earlierHeard)
	prometheus.WrapRegistererWith(prometheus.Labels{"plugin": label(plugin)}, made.registry).MustRegister(made.calls, made.repeated, made.stale, made.sessions, made.deeds,
		made.callSeconds, made.deedSeconds, made.commitSeconds, made.commitFailures, made)
	return made
}

// Handler answers scrapes.
func (made *Driver) Handler() http.Handler { return handler(made.registry) }

// Ready says whether calls are answered, and all is mounted that the record has.
func (made *Driver) Ready() bool { return made.served() != nil && !made.amiss() }

// Amiss notes whether something isn't mounted that the record has.
func (made *Driver) Amiss(isAmiss bool) {
	made.mutex.Lock()
	defer made.mutex.Unlock()
	made.isAmiss = isAmiss
}

func (made *Driver) amiss() bool {
	made.mutex.Lock()
	defer made.mutex.Unlock()
	return made.isAmiss
}

// Committing is how long the present commit has taken: 0 where there is none.
func (made *Driver) Committing() time.Duration {
	if core := made.served(); core != nil {
		return core.Counts().Committing
	}
	return 0
}

// Serves notes which core answers calls.
func (made *Driver) Serves(core *serving.Core) {
	made.mutex.Lock()
	defer made.mutex.Unlock()
	made.core = core
}

func (made *Driver) served() *serving.Core {
	made.mutex.Lock()
	defer made.mutex.Unlock()
	return made.core
}

// Committed counts a commit.
func (made *Driver) Committed(took time.Duration, err error) {
	if err != nil {
		made.commitFailures.Inc()
		return
	}
	made.commitSeconds.Observe(took.Seconds())
}

// Acted counts what was done.
func (made *Driver) Acted(kind frames.Kind, took time.Duration, err error) {
	outcome := "done"
	if err != nil {
		outcome = "failed"
	}
	made.deeds.WithLabelValues(kind.String(), outcome).Inc()
	made.deedSeconds.WithLabelValues(kind.String()).Observe(took.Seconds())
}

// Repeated counts a duplicate.
func (made *Driver) Repeated(kind frames.Kind) { made.repeated.WithLabelValues(kind.String()).Inc() }

// Intercept counts calls. It belongs to the server, before all else.
func (made *Driver) Intercept(ctx context.Context, request any, info *grpc.UnaryServerInfo, handle grpc.UnaryHandler) (any, error) {
	began := time.Now()
	response, err := handle(ctx, request)
	kind := info.FullMethod[strings.LastIndex(info.FullMethod, "/")+1:]
	told := status.Convert(err)
	made.calls.WithLabelValues(kind, told.Code().String()).Inc()
	made.callSeconds.WithLabelValues(kind).Observe(time.Since(began).Seconds())
	switch {
	case told.Code() == codes.Aborted && told.Message() == frames.Stale:
		made.stale.WithLabelValues(kind).Inc()
	case kind == "Begin" && (told.Message() == laterHeard || told.Message() == earlierHeard):
		made.sessions.WithLabelValues(told.Message()).Inc()
	}
	return response, err
}

var (
	readyDesc       = describe(driver, "ready", "Whether the driver has its store, answers calls, and has all mounted that its record has; of several controllers only the one that leads does.")
	heardDesc       = describe(driver, "session", "The latest session that the plugin has heard of.")
	pluginRowsDesc  = describe(driver, "rows", "Volumes that the plugin has rows of, those that a later session forgets too.")
	pluginLimitDesc = describe(driver, "rows_limit", "How many rows there may be.")
	nodesDesc       = describe(driver, "nodes", "Nodes of a controller before another driver that are configured, or to which something is attached.")
	nodesLimitDesc  = describe(driver, "nodes_limit", "How many nodes there may be.")
	callsOpenDesc   = describe(driver, "calls_under_way", "Calls that wait or are under way.")
	committingDesc  = describe(driver, "commit_under_way_seconds", "How long the present commit has taken; 0 where there is none.")
	driverEndsDesc  = describe(driver, "certificate_expiry_timestamp_seconds", "When a certificate ends, in Unix seconds.", "file")
)

// Describe describes all that there may be: what is there hangs on whether the driver serves.
func (made *Driver) Describe(to chan<- *prometheus.Desc) {
	for _, desc := range []*prometheus.Desc{
		readyDesc, heardDesc, pluginRowsDesc, pluginLimitDesc, nodesDesc, nodesLimitDesc, callsOpenDesc, committingDesc, driverEndsDesc,
	} {
		to <- desc
	}
}

// Collect tells how things are.
func (made *Driver) Collect(to chan<- prometheus.Metric) {
	core := made.served()
	to <- gauge(readyDesc, flag(made.Ready()))
	tellEnds(to, driverEndsDesc, made.Ends)
	if core == nil {
		return
	}
	counts := core.Counts()
	to <- gauge(heardDesc, float64(counts.Session))
	to <- gauge(pluginRowsDesc, float64(counts.Rows))
	to <- gauge(pluginLimitDesc, mostRows)
	to <- gauge(callsOpenDesc, float64(counts.Calls))
	to <- gauge(committingDesc, counts.Committing.Seconds())
	if made.Nodes != nil {
		to <- gauge(nodesDesc, float64(made.Nodes()))
		to <- gauge(nodesLimitDesc, upstream.MostNodes)
	}
}
