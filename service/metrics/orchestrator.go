package metrics

import (
	"net/http"
	"time"

	"github.com/prometheus/client_golang/prometheus"
	"google.golang.org/grpc/codes"

	"tufayon/service/carrying"
	"tufayon/service/frames"
	"tufayon/service/host"
)

// An Orchestrator has the metrics of the orchestrator's service. It is told what happens as a host's observer.
type Orchestrator struct {
	Server   *Server // of the API: its interceptors belong to the server
	registry *prometheus.Registry

	commands, calls, retries, ignored, sessions, lost *prometheus.CounterVec
	stale, timeouts, freed                            prometheus.Counter
	callSeconds                                       *prometheus.HistogramVec
	commitSeconds, commitEvents                       prometheus.Histogram
	commitFailures                                    prometheus.Counter
	present                                           present

	ofCommands bound[outcome, prometheus.Counter]
	ofCalls    bound[ended, meters]
}

// An outcome is what came of a sort of commands.
type outcome struct {
	kind    host.Kind
	isMet   bool
	refusal host.Refusal
}

// ended is a sort of calls that ended.
type ended struct {
	kind     frames.Kind
	node     string
	hasReply bool
	status   uint8
}

// meters count such calls.
type meters struct {
	calls   prometheus.Counter
	seconds prometheus.Observer
}

// NewOrchestrator makes them.
func NewOrchestrator() *Orchestrator {
	made := &Orchestrator{
		Server:        newServer(),
		registry:      newRegistry("tufayon-orchestrator"),
		commands:      newCounter("", "commands_total", "Commands of callers, by what came of them: sent, met, or a refusal's name.", "kind", "outcome"),
		calls:         newCounter("", "calls_total", "Calls that ended, by gRPC's name of the reply's status, or none where there was no reply.", "kind", "plugin", "status"),
		retries:       newCounter("", "retried_calls_total", "Calls that were made since an earlier one got no reply, or none that counts.", "kind"),
		ignored:       newCounter("", "unanswered_calls_total", "Calls that got no reply, or one that counts as none.", "kind", "plugin"),
		sessions:      newCounter("", "sessions_total", "Sessions that this process began.", "why"),
		lost:          newCounter("", "lost_nodes_total", "Nodes that were declared lost.", "node"),
		stale:         prometheus.NewCounter(prometheus.CounterOpts{Namespace: namespace, Name: "stale_replies_total", Help: "Replies to open calls that say that the plugin has heard a later number, which end the service: its store is an older copy, or somebody else calls."}),
		timeouts:      prometheus.NewCounter(prometheus.CounterOpts{Namespace: namespace, Name: "timeouts_total", Help: "Timeouts that the orchestrator was told."}),
		freed:         prometheus.NewCounter(prometheus.CounterOpts{Namespace: namespace, Name: "freed_names_total", Help: "Names of deleted volumes that are free again."}),
		callSeconds:   newSeconds("", "call_seconds", "How long calls took, from when they could be made to their end.", callBuckets, "kind", "plugin"),
		commitSeconds: newCommits(""),
		commitEvents: prometheus.NewHistogram(prometheus.HistogramOpts{Namespace: namespace, Name: "commit_events",
			Help: "How many events were committed together.", Buckets: []float64{1, 2, 4, 8, 16, 32, 64}}),
		commitFailures: prometheus.NewCounter(prometheus.CounterOpts{Namespace: namespace, Name: "commit_failures_total", Help: "Commits that failed, each of which ends the service."}),
	}
	made.ofCommands.find, made.ofCalls.find = made.commandsOf, made.callsOf
	made.registry.MustRegister(made.Server, made.commands, made.calls, made.retries, made.ignored, made.sessions, made.lost, made.stale, made.timeouts,
		made.freed, made.callSeconds, made.commitSeconds, made.commitEvents, made.commitFailures, &made.present)
	return made
}

// Handler answers scrapes.
func (made *Orchestrator) Handler() http.Handler { return handler(made.registry) }

var commandNames = map[host.Kind]string{host.Create: "create", host.Use: "use", host.Stop: "stop", host.Delete: "delete"}

// Happened counts what happened.
func (made *Orchestrator) Happened(all []host.Happening) {
	for at := range all {
		made.happened(&all[at])
	}
	made.commitEvents.Observe(float64(len(all)))
}

func (made *Orchestrator) happened(it *host.Happening) {
	switch it.What {
	case host.Commanded:
		made.ofCommands.at(outcome{it.Command.Kind, it.IsMet, it.Refusal}).Inc()
	case host.Unanswered:
		made.ignored.WithLabelValues(it.Call.Kind().String(), carrying.PluginOf(it.Call)).Inc()
	case host.TimedOut:
		made.timeouts.Inc()
		if it.Sent != nil {
			made.retries.WithLabelValues(it.Sent.Kind().String()).Inc()
		}
	case host.Began:
		made.sessions.WithLabelValues(it.Why).Inc()
		made.frees(len(it.Forgotten))
	case host.Lost:
		made.lost.WithLabelValues(it.Node).Inc()
		made.frees(len(it.Forgotten))
	}
}

// commandsOf counts commands.
func (made *Orchestrator) commandsOf(it outcome) prometheus.Counter {
	name := "sent"
	if it.isMet {
		name = "met"
	} else if it.refusal != 0 {
		name = it.refusal.Name()
	}
	return made.commands.WithLabelValues(commandNames[it.kind], name)
}

// frees counts the names that a session freed.
func (made *Orchestrator) frees(count int) {
	made.freed.Add(float64(count))
	made.present.began(count)
}

// Called counts a call that ended.
func (made *Orchestrator) Called(call frames.Call, reply frames.Reply, err error, took time.Duration) {
	it := ended{kind: call.Kind(), node: call.Node}
	if err == nil {
		it.hasReply, it.status = true, reply.Status
		if reply.Status == uint8(codes.Aborted) && reply.Detail == frames.Stale {
			made.stale.Inc()
		}
	}
	of := made.ofCalls.at(it)
	of.calls.Inc()
	of.seconds.Observe(took.Seconds())
}

// callsOf counts calls.
func (made *Orchestrator) callsOf(it ended) meters {
	kind, plugin, status := it.kind.String(), carrying.Controller, noReply
	if it.kind.OfNode() {
		plugin = carrying.NodeName(it.node)
	}
	if it.hasReply {
		status = statusName(it.status)
	}
	return meters{made.calls.WithLabelValues(kind, plugin, status), made.callSeconds.WithLabelValues(kind, plugin)}
}

// Committed counts a commit.
func (made *Orchestrator) Committed(took time.Duration, err error) {
	if err != nil {
		made.commitFailures.Inc()
		return
	}
	made.commitSeconds.Observe(took.Seconds())
}
