package metrics

import (
	"sync"
	"time"

	"github.com/prometheus/client_golang/prometheus"

	"tufayon/service/carrying"
	"tufayon/service/host"
	"tufayon/service/records"
)

// mostNames is how many names an orchestrator has at most: docs/FORMATS.md, "Limits".
const mostNames = 4096

// mostRows is how many rows a plugin has at most: likewise.
const mostRows = 4096

// A Source is where a scrape finds how things are.
type Source struct {
	Set     string                           // the shard's name
	Host    func() *host.Host                // the orchestrator, nil while this process doesn't lead
	Plugins func() map[string]carrying.State // how it stands with each plugin
	Slots   func() map[string]uint64         // how many volumes may be attached to each node
	Ends    func() map[string]time.Time      // when each certificate ends, by its file
	Servers func() map[string]time.Time      // when those of etcd's servers end, by their HOST:PORT; may be nil
	Clients func() map[string]time.Time      // when those end by which clients were here last, by their names; may be nil
	Lease   time.Duration                    // how long this process leads after etcd heard of it last: 0 where the store is a file
	Streams func() int                       // of the page that are open
	History func() (events int, lost uint64) // that are kept
}

// present tells how things are when they are scraped.
type present struct {
	mutex  sync.Mutex
	source *Source
	since  int // sessions since one freed a name
}

// Watch has scrapes tell how things are at a source.
func (made *Orchestrator) Watch(source Source) {
	made.present.mutex.Lock()
	defer made.present.mutex.Unlock()
	made.present.source = &source
}

// began counts a session that freed so many names.
func (it *present) began(freed int) {
	it.mutex.Lock()
	defer it.mutex.Unlock()
	it.since++
	if freed > 0 {
		it.since = 0
	}
}

var (
	leaderDesc    = describe("", "leader", "Whether this process leads its shard.", "set")
	sessionDesc   = describe("", "session", "The present session.")
	leaseDesc     = describe("", "lease_seconds", "How long this process leads after etcd heard of it last; 0 where the store is a file.")
	volumesDesc   = describe("", "volumes", "Volumes by state: existing, maybe existing, and deleted, whose names are free with the next session.", "state")
	wantedDesc    = describe("", "wanted_volumes", "Volumes of which something is wanted.", "goal")
	oldestDesc    = describe("", "wanted_oldest_seconds", "Since when something is wanted that is wanted longest, as this process knows it.")
	thingsDesc    = describe("", "volumes_at_node", "Volumes at a node by what is known of them: attached, staged or published, yes or maybe.", "node", "thing", "known")
	slotsDesc     = describe("", "node_slots", "How many volumes may be attached to a node.", "node")
	usedDesc      = describe("", "node_slots_used", "How many volumes are attached to a node, or may be.", "node")
	rowsDesc      = describe("", "names", "Names that the orchestrator has rows of, of deleted volumes too.")
	rowLimitDesc  = describe("", "names_limit", "How many names there may be.")
	sinceDesc     = describe("", "sessions_since_name_freed", "Sessions that this process began since one freed a name.")
	connectedDesc = describe("", "plugin_connected", "Whether a plugin is reached, and has begun the session.", "plugin")
	underWayDesc  = describe("", "plugin_calls_under_way", "Calls that are under way at a plugin.", "plugin")
	queuedDesc    = describe("", "plugin_calls_queued", "Calls that wait for their turn, or until their plugin is reached.", "plugin")
	waitingDesc   = describe("", "commands_waiting", "Commands of callers that aren't asked yet.")
	streamsDesc   = describe("", "streams_open", "Streams that are told what happens: of the API and of the page.", "of")
	sinceDescSec  = describe("", "commit_under_way_seconds", "How long the present commit has taken; 0 where there is none.")
	endsDesc      = describe("", "certificate_expiry_timestamp_seconds", "When a certificate ends, in Unix seconds.", "file")
	serversDesc   = describe("", "etcd_certificate_expiry_timestamp_seconds", "When the certificate of a server of etcd ends, in Unix seconds, as it showed it last.", "server")
	clientsDesc   = describe("", "client_certificate_expiry_timestamp_seconds", "When the certificate ends by which a client was here last, in Unix seconds.", "client")
	historyDesc   = describe("", "history_events", "Events that the history has.")
	historyLost   = describe("", "history_lost_events_total", "Events that the history couldn't keep.")
)

// Describe describes all that there may be: what is there hangs on whether this process leads.
func (it *present) Describe(to chan<- *prometheus.Desc) {
	for _, desc := range []*prometheus.Desc{
		leaderDesc, sessionDesc, leaseDesc, volumesDesc, wantedDesc, oldestDesc, thingsDesc, slotsDesc, usedDesc, rowsDesc, rowLimitDesc, sinceDesc, connectedDesc,
		underWayDesc, queuedDesc, waitingDesc, streamsDesc, sinceDescSec, endsDesc, serversDesc, clientsDesc, historyDesc, historyLost,
	} {
		to <- desc
	}
}

// Collect tells how things are.
func (it *present) Collect(to chan<- prometheus.Metric) {
	it.mutex.Lock()
	source, since := it.source, it.since
	it.mutex.Unlock()
	if source == nil {
		return
	}
	leads := source.Host()
	to <- gauge(leaderDesc, flag(leads != nil), source.Set)
	to <- gauge(leaseDesc, source.Lease.Seconds())
	tellEnds(to, endsDesc, source.Ends)
	tellEnds(to, serversDesc, source.Servers)
	tellEnds(to, clientsDesc, source.Clients)
	for plugin, state := range source.Plugins() {
		isUsed := state.IsReached() && (leads == nil || leads.Trouble(plugin) == "")
		to <- gauge(connectedDesc, flag(isUsed), plugin)
		to <- gauge(underWayDesc, float64(state.UnderWay), plugin)
		to <- gauge(queuedDesc, float64(state.Queued), plugin)
	}
	to <- gauge(streamsDesc, float64(source.Streams()), "page")
	events, lost := source.History()
	to <- gauge(historyDesc, float64(events))
	to <- prometheus.MustNewConstMetric(historyLost, prometheus.CounterValue, float64(lost))
	if leads == nil {
		return
	}
	counts := leads.Counts()
	to <- gauge(streamsDesc, float64(counts.Watchers), "api")
	to <- gauge(waitingDesc, float64(counts.Waiting))
	to <- gauge(sinceDescSec, counts.Committing.Seconds())
	to <- gauge(sessionDesc, float64(leads.Session()))
	to <- gauge(sinceDesc, float64(since))
	counted := countVolumes(leads)
	counted.collect(to)
	slots := source.Slots()
	for _, node := range leads.Nodes() {
		if most, isThere := slots[node]; isThere {
			to <- gauge(slotsDesc, float64(most), node)
			to <- gauge(usedDesc, float64(counted.used[node]), node)
		}
	}
}

// tellEnds tells when certificates end.
func tellEnds(to chan<- prometheus.Metric, desc *prometheus.Desc, ends func() map[string]time.Time) {
	if ends == nil {
		return
	}
	for of, end := range ends() {
		to <- gauge(desc, float64(end.Unix()), of)
	}
}

// A thing is what may be known of a volume at a node.
type thing struct{ node, thing, known string }

// counted is how many volumes there are of each sort.
type counted struct {
	names  int
	oldest time.Duration
	states map[string]int
	wanted map[string]int
	things map[thing]int
	used   map[string]int
}

var (
	stateNames = map[records.Known]string{records.Yes: "existing", records.Maybe: "maybe", records.No: "deleted"}
	knownNames = map[records.Known]string{records.Yes: "yes", records.Maybe: "maybe"}
)

func countVolumes(leads *host.Host) *counted {
	it := &counted{
		states: map[string]int{"existing": 0, "maybe": 0, "deleted": 0}, wanted: map[string]int{"create": 0, "use": 0, "stop": 0, "delete": 0},
		things: map[thing]int{}, used: map[string]int{},
	}
	now := time.Now()
	leads.List("", 0, func(volume host.Volume) bool { // none is taken: all are only looked at
		it.count(volume, now)
		return false
	})
	return it
}

func (it *counted) count(volume host.Volume, now time.Time) {
	it.names++
	it.states[stateNames[volume.Exists]]++
	if volume.Goal != records.None {
		it.wanted[volume.Goal.String()]++
		if age := now.Sub(volume.Since); !volume.Since.IsZero() && age > it.oldest {
			it.oldest = age
		}
	}
	for _, at := range volume.At {
		if at.Attached != records.No {
			it.used[at.Node]++
			it.things[thing{at.Node, "attached", knownNames[at.Attached]}]++
		}
		if at.Staged != records.No {
			it.things[thing{at.Node, "staged", knownNames[at.Staged]}]++
		}
		for _, target := range at.Targets {
			if target.Published != records.No {
				it.things[thing{at.Node, "published", knownNames[target.Published]}]++
			}
		}
	}
}

func (it *counted) collect(to chan<- prometheus.Metric) {
	to <- gauge(rowsDesc, float64(it.names))
	to <- gauge(rowLimitDesc, mostNames)
	to <- gauge(oldestDesc, it.oldest.Seconds())
	for state, count := range it.states {
		to <- gauge(volumesDesc, float64(count), state)
	}
	for goal, count := range it.wanted {
		to <- gauge(wantedDesc, float64(count), goal)
	}
	for thing, count := range it.things {
		to <- gauge(thingsDesc, float64(count), thing.node, thing.thing, thing.known)
	}
}
