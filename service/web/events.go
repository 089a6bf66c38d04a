package web

import (
	"context"
	"encoding/json"
	"fmt"
	"net/http"
	"reflect"
	"sort"
	"time"

	"tufayon/service/history"
	"tufayon/service/host"
)

const (
	together    = 200 * time.Millisecond // so long changes are gathered at least,
	share       = 50                     // and so many times as long as it took to tell the last ones,
	mostRest    = 2 * time.Second        // but no longer than this
	beat        = time.Second            // how often plugins are looked at
	mostSilent  = 5 * time.Second        // and told, with the time, at the latest
	mostVolumes = 512                    // in one message
	mostEntries = 200                    // that a page shows
	streamLife  = time.Hour              // of one that follows, which then begins anew
)

// A stream is a page that follows, by server-sent events: each message is an object with a key for each thing that it tells.
type stream struct {
	to      http.ResponseWriter
	flusher http.Flusher
	request *http.Request
	page    *Page
	source  *Source
	err     error

	told   []plugin  // the last ones
	when   time.Time // that was
	count  uint64    // of the host's events, up to which changes were told
	behind uint64    // entries
	bytes  []byte    // room for a message
}

// message is what is told at once.
type message struct {
	Now       int64    `json:"now"`                 // Unix milliseconds
	Begin     *begin   `json:"begin,omitempty"`     // all that was told is over
	Session   uint64   `json:"session,omitempty"`   // the present one
	Volumes   []volume `json:"volumes,omitempty"`   // as they are now
	Forgotten []string `json:"forgotten,omitempty"` // names that are free again
	Plugins   []plugin `json:"plugins,omitempty"`   // all
	IsWhole   bool     `json:"whole,omitempty"`     // all volumes were told

	entries []history.Entry // what happened: `entries`, of which there are many, so that they are written one by one
}

type begin struct {
	Set    string `json:"set"`
	Leads  bool   `json:"leads"`
	Leader string `json:"leader"`
	Draws  bool   `json:"draws"`
	Count  int    `json:"count"` // of the volumes that come
}

func (page *Page) events(to http.ResponseWriter, request *http.Request) {
	flusher, isOne := to.(http.Flusher)
	if !isOne || request.Method != http.MethodGet {
		http.Error(to, "it can't be followed", http.StatusMethodNotAllowed)
		return
	}
	to.Header().Set("Content-Type", "text/event-stream")
	if !page.enter() { // a browser asks once more then, and never after another status
		fmt.Fprintf(to, "retry: %d\n\n", mostSilent.Milliseconds())
		return
	}
	defer page.leave()
	it := &stream{to: to, flusher: flusher, request: request, page: page, source: &page.source}
	ctx, cancel := context.WithTimeout(request.Context(), streamLife)
	defer cancel()
	go func() {
		select {
		case <-page.ended.Done():
			cancel()
		case <-ctx.Done():
		}
	}()
	for ctx.Err() == nil && it.err == nil {
		if leads := page.source.Host(); leads != nil {
			it.follow(ctx, leads)
		} else {
			it.wait(ctx)
		}
	}
}

func (it *stream) send(message message) {
	message.Now = time.Now().UnixMilli()
	bytes, err := json.Marshal(message)
	if err == nil && it.err == nil {
		it.bytes = append(append(it.bytes[:0], "data: "...), bytes...)
		if len(message.entries) > 0 {
			it.bytes = append(it.bytes[:len(it.bytes)-len("}")], `,"entries":[`...)
			it.bytes = append(appendEntries(it.bytes, message.entries), "]}"...)
		}
		it.bytes = append(it.bytes, "\n\n"...)
		if raw := connectionOf(it.request); raw != nil { // a page that takes nothing doesn't keep its place
			defer time.AfterFunc(it.page.stuck, func() { raw.Close() }).Stop()
		}
		_, err = it.to.Write(it.bytes)
		it.flusher.Flush()
	}
	if it.err == nil {
		it.err = err
	}
}

func (it *stream) begin(leads bool, count int) *begin {
	return &begin{Set: it.source.Set, Leads: leads, Leader: it.source.Leader(), Draws: it.source.Draws != "", Count: count}
}

// wait tells that this process doesn't lead, as long as it is so, and who does.
func (it *stream) wait(ctx context.Context) {
	var told *begin
	for when := (time.Time{}); ctx.Err() == nil && it.err == nil && it.source.Host() == nil; sleep(ctx, together) {
		if time.Since(when) < it.page.silent {
			continue
		}
		when = time.Now()
		it.judge()
		more := message{Plugins: it.source.plugins(nil)}
		if now := it.begin(false, 0); told == nil || told.Leader != now.Leader {
			told, more.Begin, more.IsWhole = now, now, true
		}
		it.send(more)
	}
}

// judge ends it where who follows may not any more.
func (it *stream) judge() {
	if err := it.page.judge(it.request); it.err == nil {
		it.err = err
	}
}

func sleep(ctx context.Context, long time.Duration) {
	select {
	case <-time.After(long):
	case <-ctx.Done():
	}
}

// rest is how long a page waits behind what took so long to tell: so it takes a fiftieth of a processor at most.
func rest(took time.Duration) time.Duration {
	switch long := share * took; {
	case long < together:
		return together
	case long > mostRest:
		return mostRest
	default:
		return long
	}
}

// follow tells all, and then what changes, until the host ends. It looks for that by itself, so that nothing that happens is kept up by it.
func (it *stream) follow(ctx context.Context, leads *host.Host) {
	it.begins(leads)
	tick := time.NewTimer(together)
	defer tick.Stop()
	for looked := time.Now(); it.err == nil; {
		select {
		case <-tick.C:
		case <-leads.Done():
			sleep(ctx, together) // a host that ended is told as gone soon
			return
		case <-ctx.Done():
			return
		}
		began := time.Now()
		if !it.changes(leads) {
			return
		}
		if began.Sub(looked) >= beat {
			looked = began
			it.judge()
			it.plugins(leads)
		}
		tick.Reset(rest(time.Since(began)))
	}
}

// begins tells all there is.
func (it *stream) begins(leads *host.Host) {
	present, _ := leads.Changed(0)
	it.behind, it.told, it.count = 0, nil, present.Count
	it.send(message{Begin: it.begin(true, len(present.Volumes)), Session: present.Session})
	it.plugins(leads)
	sort.Slice(present.Volumes, func(i, j int) bool { return present.Volumes[i].Name < present.Volumes[j].Name })
	rest := it.sendMost(present.Volumes)
	it.send(message{Volumes: volumesOf(rest), IsWhole: true})
	if entries := it.entries(); len(entries) > 0 {
		it.send(message{entries: entries})
	}
}

// sendMost sends volumes, but for the last ones, which go into one message with something else.
func (it *stream) sendMost(volumes []host.Volume) (rest []host.Volume) {
	for ; len(volumes) > mostVolumes; volumes = volumes[mostVolumes:] {
		it.send(message{Volumes: volumesOf(volumes[:mostVolumes])})
	}
	return volumes
}

func volumesOf(all []host.Volume) []volume {
	made := make([]volume, 0, len(all))
	for _, it := range all {
		made = append(made, volumeOf(it))
	}
	return made
}

// changes tells what has changed since the last time, and what happened. It says whether that is known: else all is to be told anew.
func (it *stream) changes(leads *host.Host) bool {
	changes, isKnown := leads.Changed(it.count)
	if !isKnown {
		return false
	}
	it.count = changes.Count
	told := message{Volumes: volumesOf(it.sendMost(changes.Volumes)), Forgotten: changes.Forgotten, entries: it.entries()}
	if len(told.Volumes)+len(told.Forgotten)+len(told.entries) > 0 {
		told.Session = changes.Session
		it.send(told)
	}
	return true
}

// entries are what happened since the last time, of which only the last ones are shown.
func (it *stream) entries() []history.Entry {
	last, count, _ := it.source.History.Last("", mostEntries, it.behind)
	it.behind = count
	return last
}

// plugins tells how it stands with them, where that changed, or it was told long ago.
func (it *stream) plugins(leads *host.Host) {
	present := it.source.plugins(leads)
	if reflect.DeepEqual(present, it.told) && time.Since(it.when) < it.page.silent {
		return
	}
	it.told, it.when = present, time.Now()
	it.send(message{Plugins: present, Session: leads.Session()})
}
