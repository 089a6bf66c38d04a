package web

import (
	"context"
	"embed"
	"encoding/json"
	"mime"
	"net/http"
	"path"
	"sync"
	"time"

	"tufayon/service/carrying"
	"tufayon/service/history"
	"tufayon/service/host"
)

// A Source is where a page finds how things are.
type Source struct {
	Set     string
	Host    func() *host.Host                // the orchestrator, nil while this process doesn't lead
	Leader  func() string                    // who leads, as far as is known
	Plugins func() map[string]carrying.State // how it stands with each
	Slots   func() map[string]uint64         // of the nodes
	History *history.History
	Draws   string // csi-replay, which draws pictures: there are none where it is empty
}

// mostStreams is how many pages may follow at once.
const mostStreams = 64

// A Page shows an orchestrator's service.
type Page struct {
	source  Source
	judge   func(*http.Request) error // judges once more who follows
	stuck   time.Duration             // how long what is told may wait for who follows to take it
	silent  time.Duration             // how often it is told something, at least
	drawing chan struct{}             // has as many as pictures are drawn at once
	ended   context.Context
	end     context.CancelFunc

	mutex   sync.Mutex
	streams int
}

// NewPage makes a page.
func NewPage(source Source) *Page {
	made := &Page{
		source: source, judge: func(*http.Request) error { return nil }, stuck: mostStuck, silent: mostSilent, drawing: make(chan struct{}, 2),
	}
	made.ended, made.end = context.WithCancel(context.Background())
	return made
}

//go:embed files
var files embed.FS

func (page *Page) route(routes *http.ServeMux) {
	routes.HandleFunc("/", page.file)
	routes.HandleFunc("/events", page.events)
	routes.HandleFunc("/volume", page.volume)
	routes.HandleFunc("/picture", page.picture)
}

// Streams are how many pages follow.
func (page *Page) Streams() int {
	page.mutex.Lock()
	defer page.mutex.Unlock()
	return page.streams
}

func (page *Page) file(to http.ResponseWriter, request *http.Request) {
	name := path.Clean(request.URL.Path)
	if name == "/" {
		name = "/page.html"
	}
	content, err := files.ReadFile("files" + name)
	if err != nil {
		http.NotFound(to, request)
		return
	}
	to.Header().Set("Content-Type", mime.TypeByExtension(path.Ext(name)))
	to.Write(content)
}

// volume gives what is known of a volume, and the last events of it.
func (page *Page) volume(to http.ResponseWriter, request *http.Request) {
	name := request.URL.Query().Get("name")
	leads := page.source.Host()
	if leads == nil {
		http.Error(to, "this service doesn't lead", http.StatusServiceUnavailable)
		return
	}
	var answer struct {
		Volume  *volume `json:"volume"`
		Entries entries `json:"entries"`
	}
	if there, isThere := leads.Get(name); isThere {
		shown := volumeOf(there)
		answer.Volume = &shown
	}
	answer.Entries, _, _ = page.source.History.Last(name, mostEntries, 0)
	to.Header().Set("Content-Type", "application/json")
	json.NewEncoder(to).Encode(answer)
}

// enter counts a stream in, unless there are too many.
func (page *Page) enter() bool {
	page.mutex.Lock()
	defer page.mutex.Unlock()
	if page.streams == mostStreams {
		return false
	}
	page.streams++
	return true
}

func (page *Page) leave() {
	page.mutex.Lock()
	defer page.mutex.Unlock()
	page.streams--
}

// milliseconds are Unix milliseconds, 0 of no time.
func milliseconds(at time.Time) int64 {
	if at.IsZero() {
		return 0
	}
	return at.UnixMilli()
}
