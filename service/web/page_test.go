package web_test

import (
	"context"
	"errors"
	"fmt"
	"math/rand"
	"net"
	"net/http"
	"os"
	"reflect"
	"strings"
	"sync"
	"testing"
	"time"

	"go.uber.org/zap"

	"tufayon/service/carrying"
	"tufayon/service/frames"
	"tufayon/service/history"
	"tufayon/service/host"
	"tufayon/service/host/hosttest"
	"tufayon/service/settings"
	"tufayon/service/web"
	"tufayon/service/web/webtest"
)

var (
	ctx   = context.Background()
	block = frames.Capability{Mode: 5}
)

const within = 20 * time.Second // what should come soon

// A scene is a service with a page, whose plugins answer in the same process, unless they are held.
type scene struct {
	*testing.T
	kept    *hosttest.Store
	carrier *hosttest.Carrier
	nodes   []string
	history *history.History
	address string
	server  *web.Server

	mutex sync.Mutex
	leads *host.Host
	held  map[string]error // plugins that don't answer, or why there is no reply
}

func newScene(t *testing.T, nodes int) *scene {
	made := &scene{T: t, kept: hosttest.NewStore(), carrier: &hosttest.Carrier{}, held: map[string]error{}, address: "127.0.0.1:0"}
	for at := 1; at <= nodes; at++ {
		made.nodes = append(made.nodes, fmt.Sprint("n", at))
	}
	made.carrier.Answer = func(ctx context.Context, call frames.Call, _ time.Time) (frames.Reply, error, bool) {
		made.mutex.Lock()
		why, isHeld := made.held[carrying.PluginOf(call)]
		made.mutex.Unlock()
		switch {
		case !isHeld:
			return frames.Reply{}, nil, false
		case why == nil:
			<-ctx.Done()
		}
		return frames.Reply{}, why, true
	}
	made.start()
	t.Cleanup(func() { made.stop() })
	return made
}

func (made *scene) present() *host.Host {
	made.mutex.Lock()
	defer made.mutex.Unlock()
	return made.leads
}

// hold has a plugin not answer from now on, or say why it doesn't; or let go.
func (made *scene) hold(plugin string, isHeld bool, why error) {
	made.mutex.Lock()
	defer made.mutex.Unlock()
	delete(made.held, plugin)
	if isHeld {
		made.held[plugin] = why
	}
}

func (made *scene) states() map[string]carrying.State {
	made.mutex.Lock()
	defer made.mutex.Unlock()
	states := map[string]carrying.State{}
	for _, name := range append([]string{carrying.Controller}, made.nodes...) {
		if name != carrying.Controller {
			name = carrying.NodeName(name)
		}
		state := carrying.State{Address: "unix:///run/" + name, Connection: "READY"}
		if why, isHeld := made.held[name]; isHeld && why != nil {
			state.Connection, state.Trouble = "TRANSIENT_FAILURE", why.Error()
		}
		states[name] = state
	}
	return states
}

func (made *scene) slots() map[string]uint64 {
	slots := map[string]uint64{}
	for _, node := range made.nodes {
		slots[node] = 128
	}
	return slots
}

// start starts the service, at the address that it had.
func (made *scene) start() {
	made.Helper()
	var err error
	if made.history, err = history.Open("", history.Usual, zap.NewNop()); err != nil {
		made.Fatal(err)
	}
	config := settings.Set{Greatest: 1 << 40}
	for _, node := range made.nodes {
		config.Nodes = append(config.Nodes, settings.Node{ID: node, Slots: 128})
	}
	made.history.Configure(config.Config())
	page := web.NewPage(web.Source{
		Set: "s1", Host: made.present, Leader: func() string { return "this one" }, Plugins: made.states, Slots: made.slots, History: made.history,
		Draws: os.Getenv("TUFAYON_TEST_PROGRAM"),
	})
	made.server = web.New(web.Options{Metrics: http.NotFoundHandler(), Ready: func() bool { return made.present() != nil }, Page: page})
	listener, err := net.Listen("tcp", made.address)
	if err != nil {
		made.Fatal(err)
	}
	made.address = listener.Addr().String()
	go made.server.Serve(listener)
	leads, err := host.Open(ctx, host.Options{
		Store: made.kept, Nodes: made.nodes, Carrier: made.carrier, Log: zap.NewNop(), Observers: []host.Observer{made.history},
		Times: host.Times{Patience: time.Minute, Retry: 20 * time.Millisecond, MostRetry: time.Second},
	})
	if err != nil {
		made.Fatal(err)
	}
	made.mutex.Lock()
	made.leads = leads
	made.mutex.Unlock()
}

func (made *scene) stop() {
	leads := made.present()
	made.mutex.Lock()
	made.leads = nil
	made.mutex.Unlock()
	if leads != nil {
		leads.Close()
	}
	made.server.Close()
	made.history.Close()
}

// does has a command carried out, and waits for rest unless a plugin is held.
func (made *scene) does(command host.Command) {
	made.Helper()
	limited, cancel := context.WithTimeout(ctx, within)
	defer cancel()
	if _, err := made.present().Do(limited, command); err != nil {
		made.Fatalf("%+v: %v", command, err)
	}
}

func create(name string) host.Command {
	return host.Command{Kind: host.Create, Name: name, Required: 10 << 30, Capabilities: []frames.Capability{block}, AtRest: true}
}

func use(name, node, target string) host.Command {
	return host.Command{Kind: host.Use, Name: name, Node: node, Target: target, Capability: block, AtRest: true}
}

// soon wants that something comes to be.
func (made *scene) soon(what string, is func() error) {
	made.Helper()
	var err error
	for end := time.Now().Add(within); time.Now().Before(end); time.Sleep(20 * time.Millisecond) {
		if err = is(); err == nil {
			return
		}
	}
	made.Fatalf("not within %v: %s: %v", within, what, err)
}

// listed is what List says, in short: of each volume whether it exists, what is wanted, and what is known of it where.
func (made *scene) listed() map[string]string {
	all, _ := made.present().List("", 1<<20, func(host.Volume) bool { return true })
	listed := map[string]string{}
	for _, volume := range all {
		text := fmt.Sprint(volume.Exists, " ", volume.Goal)
		for _, at := range volume.At {
			text += fmt.Sprint(" ", at.Node, " ", at.Attached, at.Staged)
			for _, target := range at.Targets {
				text += fmt.Sprint(" ", target.Path, target.Published)
			}
		}
		listed[volume.Name] = text
	}
	return listed
}

// shown is the same as the page has it.
const shown = `Object.fromEntries([...volumes.values()].map(it => [it.name, [it.exists, it.goal || '', ...(it.at || []).flatMap(at =>
	[at.node, at.attached + ' ' + at.staged, ...(at.targets || []).map(t => t.path + t.published)])].join(' ')]))`

func (made *scene) same(browser *webtest.Browser) func() error {
	return func() error {
		var seen map[string]string
		if err := browser.Ask(shown, &seen); err != nil {
			return err
		}
		if want := made.listed(); !reflect.DeepEqual(seen, want) {
			return fmt.Errorf("it shows %v, and List says %v", seen, want)
		}
		return nil
	}
}

// The page shows what List says after each of a hundred changes, comes back after the service's restart, and is used by keyboard.
func TestPage(t *testing.T) {
	browser := webtest.Start(t)
	made := newScene(t, 3)
	browser.Look(webtest.Screen{Width: 1280, Height: 800})
	browser.Open("http://" + made.address + "/")
	made.soon("the page is there", made.same(browser))
	random := rand.New(rand.NewSource(1))
	for at := 0; at < 100; at++ {
		name, node := fmt.Sprint("v", random.Intn(12)), made.nodes[random.Intn(3)]
		commands := []host.Command{create(name), use(name, node, "/a"), use(name, node, "/b"),
			{Kind: host.Stop, Name: name, Node: node, Target: "/a", AtRest: true}, {Kind: host.Delete, Name: name, AtRest: true}}
		if at%10 == 9 {
			made.hold(carrying.NodeName(node), random.Intn(2) == 0, errors.New("it isn't reached"))
		}
		command := commands[random.Intn(len(commands))]
		command.AtRest = false
		made.present().Do(ctx, command) // a refusal changes nothing
		made.soon(fmt.Sprint("change ", at), made.same(browser))
	}
	for _, node := range made.nodes {
		made.hold(carrying.NodeName(node), false, nil)
	}
	for name := range made.listed() {
		limited, cancel := context.WithTimeout(ctx, within)
		made.present().AtRest(limited, name)
		cancel()
	}
	made.soon("all is at rest", made.same(browser))
	made.stop()
	made.soon("it says that there is no connection", func() error { return says(browser, `document.getElementById('state').textContent`, "no connection") })
	made.start()
	made.does(create("after"))
	made.soon("it comes back", made.same(browser))
	made.soon("it says that it leads", func() error { return says(browser, `document.getElementById('state').textContent`, "leads") })
	made.keyboard(browser)
	made.heard(browser)
	made.waits(browser)
	for _, fault := range browser.Faults() {
		if !isOfRestart(fault) {
			t.Error(fault)
		}
	}
}

func says(browser *webtest.Browser, expression, want string) error {
	var said string
	if err := browser.Ask(expression, &said); err != nil {
		return err
	}
	if said != want {
		return fmt.Errorf("it says %q, not %q", said, want)
	}
	return nil
}

// keyboard uses the page without a mouse.
func (made *scene) keyboard(browser *webtest.Browser) {
	made.Helper()
	if err := browser.Ask(`document.getElementById('grid').focus()`, nil); err != nil {
		made.Fatal(err)
	}
	browser.Press("ArrowDown")
	made.soon("whoever has the focus is told of the row", func() error {
		return says(browser, `document.activeElement.getAttribute('role') + ' ' + (document.getElementById(document.activeElement.getAttribute('aria-activedescendant')) || {dataset: {}}).dataset.name`, "grid after")
	})
	browser.Press("Enter")
	made.soon("a volume is shown", func() error { return says(browser, `document.getElementById('volume-name').textContent`, "after") })
	browser.Press("Escape")
	made.soon("and closed", func() error { return says(browser, `String(document.getElementById('volume').open)`, "false") })
	browser.Press("/")
	made.soon("the search has the focus", func() error { return says(browser, `document.activeElement.id`, "find") })
}

// heard wants that who doesn't see the page is told what its parts are.
func (made *scene) heard(browser *webtest.Browser) {
	made.Helper()
	heard := browser.Heard()
	for role, names := range map[string]string{"grid": "Volumes", "columnheader": "Waits for", "searchbox": "Find volumes by name", "status": "", "row": ""} {
		if !heard[role+" "+names] && (names != "" || !heard[role]) {
			made.Errorf("who doesn't see it isn't told of a %s %s", role, names)
		}
	}
}

// waits has the service wait to lead, as one that has lost the lease does once it is started again: then it has no session.
func (made *scene) waits(browser *webtest.Browser) {
	made.Helper()
	leads := made.present()
	made.mutex.Lock()
	made.leads = nil
	made.mutex.Unlock()
	leads.Close()
	made.soon("it says that it waits", func() error { return says(browser, `document.getElementById('state').textContent`, "waits to lead") })
	if err := says(browser, `document.getElementById('session').textContent`, "–"); err != nil {
		made.Errorf("its session: %v", err)
	}
}

// isOfRestart says whether a fault is that the service wasn't there.
func isOfRestart(fault string) bool {
	return strings.Contains(fault, "ERR_CONNECTION_REFUSED") || strings.Contains(fault, "ERR_INCOMPLETE_CHUNKED_ENCODING") || strings.Contains(fault, "ERR_CONNECTION_RESET")
}

// 4,096 volumes at 64 nodes are there in a second or two, only the rows that are seen are drawn, and a change is seen at once.
func TestFull(t *testing.T) {
	browser := webtest.Start(t)
	made := newScene(t, 64)
	fill(made, 4096)
	browser.Look(webtest.Screen{Width: 1280, Height: 800})
	browser.Open("http://" + made.address + "/")
	made.soon("all are there", made.same(browser))
	var rows int
	if err := browser.Ask(`document.querySelectorAll('.row').length`, &rows); err != nil || rows == 0 || rows > 60 {
		t.Errorf("%d rows are drawn, %v", rows, err)
	}
	var took float64
	const drawing = `(() => { const began = performance.now(); for (let at = 0; at < 10; at++) { by('scroller').scrollTop = at * 20000; draw() } return (performance.now() - began) / 10 })()`
	if err := browser.Ask(drawing, &took); err != nil || took > 250 {
		t.Errorf("a drawing takes %.0f ms, %v", took, err)
	}
	t.Logf("a drawing takes %.1f ms", took)
	made.does(use("vol-0001", "n64", "/other"))
	made.soon("a change", made.same(browser))
	if faults := browser.Faults(); len(faults) > 0 {
		t.Error(faults)
	}
}

// fill makes volumes, of which most are used.
func fill(made *scene, count int) {
	made.Helper()
	var group sync.WaitGroup
	for caller := 0; caller < 64; caller++ {
		group.Add(1)
		go func(caller int) {
			defer group.Done()
			for at := caller; at < count; at += 64 {
				name := fmt.Sprintf("vol-%04d", at)
				made.does(create(name))
				if at%8 != 3 {
					made.does(use(name, made.nodes[at%len(made.nodes)], "/srv/"+name))
				}
			}
		}(caller)
	}
	group.Wait()
}
