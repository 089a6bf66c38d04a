package web

import (
	"bufio"
	"crypto/tls"
	"encoding/json"
	"errors"
	"fmt"
	"io"
	"net"
	"net/http"
	"strings"
	"sync"
	"sync/atomic"
	"testing"
	"time"

	"go.uber.org/zap"
	"google.golang.org/grpc/credentials"

	"tufayon/service/carrying"
	"tufayon/service/history"
	"tufayon/service/host"
	"tufayon/service/records"
	"tufayon/service/secure"
	"tufayon/service/secure/securetest"
)

const within = 10 * time.Second // what should come soon

// pipes are connections that have no room: who writes waits for who reads.
type pipes struct {
	made  chan net.Conn
	ended chan struct{}
	once  sync.Once
}

func (it *pipes) Accept() (net.Conn, error) {
	select {
	case raw := <-it.made:
		return raw, nil
	case <-it.ended:
		return nil, net.ErrClosed
	}
}

func (it *pipes) Close() error {
	it.once.Do(func() { close(it.ended) })
	return nil
}

func (it *pipes) Addr() net.Addr { return &net.UnixAddr{Name: "pipes", Net: "unix"} }

// ask connects, and sends a request.
func (it *pipes) ask(t *testing.T, path string) net.Conn {
	t.Helper()
	ours, its := net.Pipe()
	it.made <- its
	t.Cleanup(func() { ours.Close() })
	fmt.Fprintf(ours, "GET %s HTTP/1.1\r\nHost: localhost\r\n\r\n", path)
	return ours
}

// waiting serves the page of a process that doesn't lead, and of which another one does.
func waiting(t *testing.T, options Options, leader func() string) (*Page, *pipes) {
	page := NewPage(Source{
		Set: "s1", Host: func() *host.Host { return nil }, Leader: leader, Plugins: func() map[string]carrying.State { return nil },
		Slots: func() map[string]uint64 { return nil },
	})
	page.stuck, page.silent = within, 20*time.Millisecond
	options.Metrics, options.Ready, options.Page = http.NotFoundHandler(), func() bool { return true }, page
	server, listener := New(options), &pipes{made: make(chan net.Conn), ended: make(chan struct{})}
	go server.Serve(listener)
	t.Cleanup(func() { server.Close() })
	return page, listener
}

func first() string { return "the first" }

// soon wants that so many pages follow.
func (page *Page) soon(t *testing.T, streams int) {
	t.Helper()
	for end := time.Now().Add(within); page.Streams() != streams; time.Sleep(time.Millisecond) {
		if time.Now().After(end) {
			t.Fatalf("%d pages follow, not %d", page.Streams(), streams)
		}
	}
}

// A page that takes nothing of what it is told doesn't keep its place.
func TestStuck(t *testing.T) {
	begun := make(chan struct{}, 1)
	page, at := waiting(t, Options{}, func() string {
		begun <- struct{}{}
		return "the first"
	})
	page.stuck = 50 * time.Millisecond
	at.ask(t, "/events")
	<-begun
	page.soon(t, 0)
}

// A page above the limit is told to ask once more, and follows once another one is gone.
func TestManyPages(t *testing.T) {
	page, at := waiting(t, Options{}, first)
	for at := 0; at < mostStreams; at++ {
		page.enter()
	}
	answer, err := http.ReadResponse(bufio.NewReader(at.ask(t, "/events")), nil)
	if err != nil {
		t.Fatal(err)
	}
	text, err := io.ReadAll(answer.Body)
	if err != nil || answer.StatusCode != 200 || answer.Header.Get("Content-Type") != "text/event-stream" || string(text) != "retry: 5000\n\n" {
		t.Errorf("%s: %q, %v", answer.Status, text, err)
	}
	page.leave()
	at.ask(t, "/events")
	page.soon(t, mostStreams)
}

// A page of a process that doesn't lead is told who does, also where another one does later.
func TestLeader(t *testing.T) {
	var leads atomic.Value
	leads.Store("the first")
	_, at := waiting(t, Options{}, func() string { return leads.Load().(string) })
	lines := bufio.NewScanner(at.ask(t, "/events"))
	for _, leader := range []string{"the first", "the second"} {
		leads.Store(leader)
		for end := time.Now().Add(within); ; {
			if !lines.Scan() || time.Now().After(end) {
				t.Fatalf("it isn't told of %s, %v", leader, lines.Err())
			}
			var told struct{ Begin *struct{ Leader string } }
			if text := strings.TrimPrefix(lines.Text(), "data: "); json.Unmarshal([]byte(text), &told) == nil && told.Begin != nil && told.Begin.Leader == leader {
				break
			}
		}
	}
}

// A picture is of one volume, and never of all that is kept.
func TestPictureOfAll(t *testing.T) {
	page, at := waiting(t, Options{}, first)
	page.source.Draws = "/bin/false"
	var err error
	if page.source.History, err = history.Open("", history.Usual, zap.NewNop()); err != nil {
		t.Fatal(err)
	}
	page.source.History.Happened([]host.Happening{{What: host.TimedOut, Name: "v", Row: &records.Row{Wanted: records.Wanted{Name: "v"}}}})
	answer, err := http.ReadResponse(bufio.NewReader(at.ask(t, "/picture")), nil)
	if err != nil || answer.StatusCode != 400 {
		t.Errorf("%v, %v", answer, err)
	}
}

// door lets in who connects, until it is shut.
type door struct {
	credentials.TransportCredentials
	isShut atomic.Bool
}

var errShut = errors.New("it is shut")

func (it *door) judge() error {
	if it.isShut.Load() {
		return errShut
	}
	return nil
}

func (it *door) ServerHandshake(raw net.Conn) (net.Conn, credentials.AuthInfo, error) {
	return raw, nil, it.judge()
}

// Who may ask no more is refused at the next request, over the connection that it has too, and follows no more.
func TestJudged(t *testing.T) {
	its := &door{}
	page, at := waiting(t, Options{Known: its}, first)
	go io.Copy(io.Discard, at.ask(t, "/events"))
	page.soon(t, 1)
	connection := at.ask(t, "/healthz")
	answers := bufio.NewReader(connection)
	wants := func(status int) {
		t.Helper()
		answer, err := http.ReadResponse(answers, nil)
		if err != nil || answer.StatusCode != status {
			t.Fatalf("%v, %v, not %d", answer, err, status)
		}
		answer.Body.Close()
	}
	wants(200)
	page.soon(t, 1)
	its.isShut.Store(true)
	fmt.Fprintf(connection, "GET /healthz HTTP/1.1\r\nHost: localhost\r\n\r\n")
	wants(403)
	page.soon(t, 0)
}

// Over TLS likewise, as it is judged when one connects.
func TestJudgedOverTLS(t *testing.T) {
	its, authority := &door{}, securetest.NewAuthority(t)
	later := time.Now().Add(time.Hour)
	own, client := authority.Issue(t, t.TempDir(), later, "tufayon://s1/orchestrator"), authority.Issue(t, t.TempDir(), later, "tufayon://s1/client/p")
	admit := func(secure.Name) error { return its.judge() }
	_, at := waiting(t, Options{TLS: own.HTTPS(admit, nil), Judge: own.Judging(admit)}, first)
	shown, err := tls.LoadX509KeyPair(client.Certificate, client.Key)
	if err != nil {
		t.Fatal(err)
	}
	ours, theirs := net.Pipe()
	at.made <- theirs
	connection := tls.Client(ours, &tls.Config{Certificates: []tls.Certificate{shown}, InsecureSkipVerify: true})
	defer ours.Close()
	answers := bufio.NewReader(connection)
	for _, want := range []int{200, 200, 403} {
		its.isShut.Store(want == 403)
		fmt.Fprintf(connection, "GET /healthz HTTP/1.1\r\nHost: localhost\r\n\r\n")
		answer, err := http.ReadResponse(answers, nil)
		if err != nil || answer.StatusCode != want {
			t.Fatalf("%v, %v, not %d", answer, err, want)
		}
		answer.Body.Close()
	}
}
