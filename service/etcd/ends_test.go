package etcd

import (
	"crypto/tls"
	"io"
	"log"
	"net/http"
	"net/http/httptest"
	"strings"
	"testing"
	"time"

	"tufayon/service/secure"
	"tufayon/service/secure/securetest"
)

// The ends of servers' certificates are known by what these show: of one that has ended too, and of one that is gone as it was before.
func TestServerEnds(t *testing.T) {
	authority := securetest.NewAuthority(t)
	own := authority.Issue(t, t.TempDir(), time.Now().Add(time.Hour), "tufayon://s1/etcd/orchestrator")
	asked := make(chan string, 100)
	serve := func(files *secure.Files) (endpoint string, end func()) {
		server := httptest.NewUnstartedServer(http.HandlerFunc(func(to http.ResponseWriter, request *http.Request) { asked <- request.URL.Path }))
		server.TLS = &tls.Config{GetConfigForClient: func(*tls.ClientHelloInfo) (*tls.Config, error) {
			certificate, err := tls.LoadX509KeyPair(files.Certificate, files.Key)
			return &tls.Config{Certificates: []tls.Certificate{certificate}, ClientAuth: tls.RequireAnyClientCert}, err
		}}
		server.Config.ErrorLog = log.New(io.Discard, "", 0)
		server.StartTLS()
		t.Cleanup(server.Close)
		return server.URL, server.Close
	}
	folder, now := t.TempDir(), time.Now().Truncate(time.Second)
	issue := func(until time.Duration) secure.Files { return authority.Issue(t, folder, now.Add(until)) }
	good, ended := issue(time.Minute), authority.Issue(t, t.TempDir(), now.Add(-time.Minute))
	first, _ := serve(&good)
	second, end := serve(&ended)
	ends := Config{Endpoints: []string{first, second}, CA: own.Authorities, Certificate: own.Certificate, Key: own.Key}.ServerEnds()
	wants := func(what string, atFirst time.Duration) {
		t.Helper()
		for until := time.Now().Add(10 * time.Second); ; time.Sleep(10 * time.Millisecond) {
			known := ends.Known()
			if len(known) == 2 && known[strings.TrimPrefix(first, "https://")].Equal(now.Add(atFirst)) && known[strings.TrimPrefix(second, "https://")].Equal(now.Add(-time.Minute)) {
				return
			}
			if time.Now().After(until) {
				t.Fatalf("%s: %v", what, known)
			}
		}
	}
	wants("at first", time.Minute)
	if path := <-asked; path != "/version" || len(asked) > 0 {
		t.Errorf("it asks %s, and %d more", path, len(asked))
	}
	end()
	issue(time.Hour)
	ends.mutex.Lock()
	ends.asked = time.Time{}
	ends.mutex.Unlock()
	wants("renewed, and the second one gone", time.Hour)
	if known := (Config{Endpoints: []string{"http://127.0.0.1:1"}}).ServerEnds().Known(); len(known) != 0 {
		t.Errorf("without TLS: %v", known)
	}
}
