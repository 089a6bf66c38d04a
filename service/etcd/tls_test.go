package etcd

import (
	"crypto/tls"
	"net"
	"testing"
	"time"

	"tufayon/service/secure"
	"tufayon/service/secure/securetest"
)

// A client's certificate that is renewed counts at the next handshake: who waits to lead may outlive the one that it began with.
func TestRenewed(t *testing.T) {
	authority, folder := securetest.NewAuthority(t), t.TempDir()
	issue := func(until time.Time) secure.Files {
		return authority.Issue(t, folder, until, "tufayon://s1/controller")
	}
	files, first, second := issue(time.Now().Add(time.Minute)), time.Now().Add(time.Minute), time.Now().Add(time.Hour)
	known, err := Config{
		Endpoints: []string{"https://192.0.2.1:2379"}, CA: files.Authorities, Certificate: files.Certificate, Key: files.Key,
	}.secure()
	if err != nil {
		t.Fatal(err)
	}
	known.InsecureSkipVerify = true // the server here has no address in its certificate
	own, err := tls.LoadX509KeyPair(files.Certificate, files.Key)
	if err != nil {
		t.Fatal(err)
	}
	for _, until := range []time.Time{first, second} {
		issue(until)
		here, there := net.Pipe()
		go tls.Client(here, known).Handshake()
		server := tls.Server(there, &tls.Config{Certificates: []tls.Certificate{own}, ClientAuth: tls.RequireAnyClientCert})
		if err := server.Handshake(); err != nil {
			t.Fatal(err)
		}
		if end := server.ConnectionState().PeerCertificates[0].NotAfter; end.Unix() != until.Unix() {
			t.Errorf("the certificate ends at %v, and not %v", end, until)
		}
		here.Close()
		there.Close()
	}
}
