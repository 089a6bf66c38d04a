package secure_test

import (
	"bytes"
	"context"
	"crypto/tls"
	"errors"
	"net"
	"testing"
	"time"

	"tufayon/service/secure"
	"tufayon/service/secure/securetest"
)

// begun is a connection over which nothing is sent behind the first message.
type begun struct {
	net.Conn
	isSent bool
}

func (it *begun) Write(bytes []byte) (int, error) {
	if it.isSent {
		it.Conn.Close()
		return 0, net.ErrClosed
	}
	it.isSent = true
	return it.Conn.Write(bytes)
}

// A client that goes before it said who it is isn't told as one that is refused: before it sent anything, and once it has begun to. One that stays is.
func TestGone(t *testing.T) {
	own := securetest.NewAuthority(t).Issue(t, t.TempDir(), later(), orchestrator)
	other := securetest.NewAuthority(t).Issue(t, t.TempDir(), later(), n1)
	for _, it := range []struct {
		what    string
		does    func(raw net.Conn)
		isAlone bool
	}{
		{"goes at once", func(net.Conn) {}, true},
		{"goes, and reads nothing", func(raw net.Conn) { raw.(*net.TCPConn).SetLinger(0) }, true},
		{"begins", func(raw net.Conn) {
			tls.Client(&begun{Conn: raw}, &tls.Config{InsecureSkipVerify: true, MinVersion: tls.VersionTLS13}).Handshake()
		}, true},
		{"speaks otherwise", func(raw net.Conn) { raw.Write(bytes.Repeat([]byte("hello"), 100)) }, false},
		{"is of another authority", func(raw net.Conn) {
			if secured, _, err := other.Client(name(t, orchestrator), nil).ClientHandshake(context.Background(), "", raw); err == nil {
				secured.Read(make([]byte, 1))
			}
		}, false},
	} {
		listener, err := net.Listen("tcp", "127.0.0.1:0")
		if err != nil {
			t.Fatal(err)
		}
		told := make(chan error, 1)
		served := make(chan error, 1)
		go func() {
			raw, err := listener.Accept()
			if err == nil {
				_, _, err = own.Server(secure.Only(name(t, n1)), func(_ net.Addr, why error) { told <- why }).ServerHandshake(raw)
				raw.Close()
			}
			served <- err
		}()
		raw, err := net.Dial("tcp", listener.Addr().String())
		if err != nil {
			t.Fatal(err)
		}
		it.does(raw)
		raw.Close()
		if err := <-served; err == nil || (len(told) == 0) != it.isAlone {
			t.Errorf("one that %s: %v, and %d were told", it.what, err, len(told))
		}
		listener.Close()
	}
}

// Who was let in is told, with the end of its certificate, at each connection; who was refused isn't.
func TestSeen(t *testing.T) {
	ours := securetest.NewAuthority(t)
	own := ours.Issue(t, t.TempDir(), later(), orchestrator)
	folder, end := t.TempDir(), time.Now().Add(time.Minute).Truncate(time.Second)
	files := ours.Issue(t, folder, end, n1)
	seen := map[secure.Name]time.Time{}
	server := secure.Seeing(own.Server(secure.Only(name(t, n1)), nil), func(peer secure.Name, until time.Time) { seen[peer] = until }).Clone()
	shake(t, server, ours.Issue(t, t.TempDir(), end, "tufayon://s1/node/n2").Client(name(t, orchestrator), nil))
	if len(seen) != 0 {
		t.Errorf("one that is refused: %v", seen)
	}
	for _, until := range []time.Time{end, end.Add(time.Hour)} {
		ours.Issue(t, folder, until, n1)
		if atServer, atClient := shake(t, server, files.Client(name(t, orchestrator), nil)); atServer != nil || atClient != nil {
			t.Fatal(atServer, atClient)
		}
		if its := seen[name(t, n1)]; len(seen) != 1 || !its.Equal(until) {
			t.Errorf("seen: %v, not %v", seen, until)
		}
	}
	https := own.HTTPS(secure.Only(name(t, n1)), func(secure.Name, time.Time) { seen = nil })
	if err := https.VerifyConnection(tls.ConnectionState{}); !errors.Is(err, secure.ErrNone) || seen == nil {
		t.Errorf("nobody over HTTPS: %v", err)
	}
}
