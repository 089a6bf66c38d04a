package secure_test

import (
	"context"
	"crypto/tls"
	"errors"
	"io"
	"net"
	"os"
	"path/filepath"
	"strings"
	"sync/atomic"
	"testing"
	"time"

	"golang.org/x/sys/unix"
	"google.golang.org/grpc"
	"google.golang.org/grpc/codes"
	"google.golang.org/grpc/credentials"
	"google.golang.org/grpc/health"
	"google.golang.org/grpc/health/grpc_health_v1"
	"google.golang.org/grpc/status"

	"tufayon/service/secure"
	"tufayon/service/secure/securetest"
)

const (
	orchestrator = "tufayon://s1/orchestrator"
	n1           = "tufayon://s1/node/n1"
)

func later() time.Time { return time.Now().Add(time.Hour) }

func name(t *testing.T, text string) secure.Name {
	t.Helper()
	name, err := secure.ParseName(text)
	if err != nil {
		t.Fatal(err)
	}
	return name
}

func TestNames(t *testing.T) {
	for text, want := range map[string]secure.Name{
		orchestrator:                    {Set: "s1", Role: secure.Orchestrator},
		"tufayon://s1/controller":       {Set: "s1", Role: secure.Controller},
		n1:                              {Set: "s1", Role: secure.Node, ID: "n1"},
		"tufayon://s1/client/ann":       {Set: "s1", Role: secure.Client, ID: "ann"},
		"tufayon://s1/node/rack%203/n1": {Set: "s1", Role: secure.Node, ID: "rack 3/n1"},
	} {
		if got := name(t, text); got != want || got.String() != text {
			t.Errorf("%s: %+v, %s", text, got, got)
		}
	}
	for _, text := range []string{
		"", "n1", "https://s1/orchestrator", "tufayon:///orchestrator", "tufayon://s1", "tufayon://s1/node", "tufayon://s1/node/", "tufayon://s1/king",
		"tufayon://s1/orchestrator/n1", "tufayon://s1/node/n1?role=lose", "tufayon://ann@s1/node/n1", "tufayon://s1/node/n1#x", "tufayon://s1//node/n1",
	} {
		if got, err := secure.ParseName(text); !errors.Is(err, secure.ErrURI) {
			t.Errorf("%s: %+v, %v", text, got, err)
		}
	}
}

// shake has a server and a client meet on loopback. It gives what the server says of the client, and the client of the server; by TLS 1.3 a client knows
// that it was refused once it reads.
func shake(t *testing.T, server, client credentials.TransportCredentials) (atServer, atClient error) {
	t.Helper()
	listener, err := net.Listen("tcp", "127.0.0.1:0")
	if err != nil {
		t.Fatal(err)
	}
	defer listener.Close()
	served := make(chan error, 1)
	go func() {
		raw, err := listener.Accept()
		if err != nil {
			served <- err
			return
		}
		defer raw.Close()
		secured, _, err := server.ServerHandshake(raw)
		if err == nil {
			_, err = secured.Write([]byte("!"))
		}
		served <- err
	}()
	raw, err := net.Dial("tcp", listener.Addr().String())
	if err != nil {
		t.Fatal(err)
	}
	defer raw.Close()
	secured, _, atClient := client.ClientHandshake(context.Background(), "127.0.0.1", raw)
	if atClient == nil {
		_, atClient = secured.Read(make([]byte, 1))
	} else {
		raw.Close()
	}
	return <-served, atClient
}

// wants says whether an error is of a kind, which TLS doesn't always keep, and says these words.
func wants(t *testing.T, what string, err, want error, words ...string) {
	t.Helper()
	if (want == nil) != (err == nil) || want != nil && !strings.Contains(err.Error(), want.Error()) {
		t.Errorf("%s: %v, not %v", what, err, want)
		return
	}
	if want == nil {
		return
	}
	for _, it := range words {
		if !strings.Contains(err.Error(), it) {
			t.Errorf("%s: %v doesn't say %q", what, err, it)
		}
	}
}

// Each reason for a refusal, of a client by a server and of a server by a client, with a line that says it.
func TestRefusals(t *testing.T) {
	ours, theirs := securetest.NewAuthority(t), securetest.NewAuthority(t)
	own := ours.Issue(t, t.TempDir(), later(), orchestrator)
	nodes := ours.Issue(t, t.TempDir(), later(), n1)
	for _, it := range []struct {
		what      string
		authority *securetest.Authority
		until     time.Time
		uris      []string
		want      error
		says      string
	}{
		{"the right one", ours, later(), []string{n1}, nil, ""},
		{"expired", ours, time.Now().Add(-time.Minute), []string{n1}, secure.ErrExpired, n1},
		{"another authority", theirs, later(), []string{n1}, secure.ErrAuthority, n1},
		{"another set", ours, later(), []string{"tufayon://s2/node/n1"}, secure.ErrSet, "tufayon://s2/node/n1"},
		{"another node", ours, later(), []string{"tufayon://s1/node/n2"}, secure.ErrName, "tufayon://s1/node/n2"},
		{"another role", ours, later(), []string{"tufayon://s1/controller"}, secure.ErrName, "tufayon://s1/controller"},
		{"no URI", ours, later(), nil, secure.ErrURI, "0 URIs"},
		{"two URIs", ours, later(), []string{n1, "tufayon://s1/node/n2"}, secure.ErrURI, "2 URIs"},
		{"another URI", ours, later(), []string{"spiffe://s1/node/n1"}, secure.ErrURI, "spiffe://s1/node/n1"},
	} {
		files := it.authority.Issue(t, t.TempDir(), it.until, it.uris...)
		ours.Believe(t, files)
		var told error
		note := func(_ net.Addr, why error) { told = why }
		atServer, atClient := shake(t, own.Server(secure.Only(name(t, n1)), note), files.Client(name(t, orchestrator), nil))
		wants(t, "a server, of a client with "+it.what, atServer, it.want, it.says)
		wants(t, "what it told, of a client with "+it.what, told, it.want, it.says)
		if (atClient == nil) != (it.want == nil) {
			t.Errorf("a client with %s: %v", it.what, atClient)
		}
		told = nil
		_, atClient = shake(t, files.Server(secure.Only(name(t, orchestrator)), nil), own.Client(name(t, n1), note))
		wants(t, "a client, of a server with "+it.what, atClient, it.want, it.says)
		wants(t, "what it told, of a server with "+it.what, told, it.want, it.says)
	}
	for what, client := range map[string]credentials.TransportCredentials{
		secure.ErrNone.Error(): credentials.NewTLS(&tls.Config{InsecureSkipVerify: true, MinVersion: tls.VersionTLS13}),
		"protocol version":     credentials.NewTLS(&tls.Config{InsecureSkipVerify: true, MaxVersion: tls.VersionTLS12}),
	} {
		atServer, atClient := shake(t, own.Server(secure.Only(name(t, n1)), nil), client)
		if atServer == nil || !strings.Contains(atServer.Error(), what) && !strings.Contains(atServer.Error(), "versions") || atClient == nil {
			t.Errorf("%s: %v, %v", what, atServer, atClient)
		}
	}
	atServer, _ := shake(t, own.Server(secure.Those("s1", secure.Client), nil), nodes.Client(name(t, orchestrator), nil))
	wants(t, "a node where clients call", atServer, secure.ErrName, n1)
}

// A certificate that is renewed, and another authority, count at the next handshake.
func TestRenewed(t *testing.T) {
	ours, next := securetest.NewAuthority(t), securetest.NewAuthority(t)
	folder := t.TempDir()
	own := ours.Issue(t, t.TempDir(), later(), orchestrator)
	files := ours.Issue(t, folder, time.Now().Add(-time.Minute), n1)
	server, client := own.Server(secure.Only(name(t, n1)), nil), files.Client(name(t, orchestrator), nil)
	check := func(what string, want error) {
		t.Helper()
		atServer, _ := shake(t, server, client)
		wants(t, what, atServer, want)
	}
	check("expired", secure.ErrExpired)
	ours.Issue(t, folder, later(), n1)
	check("renewed", nil)
	next.Issue(t, folder, later(), n1)
	ours.Believe(t, files)
	check("of the next authority", secure.ErrAuthority)
	next.Believe(t, own)
	check("which is believed now", nil)
}

// A connection ends with the peer's certificate.
func TestEnds(t *testing.T) {
	ours := securetest.NewAuthority(t)
	own := ours.Issue(t, t.TempDir(), later(), orchestrator)
	end := time.Now().Truncate(time.Second).Add(2 * time.Second)
	files := ours.Issue(t, t.TempDir(), end, n1)
	listener, err := net.Listen("tcp", "127.0.0.1:0")
	if err != nil {
		t.Fatal(err)
	}
	defer listener.Close()
	go func() {
		raw, err := listener.Accept()
		if err != nil {
			return
		}
		if secured, _, err := own.Server(secure.Only(name(t, n1)), nil).ServerHandshake(raw); err == nil {
			secured.Read(make([]byte, 1)) // until it ends
		}
	}()
	raw, err := net.Dial("tcp", listener.Addr().String())
	if err != nil {
		t.Fatal(err)
	}
	secured, _, err := files.Client(name(t, orchestrator), nil).ClientHandshake(context.Background(), "", raw)
	if err != nil {
		t.Fatal(err)
	}
	defer secured.Close()
	secured.SetReadDeadline(end.Add(5 * time.Second))
	if _, err := secured.Read(make([]byte, 1)); !errors.Is(err, io.EOF) || time.Now().Before(end) {
		t.Errorf("it ended %v before the certificate, by %v", time.Until(end), err)
	}
}

func TestCheck(t *testing.T) {
	ours, theirs := securetest.NewAuthority(t), securetest.NewAuthority(t)
	files := ours.Issue(t, t.TempDir(), later(), n1)
	if until, err := files.Check(name(t, n1)); err != nil || until.Before(time.Now()) {
		t.Errorf("until %v, %v", until, err)
	}
	_, err := files.Check(name(t, orchestrator))
	if !errors.Is(err, secure.ErrName) {
		t.Errorf("another's: %v", err)
	}
	theirs.Believe(t, files)
	if _, err = files.Check(name(t, n1)); !errors.Is(err, secure.ErrAuthority) {
		t.Errorf("of an authority that isn't believed: %v", err)
	}
	other := ours.Issue(t, t.TempDir(), later(), n1)
	if _, err := (secure.Files{Certificate: files.Certificate, Key: other.Key, Authorities: other.Authorities}).Check(name(t, n1)); err == nil {
		t.Error("another's key")
	}
	for _, missing := range []secure.Files{{}, {Certificate: files.Certificate, Key: files.Key}} {
		if _, err := missing.Check(name(t, n1)); !errors.Is(err, os.ErrNotExist) {
			t.Errorf("missing files: %v", err)
		}
	}
}

// A certificate that has ended, and stands behind a peer's own as an old authority's may, ends no connection: it isn't needed.
func TestEndedBehind(t *testing.T) {
	authority := securetest.NewAuthority(t)
	files := authority.Issue(t, t.TempDir(), later(), n1)
	old := authority.Issue(t, t.TempDir(), time.Now().Add(-time.Minute), "tufayon://s1/controller")
	content, err := os.ReadFile(files.Certificate)
	if err != nil {
		t.Fatal(err)
	}
	behind, err := os.ReadFile(old.Certificate)
	if err == nil {
		err = os.WriteFile(files.Certificate, append(content, behind...), 0o600)
	}
	if err != nil {
		t.Fatal(err)
	}
	if until, err := files.Check(name(t, n1)); err != nil || until.Before(time.Now()) {
		t.Errorf("it is valid until %v, %v", until, err)
	}
}

// At a Unix socket each end refuses a user that may not be there.
func TestLocal(t *testing.T) {
	own := uint32(os.Geteuid())
	for _, it := range []struct {
		server, client     bool
		atServer, atClient error
	}{{true, true, nil, nil}, {false, true, secure.ErrUser, io.EOF}, {true, false, nil, secure.ErrUser}} {
		listener, err := secure.Listen(filepath.Join(t.TempDir(), "folder", "socket"))
		if err != nil {
			t.Fatal(err)
		}
		may := func(does bool) secure.Local {
			return secure.Local{May: func(uid uint32) bool { return does && uid == own }}
		}
		served := make(chan error, 1)
		go func() {
			raw, err := listener.Accept()
			if err == nil {
				var secured net.Conn
				if secured, _, err = may(it.server).ServerHandshake(raw); err == nil {
					secured.Write([]byte("!"))
				}
				raw.Close()
			}
			served <- err
		}()
		raw, err := net.Dial("unix", listener.Addr().String())
		if err != nil {
			t.Fatal(err)
		}
		secured, _, err := may(it.client).ClientHandshake(context.Background(), "", raw)
		if err == nil {
			_, err = secured.Read(make([]byte, 1))
		}
		if atServer := <-served; !errors.Is(atServer, it.atServer) || !errors.Is(err, it.atClient) {
			t.Errorf("%+v: %v, %v", it, atServer, err)
		}
		raw.Close()
		listener.Close()
	}
}

// A user that isn't wanted any more is refused at its next call, over the connection that it has, and let in again once it is wanted.
func TestLocalCalls(t *testing.T) {
	listener, err := secure.Listen(filepath.Join(t.TempDir(), "socket"))
	if err != nil {
		t.Fatal(err)
	}
	own := uint32(os.Geteuid())
	var refuses int32
	server := grpc.NewServer(secure.Local{May: func(uid uint32) bool { return uid == own && atomic.LoadInt32(&refuses) == 0 }}.Options()...)
	grpc_health_v1.RegisterHealthServer(server, health.NewServer())
	go server.Serve(listener)
	defer server.Stop()
	connection, err := grpc.Dial("unix://"+listener.Addr().String(), grpc.WithTransportCredentials(secure.Local{May: func(uint32) bool { return true }}))
	if err != nil {
		t.Fatal(err)
	}
	defer connection.Close()
	client := grpc_health_v1.NewHealthClient(connection)
	for _, wants := range []error{nil, status.Errorf(codes.PermissionDenied, "%v: %d", secure.ErrUser, own), nil} {
		if wants != nil {
			atomic.StoreInt32(&refuses, 1)
		} else {
			atomic.StoreInt32(&refuses, 0)
		}
		_, err := client.Check(context.Background(), &grpc_health_v1.HealthCheckRequest{})
		if !same(err, wants) {
			t.Errorf("a call: %v, not %v", err, wants)
		}
		stream, err := client.Watch(context.Background(), &grpc_health_v1.HealthCheckRequest{})
		if err == nil {
			_, err = stream.Recv()
		}
		if !same(err, wants) {
			t.Errorf("a stream: %v, not %v", err, wants)
		}
	}
}

// same says whether two calls ended alike.
func same(one, other error) bool {
	return status.Code(one) == status.Code(other) && (one == nil || status.Convert(one).Message() == status.Convert(other).Message())
}

// A socket that is served isn't taken away, and one that was left is.
func TestListen(t *testing.T) {
	path := filepath.Join(t.TempDir(), "socket")
	first, err := secure.Listen(path)
	if err != nil {
		t.Fatal(err)
	}
	if _, err := secure.Listen(path); err == nil {
		t.Error("it is served twice")
	}
	first.(*net.UnixListener).SetUnlinkOnClose(false)
	first.Close()
	second, err := secure.Listen(path)
	if err != nil {
		t.Fatal(err)
	}
	second.Close()
}

// So isn't the socket of a process that hangs, at which so many wait that no more may.
func TestListenAtFull(t *testing.T) {
	path := filepath.Join(t.TempDir(), "socket")
	hangs, err := unix.Socket(unix.AF_UNIX, unix.SOCK_STREAM|unix.SOCK_CLOEXEC, 0)
	if err != nil {
		t.Fatal(err)
	}
	defer unix.Close(hangs)
	if err = unix.Bind(hangs, &unix.SockaddrUnix{Name: path}); err == nil {
		err = unix.Listen(hangs, 0)
	}
	for err == nil {
		var waits net.Conn
		if waits, err = net.Dial("unix", path); err == nil {
			defer waits.Close()
		}
	}
	if !errors.Is(err, unix.EAGAIN) {
		t.Fatal(err)
	}
	if _, err := secure.Listen(path); err == nil {
		t.Error("it is served twice")
	}
	if _, err := net.Dial("unix", path); !errors.Is(err, unix.EAGAIN) {
		t.Errorf("it was taken away: %v", err)
	}
}
