// Package web serves what one looks at: metrics, whether the process is well, and of an orchestrator's service a page. It changes nothing:
// docs/SERVICE.md, "Watching".
package web

import (
	"context"
	"crypto/tls"
	"errors"
	"net"
	"net/http"
	"strings"
	"time"

	"go.uber.org/zap"
	"google.golang.org/grpc/credentials"
)

// Options are those of a server.
type Options struct {
	Metrics http.Handler
	Ready   func() bool                      // whether the process serves, as grpc.health.v1 tells it
	Page    *Page                            // nil of a process that has none
	Log     *zap.Logger                      // of what clients do wrong; may be nil
	TLS     *tls.Config                      // over TCP beyond this machine,
	Judge   func(tls.ConnectionState) error  // and who may ask there, at each request
	Known   credentials.TransportCredentials // at a Unix socket: who may connect
}

// mostStuck is how long what is told may wait for who follows to take it.
const mostStuck = time.Minute

// A connectionKey is that of the connection in a request's context.
type connectionKey struct{}

func connectionOf(request *http.Request) net.Conn {
	raw, _ := request.Context().Value(connectionKey{}).(net.Conn)
	return raw
}

// A Server serves until it is closed.
type Server struct {
	options Options
	http    *http.Server
}

// New makes a server.
func New(options Options) *Server {
	made := &Server{options: options}
	routes := http.NewServeMux()
	routes.Handle("/metrics", options.Metrics)
	routes.HandleFunc("/healthz", func(to http.ResponseWriter, _ *http.Request) { to.Write([]byte("ok\n")) })
	routes.HandleFunc("/readyz", made.ready)
	if options.Page != nil {
		options.Page.judge = made.judge
		options.Page.route(routes)
	}
	made.http = &http.Server{
		Handler: made.guard(routes), TLSConfig: options.TLS, ReadHeaderTimeout: 10 * time.Second, WriteTimeout: streamLife + mostStuck,
		IdleTimeout: 2 * time.Minute, MaxHeaderBytes: 16 << 10,
		ConnContext: func(ctx context.Context, raw net.Conn) context.Context {
			return context.WithValue(ctx, connectionKey{}, raw)
		},
	}
	if options.Log != nil {
		made.http.ErrorLog, _ = zap.NewStdLogAt(options.Log, zap.DebugLevel)
	}
	return made
}

// Serve serves at a listener, until Close.
func (made *Server) Serve(listener net.Listener) error {
	if made.options.Known != nil {
		listener = &knowing{listener, made.options.Known}
	}
	var err error
	if made.options.TLS != nil {
		err = made.http.ServeTLS(listener, "", "")
	} else {
		err = made.http.Serve(listener)
	}
	if errors.Is(err, http.ErrServerClosed) {
		return nil
	}
	return err
}

// Close ends all streams and connections.
func (made *Server) Close() error {
	if made.options.Page != nil {
		made.options.Page.end()
	}
	ctx, cancel := context.WithTimeout(context.Background(), time.Second)
	defer cancel()
	if err := made.http.Shutdown(ctx); err != nil {
		return made.http.Close()
	}
	return nil
}

func (made *Server) ready(to http.ResponseWriter, _ *http.Request) {
	if !made.options.Ready() {
		http.Error(to, "not ready", http.StatusServiceUnavailable)
		return
	}
	to.Write([]byte("ok\n"))
}

// judge judges who asks as when it connected: its certificate may have ended since then, or its role.
func (made *Server) judge(request *http.Request) error {
	its := &made.options
	switch {
	case its.Known != nil:
		_, _, err := its.Known.ServerHandshake(connectionOf(request))
		return err
	case its.Judge != nil && request.TLS != nil:
		return its.Judge(*request.TLS)
	}
	return nil
}

// policy lets a page load what is served here, and nothing else; no page of others may show it.
const policy = "default-src 'none'; script-src 'self'; style-src 'self'; img-src 'self'; connect-src 'self'; base-uri 'none'; form-action 'none'; frame-ancestors 'none'"

// guard lets through what only reads. Without TLS only addresses of this machine are served, so a request in which another name stands was sent by a page
// of somebody else.
func (made *Server) guard(inner http.Handler) http.Handler {
	return http.HandlerFunc(func(to http.ResponseWriter, request *http.Request) {
		if made.judge(request) != nil {
			to.Header().Set("Connection", "close")
			http.Error(to, "who asks may not", http.StatusForbidden)
			return
		}
		if request.Method != http.MethodGet && request.Method != http.MethodHead {
			to.Header().Set("Allow", "GET, HEAD")
			http.Error(to, "this only reads", http.StatusMethodNotAllowed)
			return
		}
		if made.options.TLS == nil && made.options.Known == nil && !isOfHere(request.Host) {
			http.Error(to, "another host", http.StatusForbidden)
			return
		}
		headers := to.Header()
		headers.Set("Content-Security-Policy", policy)
		headers.Set("X-Content-Type-Options", "nosniff")
		headers.Set("Referrer-Policy", "no-referrer")
		headers.Set("Cache-Control", "no-store")
		inner.ServeHTTP(to, request)
	})
}

// isOfHere says whether a Host, with a port or without, is this machine by a name that nobody else gives.
func isOfHere(host string) bool {
	if name, _, err := net.SplitHostPort(host); err == nil {
		host = name
	}
	if host == "localhost" {
		return true
	}
	address := net.ParseIP(strings.Trim(host, "[]"))
	return address != nil && address.IsLoopback()
}

// IsLoopback says whether HOST:PORT is served to this machine alone.
func IsLoopback(address string) bool {
	host, _, err := net.SplitHostPort(address)
	return err == nil && isOfHere(host)
}

// knowing accepts those who may connect.
type knowing struct {
	net.Listener
	known credentials.TransportCredentials
}

func (it *knowing) Accept() (net.Conn, error) {
	for {
		raw, err := it.Listener.Accept()
		if err != nil {
			return nil, err
		}
		if known, _, err := it.known.ServerHandshake(raw); err == nil {
			return known, nil
		}
		raw.Close()
	}
}
