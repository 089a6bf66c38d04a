package secure

import (
	"context"
	"crypto/tls"
	"crypto/x509"
	"errors"
	"io"
	"net"
	"sync"
	"syscall"
	"time"

	"google.golang.org/grpc/credentials"
)

// Refused is told of each peer that was refused, and why. By TLS 1.3 a client that is refused sees only a closed connection, so the server has to tell.
// A client that goes before it said who it is isn't refused. It may be nil.
type Refused func(from net.Addr, why error)

// Seen is told of each peer that was let in, and when the first certificate ends of those by which it is known. It may be nil.
type Seen func(peer Name, until time.Time)

func (seen Seen) note(chain []*x509.Certificate) {
	if seen == nil || len(chain) == 0 {
		return
	}
	if name, err := Named(chain[0]); err == nil {
		seen(name, endOf(chain))
	}
}

// Server gives the credentials of a server that these peers may call.
func (files Files) Server(admit Admit, refused Refused) credentials.TransportCredentials {
	return named{refused: refused, TransportCredentials: credentials.NewTLS(&tls.Config{
		MinVersion: tls.VersionTLS13,
		GetConfigForClient: func(*tls.ClientHelloInfo) (*tls.Config, error) {
			own, err := files.own()
			if err != nil {
				return nil, err
			}
			return &tls.Config{
				Certificates: []tls.Certificate{*own}, MinVersion: tls.VersionTLS13, ClientAuth: tls.RequestClientCert,
				SessionTicketsDisabled: true, NextProtos: []string{"h2"}, // gRPC adds that only to the outer configuration
				VerifyConnection: files.verify(x509.ExtKeyUsageClientAuth, admit),
			}, nil
		},
	})}
}

// HTTPS is the configuration of a server of HTTP that these peers may ask. It tells nobody who is refused.
func (files Files) HTTPS(admit Admit, seen Seen) *tls.Config {
	verify := files.verify(x509.ExtKeyUsageClientAuth, admit)
	return &tls.Config{
		MinVersion: tls.VersionTLS13, ClientAuth: tls.RequestClientCert, SessionTicketsDisabled: true,
		GetCertificate: func(*tls.ClientHelloInfo) (*tls.Certificate, error) { return files.own() },
		VerifyConnection: func(state tls.ConnectionState) error {
			if err := verify(state); err != nil {
				return err
			}
			seen.note(state.PeerCertificates)
			return nil
		},
	}
}

// Judging judges who is at the other end of a connection of HTTPS once more, as when it was made: its certificate may have ended since then.
func (files Files) Judging(admit Admit) func(tls.ConnectionState) error {
	return files.verify(x509.ExtKeyUsageClientAuth, admit)
}

// Seeing are a server's credentials that tell who was let in.
func Seeing(known credentials.TransportCredentials, seen Seen) credentials.TransportCredentials {
	return seeing{known, seen}
}

type seeing struct {
	credentials.TransportCredentials
	seen Seen
}

func (it seeing) ServerHandshake(raw net.Conn) (net.Conn, credentials.AuthInfo, error) {
	shaken, info, err := it.TransportCredentials.ServerHandshake(raw)
	if by, ok := info.(credentials.TLSInfo); ok && err == nil {
		it.seen.note(by.State.PeerCertificates)
	}
	return shaken, info, err
}

func (it seeing) Clone() credentials.TransportCredentials {
	return seeing{it.TransportCredentials.Clone(), it.seen}
}

// Client gives the credentials of a client that speaks to one peer, whatever its address.
func (files Files) Client(wanted Name, refused Refused) credentials.TransportCredentials {
	return named{refused: refused, TransportCredentials: credentials.NewTLS(&tls.Config{
		MinVersion:         tls.VersionTLS13,
		InsecureSkipVerify: true, // addresses and DNS names prove nothing here: VerifyConnection judges all
		GetClientCertificate: func(*tls.CertificateRequestInfo) (*tls.Certificate, error) {
			return files.own()
		},
		VerifyConnection: files.verify(x509.ExtKeyUsageServerAuth, Only(wanted)),
	})}
}

func (files Files) verify(usage x509.ExtKeyUsage, admit Admit) func(tls.ConnectionState) error {
	return func(state tls.ConnectionState) error {
		pool, err := files.believed()
		if err != nil {
			return err
		}
		return judge(state.PeerCertificates, pool, usage, admit)
	}
}

// named are TLS's credentials, which tell who is refused, and whose connections end with the peer's certificate.
type named struct {
	credentials.TransportCredentials
	refused Refused
}

func (it named) ServerHandshake(raw net.Conn) (net.Conn, credentials.AuthInfo, error) {
	secured, info, err := it.TransportCredentials.ServerHandshake(raw)
	if isGone(err) {
		return nil, nil, err
	}
	return it.shaken(raw, secured, info, err)
}

// isGone says whether a client went before it said who it is, as one does that only looks who listens, or that has reached another server meanwhile.
func isGone(err error) bool {
	return errors.Is(err, io.EOF) || errors.Is(err, syscall.ECONNRESET) || errors.Is(err, syscall.EPIPE)
}

func (it named) ClientHandshake(ctx context.Context, authority string, raw net.Conn) (net.Conn, credentials.AuthInfo, error) {
	secured, info, err := it.TransportCredentials.ClientHandshake(ctx, authority, raw)
	return it.shaken(raw, secured, info, err)
}

func (it named) Clone() credentials.TransportCredentials {
	return named{refused: it.refused, TransportCredentials: it.TransportCredentials.Clone()}
}

func (it named) shaken(raw, secured net.Conn, info credentials.AuthInfo, err error) (net.Conn, credentials.AuthInfo, error) {
	if err != nil {
		if it.refused != nil {
			it.refused(raw.RemoteAddr(), err)
		}
		return nil, nil, err
	}
	if by, ok := info.(credentials.TLSInfo); ok {
		secured = endingAt(secured, endOf(by.State.PeerCertificates))
	}
	return secured, info, nil
}

// ending is a connection that closes when the peer's certificate ends: so a call, also a long one, has a peer whose certificate is valid.
type ending struct {
	net.Conn
	timer *time.Timer
	once  sync.Once
	err   error
}

func endingAt(connection net.Conn, end time.Time) net.Conn {
	it := &ending{Conn: connection}
	it.timer = time.AfterFunc(time.Until(end), func() { it.close() })
	return it
}

func (it *ending) close() {
	it.once.Do(func() { it.err = it.Conn.Close() })
}

func (it *ending) Close() error {
	it.timer.Stop()
	it.close()
	return it.err
}
