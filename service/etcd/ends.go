package etcd

import (
	"context"
	"crypto/tls"
	"crypto/x509"
	"errors"
	"net/http"
	"net/url"
	"strings"
	"sync"
	"time"
)

// endsAgain is how long what was found of the servers' certificates counts.
const endsAgain = time.Minute

// Ends says when the certificates of etcd's servers end, as they show them to their clients. Its methods may be called side by side.
type Ends struct {
	config Config

	mutex sync.Mutex
	of    map[string]time.Time // by their HOST:PORT
	asked time.Time
}

// ServerEnds makes one, which has asked nobody yet.
func (config Config) ServerEnds() *Ends { return &Ends{config: config, of: map[string]time.Time{}} }

// Known is what is known by now, by each server's HOST:PORT: of one that wasn't reached since, what it showed before. Where that is of a minute ago, the
// servers are asked meanwhile, and who asks next has it. It is nothing where etcd is spoken to without TLS.
func (ends *Ends) Known() map[string]time.Time {
	ends.mutex.Lock()
	defer ends.mutex.Unlock()
	if ends.config.Certificate != "" && time.Since(ends.asked) >= endsAgain {
		ends.asked = time.Now()
		for _, endpoint := range ends.config.Endpoints {
			go ends.ask(endpoint)
		}
	}
	known := make(map[string]time.Time, len(ends.of))
	for server, end := range ends.of {
		known[server] = end
	}
	return known
}

// ask asks a server for its version, to see its certificate. One that has ended is seen too.
func (ends *Ends) ask(endpoint string) {
	ctx, cancel := context.WithTimeout(context.Background(), dialWithin)
	defer cancel()
	end, err := ends.config.endAt(ctx, endpoint)
	if err != nil {
		return
	}
	ends.mutex.Lock()
	defer ends.mutex.Unlock()
	ends.of[serverOf(endpoint)] = end
}

func (config Config) endAt(ctx context.Context, endpoint string) (time.Time, error) {
	secure, err := config.secure()
	if err != nil {
		return time.Time{}, err
	}
	transport := &http.Transport{TLSClientConfig: secure, DisableKeepAlives: true, TLSNextProto: map[string]func(string, *tls.Conn) http.RoundTripper{}}
	request, err := http.NewRequestWithContext(ctx, http.MethodGet, strings.TrimSuffix(endpoint, "/")+"/version", nil)
	if err != nil {
		return time.Time{}, err
	}
	answer, err := transport.RoundTrip(request)
	var invalid x509.CertificateInvalidError
	if errors.As(err, &invalid) && invalid.Reason == x509.Expired {
		return invalid.Cert.NotAfter, nil
	}
	if err != nil {
		return time.Time{}, err
	}
	answer.Body.Close()
	return answer.TLS.PeerCertificates[0].NotAfter, nil
}

// serverOf is the HOST:PORT of an endpoint.
func serverOf(endpoint string) string {
	if parsed, err := url.Parse(endpoint); err == nil && parsed.Host != "" {
		return parsed.Host
	}
	return endpoint
}
