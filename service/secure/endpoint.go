package secure

import (
	"net"
	"net/url"
	"strings"
)

// EndpointFault says why an endpoint of etcd's, a URL, isn't spoken to, with a client's certificate or without one: nothing where it is.
func EndpointFault(endpoint string, hasCertificate bool) string {
	switch {
	case hasCertificate && !strings.HasPrefix(endpoint, "https://"):
		return "isn't spoken to by TLS"
	case !hasCertificate && !isLoopback(endpoint):
		return "isn't on loopback, so a client's certificate is needed"
	}
	return ""
}

func isLoopback(endpoint string) bool {
	parsed, err := url.Parse(endpoint)
	if err != nil {
		return false
	}
	host := parsed.Hostname()
	address := net.ParseIP(host)
	return host == "localhost" || address != nil && address.IsLoopback()
}
