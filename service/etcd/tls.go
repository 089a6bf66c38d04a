package etcd

import (
	"crypto/tls"
	"crypto/x509"
	"fmt"
	"os"

	"tufayon/service/secure"
)

// secure gives what TLS needs: a client's certificate, unless etcd is on loopback. The certificate is read at each handshake, so a renewed one needs no
// restart; the authority of etcd's own certificates is read once.
func (config Config) secure() (*tls.Config, error) {
	for _, endpoint := range config.Endpoints {
		if why := secure.EndpointFault(endpoint, config.Certificate != ""); why != "" {
			return nil, fmt.Errorf("%s %s", endpoint, why)
		}
	}
	if config.Certificate == "" {
		return nil, nil
	}
	if _, err := config.own(nil); err != nil {
		return nil, err
	}
	signer, err := os.ReadFile(config.CA)
	if err != nil {
		return nil, err
	}
	pool := x509.NewCertPool()
	if !pool.AppendCertsFromPEM(signer) {
		return nil, fmt.Errorf("%s has no certificate", config.CA)
	}
	return &tls.Config{GetClientCertificate: config.own, RootCAs: pool, MinVersion: tls.VersionTLS12}, nil
}

// own reads this client's certificate.
func (config Config) own(*tls.CertificateRequestInfo) (*tls.Certificate, error) {
	own, err := tls.LoadX509KeyPair(config.Certificate, config.Key)
	if err != nil {
		return nil, err
	}
	return &own, nil
}
