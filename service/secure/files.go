package secure

import (
	"crypto/tls"
	"crypto/x509"
	"errors"
	"fmt"
	"os"
	"time"
)

// Files are those of a process: its own certificate and key, and the authorities that it believes (several, while one is replaced). They are read at
// each handshake, so a renewed certificate or another authority needs no restart.
type Files struct {
	Certificate, Key, Authorities string
}

// own reads the process's own certificate.
func (files Files) own() (*tls.Certificate, error) {
	own, err := tls.LoadX509KeyPair(files.Certificate, files.Key)
	if err != nil {
		return nil, fmt.Errorf("%s, %s: %w", files.Certificate, files.Key, err)
	}
	return &own, nil
}

// believed reads the authorities.
func (files Files) believed() (*x509.CertPool, error) {
	content, err := os.ReadFile(files.Authorities)
	if err != nil {
		return nil, err
	}
	pool := x509.NewCertPool()
	if !pool.AppendCertsFromPEM(content) {
		return nil, fmt.Errorf("%s: %w", files.Authorities, ErrNone)
	}
	return pool, nil
}

// Check is for the start of a process: the files are there, belong together, are valid now, and name this process. It tells until when they are valid.
func (files Files) Check(name Name) (until time.Time, err error) {
	own, err := files.own()
	if err != nil {
		return time.Time{}, err
	}
	pool, err := files.believed()
	if err != nil {
		return time.Time{}, err
	}
	chain := make([]*x509.Certificate, 0, len(own.Certificate))
	for _, bytes := range own.Certificate {
		it, err := x509.ParseCertificate(bytes)
		if err != nil {
			return time.Time{}, fmt.Errorf("%s: %w", files.Certificate, err)
		}
		chain = append(chain, it)
	}
	if err := judge(chain, pool, x509.ExtKeyUsageAny, Only(name)); err != nil {
		return time.Time{}, fmt.Errorf("%s: %w", files.Certificate, err)
	}
	return endOf(chain), nil
}

// CheckOwn is for files that aren't for peers of a set, as those for etcd: they are there, belong together, and the certificate is valid now. It tells until
// when.
func (files Files) CheckOwn() (until time.Time, err error) {
	own, err := files.own()
	if err != nil {
		return time.Time{}, err
	}
	if _, err := files.believed(); err != nil {
		return time.Time{}, err
	}
	leaf, err := x509.ParseCertificate(own.Certificate[0])
	if err != nil {
		return time.Time{}, fmt.Errorf("%s: %w", files.Certificate, err)
	}
	if now := time.Now(); now.Before(leaf.NotBefore) || now.After(leaf.NotAfter) {
		return time.Time{}, fmt.Errorf("%s: %w: it is for %s to %s", files.Certificate, ErrExpired, leaf.NotBefore.Format(time.RFC3339), leaf.NotAfter.Format(time.RFC3339))
	}
	return leaf.NotAfter, nil
}

// endOf is when the first of these certificates ends, but for those behind the peer's own that have ended: it was believed without them.
func endOf(chain []*x509.Certificate) time.Time {
	end, now := chain[0].NotAfter, time.Now()
	for _, it := range chain[1:] {
		if it.NotAfter.Before(end) && it.NotAfter.After(now) {
			end = it.NotAfter
		}
	}
	return end
}

// judge judges who a chain of certificates names, and whether that peer is admitted. It knows no DNS names.
func judge(chain []*x509.Certificate, pool *x509.CertPool, usage x509.ExtKeyUsage, admit Admit) error {
	if len(chain) == 0 {
		return ErrNone
	}
	leaf, now := chain[0], time.Now()
	if now.Before(leaf.NotBefore) || now.After(leaf.NotAfter) {
		return fmt.Errorf("%w: that of %s is for %s to %s", ErrExpired, said(leaf), leaf.NotBefore.Format(time.RFC3339), leaf.NotAfter.Format(time.RFC3339))
	}
	options := x509.VerifyOptions{Roots: pool, Intermediates: x509.NewCertPool(), KeyUsages: []x509.ExtKeyUsage{usage}, CurrentTime: now}
	for _, it := range chain[1:] {
		options.Intermediates.AddCert(it)
	}
	if _, err := leaf.Verify(options); err != nil {
		return fmt.Errorf("%w: that of %s: %v", whyOf(err), said(leaf), err)
	}
	name, err := Named(leaf)
	if err != nil {
		return err
	}
	return admit(name)
}

// whyOf says which of this package's refusals one of x509's is.
func whyOf(err error) error {
	var unknown x509.UnknownAuthorityError
	var invalid x509.CertificateInvalidError
	switch {
	case errors.As(err, &unknown):
		return ErrAuthority
	case errors.As(err, &invalid) && invalid.Reason == x509.Expired:
		return ErrExpired
	}
	return ErrCertificate
}

// said is whom a certificate says that it names, which isn't believed yet.
func said(leaf *x509.Certificate) string {
	if len(leaf.URIs) == 1 {
		return leaf.URIs[0].String()
	}
	return leaf.Subject.String()
}
