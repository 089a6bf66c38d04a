// Package secure says who a peer is, and refuses everybody else. Over TCP it is mutual TLS 1.3: a peer is who the one URI of its certificate names,
// whatever its address. At a Unix socket the kernel says which user is at the other end.
package secure

import (
	"crypto/x509"
	"errors"
	"fmt"
	"net/url"
	"strings"
)

// A Role says what a peer is to its set.
type Role string

// The roles. There are many nodes and clients, which have ids.
const (
	Orchestrator Role = "orchestrator"
	Controller   Role = "controller"
	Node         Role = "node"
	Client       Role = "client"
)

const scheme = "tufayon"

// A Name says who a peer is. As a URI it is tufayon://SET/orchestrator, tufayon://SET/controller, tufayon://SET/node/ID or tufayon://SET/client/NAME.
type Name struct {
	Set  string
	Role Role
	ID   string // of a node or a client
}

// String is the name's URI.
func (name Name) String() string {
	path := "/" + string(name.Role)
	if name.ID != "" {
		path += "/" + name.ID
	}
	return (&url.URL{Scheme: scheme, Host: name.Set, Path: path}).String()
}

// ParseName reads the URI of a name.
func ParseName(text string) (Name, error) {
	uri, err := url.Parse(text)
	if err != nil {
		return Name{}, fmt.Errorf("%w: %v", ErrURI, err)
	}
	return nameOf(uri)
}

func nameOf(uri *url.URL) (Name, error) {
	role, id, hasID := strings.Cut(strings.TrimPrefix(uri.Path, "/"), "/")
	name := Name{Set: uri.Host, Role: Role(role), ID: id}
	wantsID := name.Role == Node || name.Role == Client
	isRole := wantsID || name.Role == Orchestrator || name.Role == Controller
	if uri.Scheme != scheme || name.Set == "" || !isRole || hasID != wantsID || (id != "") != wantsID || name.String() != uri.String() {
		return Name{}, fmt.Errorf("%w: %s", ErrURI, uri)
	}
	return name, nil
}

// Why a peer is refused. The errors of this package are one of these, and say more.
var (
	ErrNone        = errors.New("no certificate")
	ErrExpired     = errors.New("the certificate isn't valid at this time")
	ErrAuthority   = errors.New("the certificate is of another authority")
	ErrCertificate = errors.New("the certificate is refused")
	ErrURI         = errors.New("no name of a peer, tufayon://SET/ROLE")
	ErrSet         = errors.New("the peer is of another set")
	ErrName        = errors.New("the peer is somebody else")
	ErrUser        = errors.New("the user may not")
)

// Named gives the name that a certificate's one URI is.
func Named(leaf *x509.Certificate) (Name, error) {
	if len(leaf.URIs) != 1 {
		return Name{}, fmt.Errorf("%w: it has %d URIs", ErrURI, len(leaf.URIs))
	}
	return nameOf(leaf.URIs[0])
}

// Admit says whether a peer of this name is wanted: an error says why not.
type Admit func(Name) error

// Only admits one peer.
func Only(wanted Name) Admit {
	return func(name Name) error {
		if name.Set != wanted.Set {
			return fmt.Errorf("%w: %s, not %s", ErrSet, name, wanted)
		}
		if name != wanted {
			return fmt.Errorf("%w: %s, not %s", ErrName, name, wanted)
		}
		return nil
	}
}

// Those admits the peers of a set that have one of these roles.
func Those(set string, roles ...Role) Admit {
	return func(name Name) error {
		if name.Set != set {
			return fmt.Errorf("%w: %s, not %s", ErrSet, name, set)
		}
		for _, role := range roles {
			if name.Role == role {
				return nil
			}
		}
		return fmt.Errorf("%w: %s may not call here", ErrName, name)
	}
}
