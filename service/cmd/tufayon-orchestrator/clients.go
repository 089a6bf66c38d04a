package main

import (
	"sync"
	"time"

	"tufayon/service/api"
	"tufayon/service/secure"
)

// clients are those that were here, with the end of the certificate by which each connected last.
type clients struct {
	roles *api.Roles

	mutex sync.Mutex
	of    map[string]time.Time // of those that had a role, by their names
}

func (it *clients) has(name string) bool {
	return it.roles.Of(secure.Peer{Name: secure.Name{Role: secure.Client, ID: name}}) != api.Nobody
}

// seen notes a client that connected.
func (it *clients) seen(peer secure.Name, until time.Time) {
	if peer.Role != secure.Client || !it.has(peer.ID) {
		return
	}
	it.mutex.Lock()
	defer it.mutex.Unlock()
	it.of[peer.ID] = until
}

// ends are those of the clients that have a role now.
func (it *clients) ends() map[string]time.Time {
	it.mutex.Lock()
	defer it.mutex.Unlock()
	ends := make(map[string]time.Time, len(it.of))
	for name, until := range it.of {
		if it.has(name) {
			ends[name] = until
		} else {
			delete(it.of, name)
		}
	}
	return ends
}
