// Package settings reads and checks the two files of a process of a set, and tells each fault with its place: the file of the set, which is the same for
// all of its processes, and the file of this process, the orchestrator's service or a plugin. docs/SERVICE.md has their keys.
package settings

import (
	"bytes"
	"encoding/json"
	"errors"
	"fmt"
	"os"
	"path/filepath"
	"strings"
	"time"

	"tufayon/service/secure"
)

// A Set is the file of a set.
type Set struct {
	Name        string   `json:"set"`
	Greatest    uint64   `json:"greatest"`    // bytes of a volume
	Controller  string   `json:"controller"`  // its address; or
	Controllers []string `json:"controllers"` // those of several, of which one leads
	Nodes       []Node   `json:"nodes"`
	Staging     string   `json:"staging"`
	Times       Times    `json:"times"`
}

// A Node is one of the set's.
type Node struct {
	ID      string `json:"id"`
	Slots   uint64 `json:"slots"`
	Address string `json:"address"`
}

// Times are in seconds.
type Times struct {
	Patience  float64 `json:"patience"`   // over how long the three tries of a use are spread
	Answer    float64 `json:"answer"`     // how long a plugin may take to answer a call
	Retry     float64 `json:"retry"`      // how long it takes until another call is tried again at first
	MostRetry float64 `json:"most_retry"` // and at most
}

// A Place is what the file of each process has: the set's file, its store, and where and as whom it serves.
type Place struct {
	Set         string `json:"set"`   // the set's file
	Store       string `json:"store"` // its file of SQLite; or
	Etcd        *Etcd  `json:"etcd"`
	Listen      string `json:"listen"` // unix://PATH, or HOST:PORT
	Certificate string `json:"certificate"`
	Key         string `json:"key"`
	Authorities string `json:"authorities"`
	Watch       string `json:"watch"` // where metrics are served, unix://PATH or HOST:PORT; nowhere where it is empty
	Log         string `json:"log"`   // the least level that is logged
}

// A Process is the file of the orchestrator's service.
type Process struct {
	Place
	Address string            `json:"address"` // where callers reach it
	Clients map[string]string `json:"clients"` // the role of each client of the set, by its name
	Users   map[string]string `json:"users"`   // the role of each user of this machine, by its number
	Calls   Calls             `json:"calls"`
	History string            `json:"history"` // the file of the last events; beside the store where that is one and this is empty
	Draws   string            `json:"draws"`   // csi-replay, which draws pictures for the page; none where it is empty
}

// Etcd says where a store is in etcd, and how this process leads.
type Etcd struct {
	Endpoints   []string `json:"endpoints"`
	Prefix      string   `json:"prefix"`
	CA          string   `json:"ca"` // files of TLS, all three unless all endpoints are on loopback
	Certificate string   `json:"certificate"`
	Key         string   `json:"key"`
	Lease       int      `json:"lease"` // seconds
}

// Calls are how many are made at once, of plugins.
type Calls struct {
	Controller int `json:"controller"`
	Node       int `json:"node"`   // at each
	Caller     int `json:"caller"` // that each caller may make of the service, in a second
}

// Settings are both files of the orchestrator's service.
type Settings struct {
	Set     Set
	Process Process
	File    string // of the process
}

// MostSeconds is how many seconds a time may have, which is some thirty years: of ten times as many Go has no time any more, and what is above would be over
// at once.
const MostSeconds = 1e9

// Seconds is a time of so many seconds.
func Seconds(count float64) time.Duration { return time.Duration(count * float64(time.Second)) }

// IsTLS says whether there are certificates.
func (place *Place) IsTLS() bool {
	return place.Certificate != "" || place.Key != "" || place.Authorities != ""
}

// Files are those of this process's certificate, nil where it has none.
func (place *Place) Files() *secure.Files {
	if !place.IsTLS() {
		return nil
	}
	return &secure.Files{Certificate: place.Certificate, Key: place.Key, Authorities: place.Authorities}
}

// EtcdFiles are those of the certificate as who this process is etcd's client, nil where it has none.
func (place *Place) EtcdFiles() *secure.Files {
	if place.Etcd == nil || place.Etcd.Certificate == "" {
		return nil
	}
	return &secure.Files{Certificate: place.Etcd.Certificate, Key: place.Etcd.Key, Authorities: place.Etcd.CA}
}

// Faults are all that is wrong, each with its place.
type Faults []string

func (faults Faults) Error() string { return strings.Join(faults, "\n") }

// Read reads both files of the orchestrator's service. What is wrong with them in themselves is told, each fault with its place: Faults.
func Read(file string) (*Settings, error) {
	settings := &Settings{File: file, Set: usualSet(), Process: Process{Calls: Calls{Controller: 64, Node: 32, Caller: 1000}}}
	if err := readBoth(file, &settings.Process, &settings.Process.Place, &settings.Set, &settings.Process.History, &settings.Process.Draws); err != nil {
		return nil, err
	}
	if settings.Process.History == "" && settings.Process.Store != "" {
		settings.Process.History = settings.Process.Store + ".history"
	}
	if settings.Process.Address == "" {
		settings.Process.Address = settings.Process.Listen
	}
	if faults := settings.faults(); len(faults) > 0 {
		return nil, faults
	}
	return settings, nil
}

// usualSet has what a set's file may leave out.
func usualSet() Set { return Set{Times: Times{Patience: 300, Answer: 150, Retry: 1, MostRetry: 60}} }

// readBoth reads the file of a process, in which this place and more paths are, and the set's, and has the paths of the former count from its folder.
func readBoth(file string, process any, place *Place, set *Set, more ...*string) error {
	if err := readJSON(file, process); err != nil {
		return Faults{err.Error()}
	}
	if place.Set == "" {
		return Faults{file + ": set: the set's file is missing"}
	}
	paths := append(more, &place.Set, &place.Store, &place.Certificate, &place.Key, &place.Authorities)
	if etcd := place.Etcd; etcd != nil {
		paths = append(paths, &etcd.CA, &etcd.Certificate, &etcd.Key)
	}
	for _, path := range paths {
		if *path != "" && !filepath.IsAbs(*path) {
			*path = filepath.Join(filepath.Dir(file), *path)
		}
	}
	if err := readJSON(place.Set, set); err != nil {
		return Faults{err.Error()}
	}
	return nil
}

// readJSON reads the one object that a file has, which has no key that isn't known.
func readJSON(file string, into any) error {
	content, err := os.ReadFile(file)
	if err != nil {
		return err // which names the file
	}
	decoder := json.NewDecoder(bytes.NewReader(content))
	decoder.DisallowUnknownFields()
	if err = decoder.Decode(into); err == nil && len(bytes.TrimSpace(content[decoder.InputOffset():])) > 0 {
		err = errors.New("something stands behind the object")
	}
	if err == nil {
		return nil
	}
	at := decoder.InputOffset()
	var syntax *json.SyntaxError
	var kind *json.UnmarshalTypeError
	switch {
	case errors.As(err, &syntax):
		at = syntax.Offset
	case errors.As(err, &kind):
		at, err = kind.Offset, fmt.Errorf("%s: a %s where there has to be a %v", kind.Field, kind.Value, kind.Type)
	}
	if at > int64(len(content)) {
		at = int64(len(content))
	}
	return fmt.Errorf("%s:%d: %w", file, 1+bytes.Count(content[:at], []byte("\n")), err)
}

// Config is the CONFIG of the set's controller and orchestrator.
func (set *Set) Config() []byte {
	type node struct {
		ID    string `json:"id"`
		Slots uint64 `json:"slots"`
	}
	config := struct {
		Greatest uint64 `json:"greatest"`
		Nodes    []node `json:"nodes"`
	}{set.Greatest, []node{}}
	for _, it := range set.Nodes {
		config.Nodes = append(config.Nodes, node{it.ID, it.Slots})
	}
	bytes, _ := json.Marshal(config) // texts and numbers always can be
	return append(bytes, '\n')
}

// IDs are the nodes' ids, in order.
func (set *Set) IDs() []string {
	ids := make([]string, 0, len(set.Nodes))
	for _, it := range set.Nodes {
		ids = append(ids, it.ID)
	}
	return ids
}
