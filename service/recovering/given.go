package recovering

import (
	"context"
	"encoding/json"
	"errors"
	"fmt"

	"tufayon/service/plugin"
	"tufayon/service/records"
	"tufayon/service/store"
)

// A kept is a plugin that was made of its store.
type kept struct {
	change
	plugin *plugin.Plugin
	id     string            // a node's
	parts  map[uint64][]byte // in the present version
	keys   []uint64          // of the parts, rising
}

// given are those whose stores were given: the controller's is the first among the words, and then come the nodes'.
type given struct {
	controller *kept
	nodes      []*kept
}

func (given *given) free() {
	for _, it := range append(given.nodes, given.controller) {
		if it != nil {
			it.plugin.Free()
		}
	}
}

func (given *given) plugins() []*plugin.Plugin {
	plugins := make([]*plugin.Plugin, 0, len(given.nodes))
	for _, it := range given.nodes {
		plugins = append(plugins, it.plugin)
	}
	return plugins
}

func (given *given) ids() []string {
	ids := make([]string, 0, len(given.nodes))
	for _, it := range given.nodes {
		ids = append(ids, it.id)
	}
	return ids
}

func (given *given) has(node string) bool {
	for _, it := range given.nodes {
		if it.id == node {
			return true
		}
	}
	return false
}

// read makes the plugins of what the stores have.
func (given *given) read(ctx context.Context, recovery *Recovery) error {
	var err error
	given.controller, err = read(ctx, recovery.Controller, func([]byte) (plugin.Maker, bool) {
		return plugin.Maker{IsController: true, Name: recovery.Config}, true
	})
	for at := 0; err == nil && at < len(recovery.Nodes); at++ {
		var it *kept
		if it, err = read(ctx, recovery.Nodes[at], makerOf); err != nil {
			if errors.Is(err, plugin.BadName) {
				err = plugin.BadRecord // its head has an id that no node has
			}
			return placed(err, at+2)
		}
		given.nodes = append(given.nodes, it)
	}
	return placed(err, 1)
}

// makerOf makes the node whose record has this head.
func makerOf(head []byte) (plugin.Maker, bool) {
	id, isNode := records.NodeIn(head)
	return plugin.Maker{Name: []byte(id)}, isNode
}

// placed tells at which store something is wrong with a record, counted from 1 among the words.
func placed(err error, place int) error {
	if errors.Is(err, plugin.BadRecord) {
		return fmt.Errorf("%w, store %d", err, place)
	}
	return err
}

// read makes a plugin of what its store has.
func read(ctx context.Context, from store.Store, makerOf func(head []byte) (plugin.Maker, bool)) (*kept, error) {
	parts, err := from.Load(ctx)
	if err != nil {
		return nil, err
	}
	if len(parts) == 0 {
		return nil, plugin.BadRecord
	}
	maker, is := makerOf(parts[0].Value)
	if !is {
		return nil, plugin.BadRecord
	}
	made, renewed, err := maker.Make(store.Record(parts))
	if err != nil {
		return nil, err
	}
	it := &kept{change: change{store: from, anew: renewed}, plugin: made, id: string(maker.Name), parts: map[uint64][]byte{}}
	if renewed {
		if it.changes, err = made.Changes(); err != nil {
			made.Free()
			return nil, err
		}
		parts = parts[:0]
		for _, part := range it.changes {
			parts = append(parts, store.Part{Key: part.Key, Value: part.Value})
		}
	}
	for _, part := range parts {
		it.parts[part.Key], it.keys = part.Value, append(it.keys, part.Key)
	}
	return it, nil
}

// raise raises the session in all, and gives what their stores are given then: the nodes' first.
func (given *given) raise(session uint64) ([]change, error) {
	var all []change
	for _, it := range append(append([]*kept(nil), given.nodes...), given.controller) {
		if err := it.plugin.Raise(session); err != nil {
			return nil, err
		}
		changes, err := it.plugin.Changes()
		if err != nil {
			return nil, err
		}
		it.changes = append(it.changes, changes...)
		all = append(all, it.change)
	}
	return all, nil
}

// judged tells why nothing is recovered, and of which store, where that is known.
func (given *given) judged(err error, place uint64, config []byte) error {
	switch {
	case errors.Is(err, plugin.SameNode), errors.Is(err, plugin.Disagrees):
		return fmt.Errorf("%w, store %d", err, place+1)
	case !errors.Is(err, plugin.BadRow):
		return err
	case given.isLeftOut(config):
		return plugin.NodeInUse
	}
	return fmt.Errorf("%w, store %d", err, given.secondUnsure(given.liveVolume(place))+2)
}

// isLeftOut says whether the configuration leaves out a node at which something is staged.
func (given *given) isLeftOut(config []byte) bool {
	var said struct {
		Nodes []struct {
			ID string `json:"id"`
		} `json:"nodes"`
	}
	if json.Unmarshal(config, &said) != nil {
		return false // the library has read it
	}
	listed := map[string]bool{}
	for _, it := range said.Nodes {
		listed[it.ID] = true
	}
	for _, it := range given.nodes {
		for _, key := range it.keys {
			if key != records.HeadKey && !listed[it.id] && records.IsStaged(it.parts[key]) {
				return true
			}
		}
	}
	return false
}

// liveVolume is the controller's live volume of this place, counted from 1, by rising id.
func (given *given) liveVolume(place uint64) uint64 {
	for _, key := range given.controller.keys {
		if volume, err := records.ReadVolume(given.controller.parts[key]); key == records.HeadKey || err != nil || !volume.Live {
			continue
		}
		if place--; place == 0 {
			return key
		}
	}
	return records.HeadKey
}

// secondUnsure is the place of the second node that has a volume staged and published nowhere, or else of the last one.
func (given *given) secondUnsure(volume uint64) int {
	found := 0
	for at, it := range given.nodes {
		row, err := records.ReadStaged(it.parts[volume])
		if err != nil || !row.IsStaged || len(row.Targets) > 0 {
			continue
		}
		if found++; found == 2 {
			return at
		}
	}
	return len(given.nodes) - 1
}
