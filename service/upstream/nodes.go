package upstream

import (
	"bytes"
	"context"
	"encoding/json"
	"fmt"

	"google.golang.org/grpc/codes"
	"google.golang.org/grpc/status"

	"tufayon/service/frames"
	"tufayon/service/identities"
	"tufayon/service/plugin"
	"tufayon/service/records"
	"tufayon/service/serving"
)

// MostNodes is how many nodes a controller has.
const MostNodes = 64

const slots = 4096 // of a node that isn't configured: as many as may be

// A node is an entry of a controller's configuration.
type node struct {
	ID    string `json:"id"`
	Slots uint64 `json:"slots"`
}

// nodes are those that a controller's plugin has: the configured ones, and those that were named since. An idle one of the latter gives way where there are
// too many.
type nodes struct {
	Greatest uint64 `json:"greatest"`
	Nodes    []node `json:"nodes"`
	fixed    int    // so many of them are configured
}

// errNodes refuses a node for which there is no room: at each of those that the plugin has something is attached.
var errNodes = status.Error(codes.ResourceExhausted, "nodes")

// readNodes reads a configuration that the plugin takes.
func readNodes(config []byte) (*nodes, error) {
	its := &nodes{}
	if err := json.Unmarshal(config, its); err != nil {
		return nil, fmt.Errorf("the list of nodes: %w", err)
	}
	its.fixed = len(its.Nodes)
	return its, nil
}

func (its *nodes) has(id string) bool {
	for _, it := range its.Nodes {
		if it.ID == id {
			return true
		}
	}
	return false
}

// with gives what makes the plugin with one more node: nil where it has it.
func (its *nodes) with(id string, view serving.View) (serving.Make, error) {
	if its.has(id) {
		return nil, nil
	}
	if stay := its.stay(view); !stay[id] && len(stay) >= MostNodes { // also such as were named before this driver began
		return nil, errNodes
	}
	next := append([]node(nil), its.Nodes...)
	if len(next) >= MostNodes {
		if next = its.withoutIdle(view); len(next) >= MostNodes {
			return nil, errNodes
		}
	}
	next = append(next, node{id, slots})
	config, err := (&nodes{Greatest: its.Greatest, Nodes: next}).config()
	if err != nil {
		return nil, status.Error(codes.Internal, err.Error())
	}
	maker := plugin.Maker{IsController: true, Name: config}
	return func(record []byte) (serving.Plugin, bool, error) {
		made, renewed, err := maker.Make(record)
		if err != nil {
			return nil, false, err
		}
		its.Nodes = next
		return made, renewed, nil
	}, nil
}

// busy are the nodes to which something is attached.
func busy(view serving.View) map[string]bool {
	busy := map[string]bool{}
	for _, volume := range view.Volumes() {
		if row, err := records.ReadVolume(view.Row(volume)); err == nil {
			for _, it := range row.Nodes {
				busy[it] = true
			}
		}
	}
	return busy
}

// withoutIdle leaves out the node that was named first of those at which nothing is attached.
func (its *nodes) withoutIdle(view serving.View) []node {
	busy := busy(view)
	for at := its.fixed; at < len(its.Nodes); at++ {
		if !busy[its.Nodes[at].ID] {
			return append(append([]node(nil), its.Nodes[:at]...), its.Nodes[at+1:]...)
		}
	}
	return its.Nodes
}

// stay are the nodes that don't give way: the configured ones, and those to which something is attached.
func (its *nodes) stay(view serving.View) map[string]bool {
	stay := busy(view)
	for _, it := range its.Nodes[:its.fixed] {
		stay[it.ID] = true
	}
	return stay
}

// taken is how many nodes don't give way.
func (its *nodes) taken(view serving.View) int { return len(its.stay(view)) }

// Nodes gives what counts the nodes that are configured or have something attached, MostNodes at most: nil of a node's driver.
func (proxy *Proxy) Nodes() func() int {
	if proxy.options.Node != "" {
		return nil
	}
	return proxy.taken.count
}

func (its *nodes) config() ([]byte, error) {
	var config bytes.Buffer
	encoder := json.NewEncoder(&config)
	encoder.SetEscapeHTML(false)
	if err := encoder.Encode(its); err != nil {
		return nil, err
	}
	return bytes.TrimSpace(config.Bytes()), nil
}

// letGoOfLost has the ledger let go of what is attached to nodes that are gone for good. The upstream isn't asked.
func (proxy *Proxy) letGoOfLost(ctx context.Context, core *serving.Core) error {
	for _, it := range proxy.options.Lost {
		node := identities.Shorten(it, frames.MaxNode).Text
		var volumes []uint64
		if err := core.Look(ctx, func(view serving.View) {
			for _, volume := range view.Volumes() {
				if row, err := records.ReadVolume(view.Row(volume)); err == nil && row.IsAt(node) {
					volumes = append(volumes, volume)
				}
			}
		}); err != nil {
			return err
		}
		for _, volume := range volumes {
			request := serving.Request{Body: frames.ControllerUnpublishVolume{ID: volume, Node: node}}
			if _, err := core.Carry(ctx, request); err != nil {
				return fmt.Errorf("what is attached to the lost node %s: %w", it, err)
			}
		}
	}
	return nil
}
