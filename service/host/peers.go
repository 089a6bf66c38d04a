package host

import (
	"encoding/json"
	"fmt"
	"strconv"
	"strings"

	"tufayon/service/carrying"
	"tufayon/service/frames"
	"tufayon/service/numbers"
	"tufayon/service/records"
	"tufayon/service/store"
)

// The names of the sides of an orchestrator's record.
const (
	listName   = "list"
	pluginName = "plugin/" // and the plugin's
)

// A peer is what is kept of a plugin beside the record, so that an older copy of either's store is found.
type peer struct {
	sent, heard frames.Number // the last call that was sent, and the last of which it acknowledged that it was heard
	isNew       bool          // its node was lost, and it hasn't begun a session since
	isUnknown   bool          // the record is of a time at which nothing was kept, and it hasn't begun a session since
}

// peers are all plugins'.
type peers struct {
	of      map[string]*peer // by their names
	list    uint64           // the session in which nodes were listed or lost last
	changed map[string]bool  // names of sides, since the last commit
}

// spelled is a peer as a side has it.
type spelled struct {
	Sent    string `json:"sent"`
	Heard   string `json:"heard"`
	New     bool   `json:"new,omitempty"`
	Unknown bool   `json:"unknown,omitempty"`
}

// readPeers reads the sides of a record. One that has parts and no sides is of before: of the nodes that it lists nothing is known.
func readPeers(sides map[string][]byte, parts []store.Part) (*peers, error) {
	made := &peers{of: map[string]*peer{}, changed: map[string]bool{}}
	if sides[listName] == nil && len(parts) > 0 {
		nodes, err := records.OrchestratorNodes(parts[0].Value)
		made.change(carrying.Controller).isUnknown = true
		for _, id := range nodes {
			made.change(carrying.NodeName(id)).isUnknown = true
		}
		return made, err
	}
	for name, value := range sides {
		if err := made.read(name, value); err != nil {
			return nil, fmt.Errorf("%w: %s: %v", store.ErrBeside, name, err)
		}
	}
	return made, nil
}

func (peers *peers) read(name string, value []byte) (err error) {
	plugin := strings.TrimPrefix(name, pluginName)
	if name == listName {
		peers.list, err = strconv.ParseUint(string(value), 10, 64)
	}
	if plugin == name {
		return err
	}
	var its spelled
	if err := json.Unmarshal(value, &its); err != nil {
		return err
	}
	made := &peer{isNew: its.New, isUnknown: its.Unknown}
	if made.sent, err = numbers.Parse(its.Sent); err == nil {
		made.heard, err = numbers.Parse(its.Heard)
	}
	peers.of[plugin] = made
	return err
}

// sides are those that changed since the last commit, as they are now. That a node was lost, and in which session nodes were listed, is there before the
// record has it: else a process that ends between the two would leave a lost node that isn't asked to be new.
func (peers *peers) sides() []store.Side {
	var sides []store.Side
	for name := range peers.changed {
		if name == listName {
			sides = append(sides, store.Side{Name: name, Value: []byte(strconv.FormatUint(peers.list, 10)), First: true})
			continue
		}
		its := peers.of[strings.TrimPrefix(name, pluginName)]
		value, _ := json.Marshal(spelled{numbers.Text(its.sent), numbers.Text(its.heard), its.isNew, its.isUnknown}) // texts always can be
		sides = append(sides, store.Side{Name: name, Value: value, First: its.isNew})
	}
	return sides
}

// change gives a plugin's, which changes.
func (peers *peers) change(plugin string) *peer {
	peers.changed[pluginName+plugin] = true
	if peers.of[plugin] == nil {
		peers.of[plugin] = &peer{}
	}
	return peers.of[plugin]
}

// lists notes that nodes are listed, or one is lost, in a session.
func (peers *peers) lists(session uint64) {
	peers.list = session
	peers.changed[listName] = true
}

// loses notes that a node is lost in a session: who is there under its id next is another one, that joins with this session or a later one.
func (peers *peers) loses(node string, session uint64) {
	peers.lists(session)
	*peers.change(carrying.NodeName(node)) = peer{isNew: true, heard: frames.Number{Session: session}}
}

// sends notes that a call is sent.
func (peers *peers) sends(call frames.Call) {
	it := peers.change(carrying.PluginOf(call))
	if it.sent.IsBefore(call.Number) {
		it.sent = call.Number
	}
}

// hears notes that a call was heard, which was done and has left a row: a plugin knows of no other one.
func (peers *peers) hears(call frames.Call) {
	kind := call.Kind()
	if kind == frames.DeleteVolumeKind || kind == frames.ControllerUnpublishVolumeKind {
		return // of a volume without a row they are done too
	}
	it := peers.change(carrying.PluginOf(call))
	if it.heard.IsBefore(call.Number) {
		it.heard = call.Number
	}
}

// begins notes that a plugin has begun a session.
func (peers *peers) begins(plugin string, session uint64) {
	number := frames.Number{Session: session}
	*peers.change(plugin) = peer{sent: number, heard: number}
}

// opening is what a plugin is told of a session.
func (peers *peers) opening(plugin string, session uint64, token string) numbers.Opening {
	it := peers.of[plugin]
	if it == nil {
		it = &peer{}
	}
	return numbers.Opening{
		Session: session, Token: token, Sent: it.sent, Heard: it.heard, IsNew: it.isNew, IsUnknown: it.isUnknown, List: peers.list,
	}
}
