package numbers

import "tufayon/service/frames"

// An Opening is what an orchestrator's service says to a plugin of a session that it begins, before it sends anything of it.
type Opening struct {
	Session   uint64
	Token     string        // of the opening of its store: no two openings begin one session
	Sent      frames.Number // the last call that it sent this plugin, in an earlier session
	Heard     frames.Number // the last of which it acknowledged that the plugin heard it
	IsNew     bool          // the plugin has to have heard of no call: its node was lost
	IsUnknown bool          // it doesn't know Sent and Heard, since its store is of before
	List      uint64        // the session in which nodes were listed or lost last
}
