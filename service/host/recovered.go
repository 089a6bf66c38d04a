package host

import (
	"tufayon/service/carrying"
	"tufayon/service/store"
)

// RecoveredSides are the sides of the record of an orchestrator that is recovered: the controller and the given nodes have heard of the session, and of
// nothing that it sent; the lost ones have to be new, and to join with this session or a later one.
func RecoveredSides(session uint64, given, lost []string) []store.Side {
	made := &peers{of: map[string]*peer{}, changed: map[string]bool{}}
	made.lists(session)
	made.begins(carrying.Controller, session)
	for _, id := range given {
		made.begins(carrying.NodeName(id), session)
	}
	for _, id := range lost {
		made.loses(id, session)
	}
	return made.sides()
}

// RebuiltSides are the sides of the record of an orchestrator whose controller's store was lost and is made anew: the controller has heard of the session,
// and of nothing that was sent.
func RebuiltSides(session uint64) []store.Side {
	made := &peers{of: map[string]*peer{}, changed: map[string]bool{}}
	made.begins(carrying.Controller, session)
	return made.sides()
}
