package records

import (
	"encoding/binary"

	"tufayon/service/frames"
)

// A Goal says what is wanted of a volume.
type Goal uint8

// The goals.
const (
	None Goal = iota
	ToCreate
	ToUse
	ToStop
	ToDelete
)

var goalNames = [...]string{ToCreate: "create", ToUse: "use", ToStop: "stop", ToDelete: "delete"}

// String is the goal as a command is called: nothing of none.
func (goal Goal) String() string {
	if int(goal) < len(goalNames) {
		return goalNames[goal]
	}
	return ""
}

// A Wanted is what an orchestrator's row says of a volume's name, and of what is wanted of it. The fields after Goal are a use's; a stop has the
// first two.
type Wanted struct {
	Name            string
	Required, Limit uint64 // as in the command that created it
	Capabilities    []frames.Capability
	Goal            Goal
	Node, Target    string
	Capability      frames.Capability
	Readonly        bool
}

// ReadWanted reads the value of an orchestrator's row, as far as its goal.
func ReadWanted(value []byte) (Wanted, error) {
	from := &fields{rest: value}
	if from.byte() != version {
		from.err = ErrValue
	}
	wanted := Wanted{Name: from.text(), Required: from.number(), Limit: from.number(), Capabilities: from.capabilities()}
	if from.flag() {
		from.number() // its id
	}
	from.byte() // whether it is there
	wanted.Goal = Goal(from.byte())
	switch wanted.Goal {
	case None, ToCreate, ToDelete:
	case ToUse:
		wanted.Node, wanted.Target, wanted.Capability, wanted.Readonly = from.text(), from.text(), from.capability(), from.flag()
	case ToStop:
		wanted.Node, wanted.Target = from.text(), from.text()
	default:
		from.err = ErrValue
	}
	return wanted, from.err
}

// OrchestratorSession is the session that an orchestrator's head says.
func OrchestratorSession(head []byte) (uint64, error) {
	from := &fields{rest: head}
	if from.byte() != version || from.byte() != orchestrator {
		return 0, ErrValue
	}
	session := from.number()
	return session, from.err
}

// OrchestratorNodes are the nodes that an orchestrator's head lists.
func OrchestratorNodes(head []byte) ([]string, error) {
	if _, err := OrchestratorSession(head); err != nil {
		return nil, err
	}
	from := &fields{rest: head[10:]} // behind the version, the kind and the session
	var nodes []string
	for count := from.byte(); count > 0 && from.err == nil; count-- {
		nodes = append(nodes, from.text())
	}
	return nodes, from.err
}

// OrchestratorBefore is an orchestrator's head, or a new one's where there is none, as it is before a session begins: of the session before, if its own
// isn't a later one.
func OrchestratorBefore(head []byte, session uint64) ([]byte, error) {
	if head == nil {
		head = append([]byte{version, orchestrator}, make([]byte, 9)...) // session 0, and no nodes
	}
	last, err := OrchestratorSession(head)
	if err != nil || session == 0 || last >= session-1 {
		return head, err
	}
	raised := append([]byte(nil), head...)
	binary.BigEndian.PutUint64(raised[2:], session-1)
	return raised, nil
}
