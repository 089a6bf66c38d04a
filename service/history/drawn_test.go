package history

import (
	"context"
	"encoding/binary"
	"encoding/json"
	"fmt"
	"math/rand"
	"testing"
	"time"

	"tufayon/service/frames"
	"tufayon/service/host"
	"tufayon/service/records"
	"tufayon/service/replaying"
)

// Callers at work, calls that get no reply, sessions, a node that is lost and joins again, and a history that is cut and reopened: it replays at the end,
// as a whole and of each volume, and comes to what the orchestrator says.
func TestDrawn(t *testing.T) {
	path := program(t)
	seeds := int64(8)
	if testing.Short() {
		seeds = 3 // a history of each size
	}
	for seed := int64(1); seed <= seeds; seed++ {
		t.Run(fmt.Sprint("seed ", seed), func(t *testing.T) {
			made := newRun(t, []int{Usual, 40, 150}[seed%3], "n1", "n2", "n3")
			random := rand.New(rand.NewSource(seed))
			losing := rand.New(rand.NewSource(seed + 100))
			lost := make(chan int, 1)
			lost <- 0
			made.carrier.Answer = func(context.Context, frames.Call, time.Time) (frames.Reply, error, bool) {
				<-lost
				isLost := losing.Intn(6) == 0
				lost <- 0
				return frames.Reply{}, errGone, isLost
			}
			nodes := []string{"n1", "n2", "n3"}
			for at := 0; at < 150; at++ {
				made.step(random, nodes, at)
			}
			last := made.host
			made.stop()
			known := knownTo(last)
			schedule := made.history.Schedule("", 0)
			made.replays(schedule, path, "all")
			made.comesTo(schedule, path, known)
			if made.most == Usual {
				made.sends(schedule, path)
			}
			for name := 0; name < 6; name++ {
				for _, most := range []int{0, 7} {
					its := fmt.Sprint("v", name)
					made.replays(made.history.Schedule(its, most), path, its)
				}
			}
		})
	}
}

// step does something.
func (made *run) step(random *rand.Rand, nodes []string, at int) {
	made.Helper()
	name, node, target := fmt.Sprint("v", random.Intn(6)), nodes[random.Intn(3)], fmt.Sprint("/", random.Intn(2))
	command := use(name, node, target)
	if name > "v2" {
		command.Capability = anywhere
	}
	switch random.Intn(12) {
	case 0, 1, 2:
		command = create(name)
	case 3, 4, 5:
		command = stop(name, node, target)
	case 6:
		command = host.Command{Kind: host.Delete, Name: name}
	}
	if random.Intn(4) == 0 {
		made.host.Do(ctx, command)
	} else {
		made.does(command)
	}
	switch {
	case at%50 == 30:
		made.host.Begin(ctx, nil, "a test")
	case at == 60:
		if _, err := made.host.Lose(ctx, "n3"); err != nil {
			made.Error(err)
		}
	case at == 80:
		if _, err := made.host.Begin(ctx, nodes, "n3 joins again"); err != nil {
			made.Error(err)
		}
	case at%50 == 45:
		made.stop()
		made.start(nodes...)
	}
}

// knownTo is what an orchestrator doesn't know as undone, as a report has it.
func knownTo(leads *host.Host) map[string]bool {
	all, _ := leads.List("", 1000, func(host.Volume) bool { return true })
	known := map[string]bool{}
	mark := func(it records.Known, words ...string) {
		if it != records.No {
			known[fmt.Sprint([]string{"no", "yes", "maybe"}[it], words)] = true
		}
	}
	for _, volume := range all {
		mark(volume.Exists, volume.Name, "exists", "", "")
		for _, at := range volume.At {
			mark(at.Attached, volume.Name, "attached", at.Node, "")
			mark(at.Staged, volume.Name, "staged", at.Node, "")
			for _, it := range at.Targets {
				mark(it.Published, volume.Name, "published", at.Node, it.Path)
			}
		}
	}
	return known
}

// comesTo wants that a run of a schedule ends with what the orchestrator knows, and is safe.
func (made *run) comesTo(schedule *replaying.Schedule, program string, known map[string]bool) {
	made.Helper()
	output, err := schedule.Replay(ctx, program, "run")
	if err != nil {
		made.Fatal(err)
	}
	var report struct {
		Safe  bool
		Known []struct{ Known, Name, Thing, Node, Target string }
	}
	if err := json.Unmarshal(output, &report); err != nil || !report.Safe {
		made.Errorf("safe: %v, %v", report.Safe, err)
	}
	said := map[string]bool{}
	for _, it := range report.Known {
		said[fmt.Sprint(it.Known, []string{it.Name, it.Thing, it.Node, it.Target})] = true
	}
	for it := range said {
		if !known[it] {
			made.Errorf("a run comes to %s", it)
		}
	}
	for it := range known {
		if !said[it] {
			made.Errorf("a run doesn't come to %s", it)
		}
	}
}

// sends wants that a run of a whole history sends the calls that the service sent, under their numbers.
func (made *run) sends(schedule *replaying.Schedule, program string) {
	made.Helper()
	output, err := schedule.Replay(ctx, program, "frames")
	if err != nil {
		made.Fatal(err)
	}
	var sent, right []frames.Number
	for len(output) > 4 {
		size := 4 + binary.BigEndian.Uint32(output)
		if call, err := frames.DecodeCall(output[:size]); err == nil {
			sent = append(sent, call.Number)
		}
		output = output[size:]
	}
	last, _, _ := made.history.Last("", Usual, 0)
	for _, entry := range last {
		if entry.Sent != nil {
			right = append(right, entry.Sent.Number)
		}
	}
	if fmt.Sprint(sent) != fmt.Sprint(right) {
		made.Errorf("a run sends %v, and the service sent %v", sent, right)
	}
}
