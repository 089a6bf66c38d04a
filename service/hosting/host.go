package hosting

import (
	"bytes"
	"context"
	"encoding/hex"
	"encoding/json"
	"fmt"
	"io"
	"sort"
	"time"

	"tufayon/service/lines"
)

// A host asks an orchestrator, one line after another, and has the calls that it sends made meanwhile.
type host struct {
	config       Config
	orchestrator Orchestrator
	carrier      *carrier
	output       io.Writer
	came         chan event
	wanted       map[string]bool // the volumes of which something is wanted
	waiting      map[string]int  // how many calls and timeouts are under way, of each volume of which there is one
	losses       int             // how often a node was lost: each began a session
	calls        context.Context // of the calls that are under way, until a node is lost
	giveUp       context.CancelFunc
}

// An event is a command, what came of a call, or that it is time to try again: a line for the orchestrator.
type event struct {
	isCommand bool // then it has the line alone
	name      string
	line      []byte
	err       error
	isTimeout bool
	losses    int // how often a node had been lost when the call was made
}

// mayBeLoss says whether it may be the command that declares a node lost, whose key may be written with escapes.
func (event event) mayBeLoss() bool {
	return event.isCommand && (bytes.Contains(event.line, []byte("lose")) || bytes.IndexByte(event.line, '\\') >= 0)
}

// Serve has each line of the input, a command, answered by an orchestrator that has just been made, whose first line this is, and prints its answers
// to replies and timeouts too. It ends once the input has, and nothing is wanted that can still be done, and closes the orchestrator.
func Serve(ctx context.Context, config Config, orchestrator Orchestrator, first Answer, input io.Reader, output io.Writer) error {
	ctx, cancel := context.WithCancel(ctx)
	defer cancel()
	carrier, err := connect(config)
	if err == nil {
		defer carrier.close()
		host := &host{config: config, orchestrator: orchestrator, carrier: carrier, output: output, came: make(chan event),
			wanted: map[string]bool{}, waiting: map[string]int{}}
		host.calls, host.giveUp = context.WithCancel(ctx)
		defer func() { host.giveUp() }()
		err = host.serve(ctx, first, read(ctx, input))
	}
	if closed := orchestrator.Close(); err == nil {
		err = closed
	}
	return err
}

func (host *host) serve(ctx context.Context, first Answer, input *reading) error {
	if _, err := host.output.Write(first.Line); err != nil {
		return err
	}
	for _, name := range first.Wanted {
		host.wanted[name] = true
	}
	if err := host.tellAll(ctx); err != nil {
		return err
	}
	for lines := input.lines; lines != nil || len(host.waiting) > 0; {
		select {
		case line, more := <-lines:
			if !more {
				if input.err != nil {
					return input.err
				}
				lines = nil
				continue
			}
			if err := host.answer(ctx, host.together(event{line: line, isCommand: true}, lines)); err != nil {
				return err
			}
		case event := <-host.came:
			if err := host.answer(ctx, host.together(event, lines)); err != nil {
				return err
			}
		case <-ctx.Done():
			return nil
		}
	}
	return nil
}

// together gives what came, and what waits behind it, as much as is answered together. A loss ends it: what came before the session has another sense
// in the next one.
func (host *host) together(first event, lines <-chan []byte) []event {
	came := []event{first}
	for len(came) < MostTogether && !came[len(came)-1].mayBeLoss() {
		select {
		case line, more := <-lines:
			if !more {
				return came // it is found again: the channel is closed
			}
			came = append(came, event{line: line, isCommand: true})
		case event := <-host.came:
			came = append(came, event)
		default:
			return came
		}
	}
	return came
}

// answer has the orchestrator answer what came, and does what the answers say.
func (host *host) answer(ctx context.Context, came []event) error {
	var asked [][]byte
	var of, spent []event
	for _, event := range came {
		if event.isCommand {
			asked, of = append(asked, event.line), append(of, event)
			continue
		}
		if host.waiting[event.name]--; host.waiting[event.name] == 0 {
			delete(host.waiting, event.name)
		}
		if event.err != nil {
			return event.err
		}
		if event.isTimeout && event.losses != host.losses {
			spent = append(spent, event) // it was given up at a loss, and has timed out already
			continue
		}
		asked, of = append(asked, event.line), append(of, event)
	}
	err := host.ask(ctx, asked, of)
	for _, event := range spent {
		host.goOn(ctx, event.name)
	}
	return err
}

// tellAll tells the timeout of each volume of which something is wanted: no call is open then.
func (host *host) tellAll(ctx context.Context) error {
	names := make([]string, 0, len(host.wanted))
	for name := range host.wanted {
		names = append(names, name)
	}
	sort.Strings(names)
	asked := make([][]byte, 0, len(names))
	for _, name := range names {
		asked = append(asked, timeoutOf(name))
	}
	for len(asked) > MostTogether {
		if err := host.ask(ctx, asked[:MostTogether], nil); err != nil {
			return err
		}
		asked = asked[MostTogether:]
	}
	return host.ask(ctx, asked, nil)
}

// ask asks the orchestrator, prints its answers, and has done what they say.
func (host *host) ask(ctx context.Context, asked [][]byte, of []event) error {
	if len(asked) == 0 {
		return nil
	}
	answers, err := host.orchestrator.Answers(asked)
	var said []byte
	for _, answer := range answers {
		said = append(said, answer.Line...)
	}
	if _, failed := host.output.Write(said); failed != nil {
		return failed
	}
	if err != nil {
		return err
	}
	for at, answer := range answers {
		if err := host.follow(ctx, answer); err != nil {
			return err
		}
		if at < len(of) && !of[at].isCommand {
			host.goOn(ctx, of[at].name)
		}
	}
	return nil
}

// follow does what an answer says: has a call made; or a timeout told after a while where something is wanted and no call is under way; or, where a
// node was lost, the timeouts of all of which something is wanted.
func (host *host) follow(ctx context.Context, answer Answer) error {
	if answer.IsLoss() {
		host.losses++
		host.giveUp()
		host.calls, host.giveUp = context.WithCancel(ctx)
		return host.tellAll(ctx)
	}
	if answer.Name == "" {
		return nil
	}
	delete(host.wanted, answer.Name)
	if answer.HasGoal() {
		host.wanted[answer.Name] = true
	}
	if answer.Send != nil {
		host.waiting[answer.Name]++
		go host.call(ctx, host.calls, event{name: answer.Name, losses: host.losses}, *answer.Send)
	}
	host.goOn(ctx, answer.Name)
	return nil
}

// goOn has a timeout of the volume told after a while, where something is wanted of it and nothing is under way.
func (host *host) goOn(ctx context.Context, name string) {
	if !host.wanted[name] || host.waiting[name] > 0 {
		return
	}
	host.waiting[name]++
	again := event{name: name, line: timeoutOf(name), isTimeout: true, losses: host.losses}
	time.AfterFunc(seconds(host.config.RetrySeconds), func() { host.tell(ctx, again) })
}

// call makes a call, and tells what came of it: the reply, or that none did, which isn't told before a timeout would be: else a driver that refuses at once
// would be called again at once.
func (host *host) call(ctx, calls context.Context, came event, send Sending) {
	least := time.NewTimer(seconds(host.config.RetrySeconds))
	defer least.Stop()
	reply, err := host.carrier.carry(calls, send)
	if err != nil {
		came.err = fmt.Errorf("a call of %s: %w", came.name, err)
	}
	came.line, came.isTimeout = timeoutOf(came.name), true
	if reply != nil {
		came.line, came.isTimeout = lineOf("reply", hex.EncodeToString(reply)), false
	} else if err == nil {
		select {
		case <-least.C:
		case <-calls.Done():
		}
	}
	host.tell(ctx, came)
}

func (host *host) tell(ctx context.Context, came event) {
	select {
	case host.came <- came:
	case <-ctx.Done():
	}
}

func timeoutOf(name string) []byte { return lineOf("timeout", name) }

func lineOf(key, value string) []byte {
	line, _ := json.Marshal(map[string]string{key: value}) // texts always can be
	return line
}

// A reading is the lines of an input, and why they ended, once they did.
type reading struct {
	lines chan []byte
	err   error
}

// read reads the lines of the input, until it ends.
func read(ctx context.Context, input io.Reader) *reading {
	reading := &reading{lines: make(chan []byte)}
	go func() {
		defer close(reading.lines)
		scanner := lines.NewScanner(input)
		for scanner.Scan() {
			select {
			case reading.lines <- append([]byte(nil), scanner.Line()...):
			case <-ctx.Done():
				return
			}
		}
		reading.err = scanner.Err()
	}()
	return reading
}
