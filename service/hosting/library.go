package hosting

import (
	"context"
	"errors"
	"runtime"
	"sort"

	"tufayon/service/lines"
	"tufayon/service/numbers"
	"tufayon/service/plugin"
	"tufayon/service/records"
	"tufayon/service/store"
)

// library is the library's orchestrator over its store.
type library struct {
	store        store.Store
	orchestrator *plugin.Orchestrator
	session      uint64
	rows         map[uint64]records.Wanted // what each volume's row says, by its key, as was committed last
	keys         map[string]uint64         // of the rows, by the volumes' names
}

// Open opens the file of an orchestrator's store under a configuration, the JSON of a CONFIG file, begins the next session, or this one, where that is
// later, and gives the first line too. This goroutine keeps its thread until the orchestrator is closed.
func Open(ctx context.Context, database string, config []byte, session uint64) (Orchestrator, Answer, error) {
	runtime.LockOSThread()
	opened, err := open(ctx, database, config, session)
	if err != nil {
		runtime.UnlockOSThread()
		return nil, Answer{}, err
	}
	first, err := answerOf(opened.first())
	return opened, first, err
}

func open(ctx context.Context, database string, config []byte, session uint64) (*library, error) {
	tried, err := plugin.MakeOrchestrator(config, nil, 0) // so that a bad configuration makes no file
	if err != nil {
		return nil, err
	}
	tried.Free()
	kept, err := store.OpenSQLite(ctx, database)
	if err != nil {
		return nil, err
	}
	opened := &library{store: kept, rows: map[uint64]records.Wanted{}, keys: map[string]uint64{}}
	if err := opened.load(ctx, config, session); err != nil {
		opened.free()
		kept.Close()
		return nil, err
	}
	return opened, nil
}

// load makes the orchestrator of what the store has, and commits its session.
func (library *library) load(ctx context.Context, config []byte, session uint64) error {
	parts, err := library.store.Load(ctx)
	if err != nil {
		return err
	}
	if library.orchestrator, err = plugin.MakeOrchestrator(config, store.Record(parts), session); err != nil {
		return err
	}
	for _, part := range parts {
		if _, err := library.note(store.Change{Key: part.Key, Value: part.Value}); err != nil {
			return err
		}
	}
	changes, _, err := library.changed()
	if err != nil {
		return err
	}
	return library.store.Commit(ctx, false, changes)
}

// changed is what was changed by making the orchestrator, or by the last thing that it was asked: it is noted, and to be committed. It gives what the
// row says that was put in last, if one was.
func (library *library) changed() (changes []store.Change, wanted records.Wanted, err error) {
	changes, err = library.orchestrator.Changes()
	if err != nil {
		return nil, wanted, err
	}
	began := false
	for _, change := range changes {
		began = began || change.Key == records.HeadKey
		if wanted, err = library.note(change); err != nil {
			return nil, wanted, err
		}
	}
	if began {
		library.index() // names may be forgotten, and rows have other keys
	}
	return changes, wanted, nil
}

// note keeps what a part of the record says: the session, or what is wanted of a volume.
func (library *library) note(change store.Change) (wanted records.Wanted, err error) {
	if change.Out {
		delete(library.rows, change.Key)
		return wanted, nil
	}
	if change.Key == records.HeadKey {
		library.session, err = records.OrchestratorSession(change.Value)
		return wanted, err
	}
	wanted, err = records.ReadWanted(change.Value)
	if err == nil {
		library.rows[change.Key], library.keys[wanted.Name] = wanted, change.Key
	}
	return wanted, err
}

// index finds the rows' keys anew, by the names that they have now.
func (library *library) index() {
	library.keys = make(map[string]uint64, len(library.rows))
	for key, wanted := range library.rows {
		library.keys[wanted.Name] = key
	}
}

// wanted is what is wanted of the volume of a name; nothing where it has no row.
func (library *library) wanted(name string) records.Wanted {
	return library.rows[library.keys[name]] // no row has the key 0
}

// first is the first line.
func (library *library) first() []byte {
	var names []string
	for _, wanted := range library.rows {
		if wanted.Goal != records.None {
			names = append(names, wanted.Name)
		}
	}
	sort.Strings(names)
	return lines.Opened(library.session, names)
}

// mostChanges is after how many a group is committed, whoever waits: a loss has the whole record.
const mostChanges = 1024

func (library *library) Answers(asked [][]byte) ([]Answer, error) {
	var answers, group []Answer
	var changes []store.Change
	settle := func() error {
		if len(changes) > 0 {
			if err := library.store.Commit(context.Background(), false, changes); err != nil {
				return err
			}
		}
		answers, group, changes = append(answers, group...), nil, nil
		return nil
	}
	for _, line := range asked {
		said, more, err := library.say(line)
		if err == nil {
			var answer Answer
			if answer, err = answerOf(said); err == nil {
				group, changes = append(group, answer), append(changes, more...)
			}
		}
		if err != nil {
			if refused := settle(); refused != nil { // what was answered before is committed
				err = refused
			}
			return answers, err
		}
		if len(changes) >= mostChanges {
			if err := settle(); err != nil {
				return answers, err
			}
		}
	}
	err := settle()
	return answers, err
}

// say answers a line by a line, which may be said once what it changed is committed.
func (library *library) say(line []byte) ([]byte, []store.Change, error) {
	request, err := lines.Read(line)
	var outcome plugin.Outcome
	if err == nil {
		outcome, err = library.ask(request)
	}
	var fault lines.Fault
	if errors.As(err, &fault) {
		return lines.Faulty(fault), nil, nil
	}
	if err != nil {
		return nil, nil, err
	}
	if outcome.Refusal != 0 {
		said, err := library.refused(request, outcome.Refusal)
		return said, nil, err
	}
	changes, wanted, err := library.changed()
	if err != nil {
		return nil, nil, err
	}
	said, err := library.told(request, outcome, wanted)
	return said, changes, err
}

// told is what is told of what came of a request.
func (library *library) told(request lines.Request, outcome plugin.Outcome, wanted records.Wanted) ([]byte, error) {
	switch {
	case request.Key == lines.Lose:
		return lines.AboutLoss(request.Node, lines.HasLost, library.session), nil
	case outcome.IsIgnored:
		return lines.Ignored(), nil
	case outcome.IsMet:
		return lines.About(request.Name, library.wanted(request.Name), lines.Met, nil)
	case request.Key == lines.Reply:
		return lines.About(wanted.Name, wanted, lines.Taken, outcome.Frame)
	}
	return lines.About(wanted.Name, wanted, lines.Sent, outcome.Frame)
}

// refused answers what was refused, which changed nothing. A reply is refused only where the session has no number left: then another session is
// to be begun.
func (library *library) refused(request lines.Request, why uint32) ([]byte, error) {
	switch request.Key {
	case lines.Reply:
		return nil, numbers.ErrSpent
	case lines.Lose:
		return lines.AboutLoss(request.Node, lines.Refused(why), library.session), nil
	}
	return lines.About(request.Name, library.wanted(request.Name), lines.Refused(why), nil)
}

// ask asks the orchestrator what a line asks.
func (library *library) ask(request lines.Request) (outcome plugin.Outcome, err error) {
	orchestrator := library.orchestrator
	switch request.Key {
	case lines.Create:
		return orchestrator.Create(request.Name, request.Required, request.Limit, request.Capabilities)
	case lines.Use:
		return orchestrator.Use(request.Name, request.Node, request.Target, request.Capabilities[0], request.Readonly)
	case lines.Stop:
		return orchestrator.Stop(request.Name, request.Node, request.Target)
	case lines.Delete:
		return orchestrator.Delete(request.Name)
	case lines.Timeout:
		return orchestrator.Timeout(request.Name)
	case lines.Lose:
		return orchestrator.Lose(request.Node)
	}
	outcome, err = orchestrator.Deliver(request.Frame)
	if errors.Is(err, plugin.Short) || errors.Is(err, plugin.BadFrame) {
		err = lines.BadFrame
	}
	return outcome, err
}

func (library *library) free() {
	if library.orchestrator != nil {
		library.orchestrator.Free()
	}
}

func (library *library) Close() error {
	defer runtime.UnlockOSThread()
	library.free()
	return library.store.Close()
}
