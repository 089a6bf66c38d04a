// Package program has what the programs of a set have in common, and the two of its plugins: tufayon-controller and tufayon-node. docs/SERVICE.md, "The
// plugins", says what these are.
package program

import (
	"context"
	"errors"
	"flag"
	"fmt"
	"io"
	"net"
	"os"
	"os/signal"
	"strings"
	"syscall"
	"time"

	"tufayon/service/carrying"
	"tufayon/service/etcd"
	"tufayon/service/numbers"
	"tufayon/service/plugin"
	"tufayon/service/secure"
	"tufayon/service/settings"
	"tufayon/service/store"
)

// ErrUsage says that the words of a command line are none that the program takes.
var ErrUsage = errors.New("usage")

// Signals gives a context that ends with SIGINT or SIGTERM. SIGHUP ends no process, also where it comes before it can read its files anew, or once it ends.
func Signals() (context.Context, context.CancelFunc) {
	signal.Notify(make(chan os.Signal, 1), syscall.SIGHUP)
	OutliveReader()
	return signal.NotifyContext(context.Background(), syscall.SIGINT, syscall.SIGTERM)
}

// OutliveReader has the process go on where nobody reads its standard error any more, as where what keeps its log ended: Go would end it by SIGPIPE at the
// next line. What it starts isn't concerned: there the signal does what it does by itself.
func OutliveReader() { signal.Notify(make(chan os.Signal, 1), syscall.SIGPIPE) }

// StatusOf is the exit status of an end.
func StatusOf(err error) int {
	var faults settings.Faults
	switch {
	case err == nil:
		return 0
	case errors.Is(err, ErrUsage):
		return 2
	case errors.As(err, &faults), errors.Is(err, plugin.BadName), errors.Is(err, plugin.BadRecord), errors.Is(err, plugin.NodeInUse),
		errors.Is(err, plugin.EarlierSession), errors.Is(err, numbers.ErrSpent), errors.Is(err, store.ErrNotes), errors.Is(err, store.ErrOlder),
		errors.Is(err, store.ErrBeside):
		return 1
	}
	return 3
}

// Words are a program's: flags, of which each is there or not, and a file.
type Words struct {
	File string
	Has  map[string]bool
}

// Parse reads the words of a program which has these flags, of which one at most may be there.
func Parse(program string, words []string, flags ...string) (Words, error) {
	parsed := Words{Has: map[string]bool{}}
	set := flag.NewFlagSet(program, flag.ContinueOnError)
	set.SetOutput(io.Discard)
	there := map[string]*bool{}
	for _, it := range flags {
		there[it] = set.Bool(it, false, "")
	}
	err := set.Parse(words)
	for name, is := range there {
		if *is {
			parsed.Has[name] = true
		}
	}
	if err != nil || set.NArg() != 1 || len(parsed.Has) > 1 {
		return Words{}, fmt.Errorf("%w: %s [--%s] FILE", ErrUsage, program, strings.Join(flags, " | --"))
	}
	parsed.File = set.Arg(0)
	return parsed, nil
}

// Checked says that nothing is wrong with the files of a process, whose certificate, if it has one, is valid until a time.
func Checked(output io.Writer, file, set string, name secure.Name, until time.Time) {
	fmt.Fprintf(output, "nothing is wrong with %s and %s\n", file, set)
	if !until.IsZero() {
		fmt.Fprintf(output, "the certificate of %v is valid until %v\n", name, until)
	}
}

// OpenStore opens a process's store, and waits until the process leads where that is in etcd. There it says where it is.
func OpenStore(ctx context.Context, place *settings.Place, says string) (store.Store, error) {
	return openStore(ctx, place, says, false)
}

// openStore does the same with a store that keeps texts, or with one that doesn't.
func openStore(ctx context.Context, place *settings.Place, says string, texts bool) (store.Store, error) {
	switch {
	case place.Etcd != nil:
		config := etcdOf(place.Etcd)
		config.Says, config.Texts = says, texts
		return config.Open(ctx)
	case texts:
		return store.OpenKeeper(ctx, place.Store)
	}
	return store.OpenSQLite(ctx, place.Store)
}

func etcdOf(its *settings.Etcd) etcd.Config {
	return etcd.Config{
		Endpoints: its.Endpoints, Prefix: its.Prefix, CA: its.CA, Certificate: its.Certificate, Key: its.Key, LeaseSeconds: its.Lease,
	}
}

// Leader says where the process is that leads, where a store is in etcd: nothing where that isn't known. What it has is to be closed.
func Leader(place *settings.Place) (where func(context.Context) string, end func(), err error) {
	if place.Etcd == nil {
		return nil, func() {}, nil
	}
	finder, err := etcdOf(place.Etcd).Finder()
	if err != nil {
		return nil, nil, err
	}
	return finder.Leader, finder.Close, nil
}

// Listen listens at an address, unix://PATH or HOST:PORT. To a Unix socket anybody may connect: credentials say who is there.
func Listen(address string) (net.Listener, error) {
	if carrying.IsLocal(address) {
		return secure.Listen(strings.TrimPrefix(address, "unix://"))
	}
	return net.Listen("tcp", address)
}

// IsOwn says whether a user is this process's, or root.
func IsOwn(uid uint32) bool { return uid == 0 || int(uid) == os.Geteuid() }
