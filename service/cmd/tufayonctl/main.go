// tufayonctl asks an orchestrator's service for what its words say: docs/SERVICE.md, "tufayonctl".
package main

import (
	"context"
	"errors"
	"fmt"
	"io"
	"os"
	"os/signal"
	"syscall"

	"github.com/spf13/cobra"
	"google.golang.org/grpc/codes"
	"google.golang.org/grpc/status"

	"tufayon/service/version"
)

func main() {
	if version.Told("tufayonctl", os.Args[1:], os.Stdout) {
		return
	}
	ctx, stop := signal.NotifyContext(context.Background(), syscall.SIGINT, syscall.SIGTERM)
	code := run(ctx, os.Args[1:], os.Stdout, os.Stderr)
	stop()
	os.Exit(code)
}

// The exit statuses.
const (
	done     = 0
	refused  = 1 // nothing was changed; or of --wait, what was asked for didn't come to be
	usage    = 2
	notKnown = 3 // the service isn't reached, or it isn't known what became of the command, or its answer can't be printed
	isNot    = 4 // the volume is in use there, as the record says, and the node says that it isn't mounted
)

// errUndone says that a volume came to rest, and what was asked for isn't so.
var errUndone = errors.New("it was given up")

// errUnmounted says that a volume is in use at a node, and isn't mounted there.
var errUnmounted = errors.New("it isn't mounted")

// errNothing says that the history has nothing of a volume.
var errNothing = errors.New("nothing is known of it")

// errUnprinted says that an answer, or a part of it, can't be printed.
var errUnprinted = errors.New("the answer can't be printed")

// errUsage says that the words are none that the program takes.
var errUsage = errors.New("usage")

// printed is standard output, and why something couldn't be written to it.
type printed struct {
	to  io.Writer
	err error
}

func (it *printed) Write(text []byte) (int, error) {
	count, err := it.to.Write(text)
	if err != nil {
		err = fmt.Errorf("%w: %v", errUnprinted, err)
		it.err = err
	}
	return count, err
}

func run(ctx context.Context, words []string, output, errors io.Writer) int {
	ctl := &ctl{output: &printed{to: output}, errors: errors}
	root := ctl.root()
	root.SetArgs(words)
	root.SetOut(ctl.output)
	root.SetErr(errors)
	err := root.ExecuteContext(ctx)
	if err == nil {
		err = ctl.output.err
	}
	if err != nil {
		fmt.Fprintf(errors, "tufayonctl: %s\n", told(err))
	}
	return codeOf(err)
}

// told is an error as it is printed: of a status its name and message.
func told(err error) string {
	if its, ok := status.FromError(err); ok {
		return fmt.Sprintf("%v: %s", its.Code(), its.Message())
	}
	return err.Error()
}

func codeOf(err error) int {
	if err == nil {
		return done
	}
	if errors.Is(err, errUndone) || errors.Is(err, errNothing) {
		return refused
	}
	if errors.Is(err, errUnmounted) {
		return isNot
	}
	if errors.Is(err, errUnprinted) {
		return notKnown
	}
	its, ok := status.FromError(err)
	if !ok {
		return usage
	}
	switch its.Code() {
	case codes.Unavailable, codes.DeadlineExceeded, codes.Canceled, codes.Unknown, codes.Internal, codes.DataLoss:
		return notKnown
	}
	return refused
}

// ctl is the program: its options, and where it writes.
type ctl struct {
	output        *printed
	errors        io.Writer
	connecting    connecting
	isJSON, waits bool
}

func (ctl *ctl) root() *cobra.Command {
	root := &cobra.Command{
		Use: "tufayonctl", Short: "asks an orchestrator's service",
		SilenceUsage: true, SilenceErrors: true,
	}
	flags := root.PersistentFlags()
	flags.StringVar(&ctl.connecting.address, "address", or(os.Getenv("TUFAYON_ADDRESS"), defaultAddress), "the service: unix://PATH, or HOST:PORT; of several, with commas between, that which leads")
	flags.StringVar(&ctl.connecting.set, "set", os.Getenv("TUFAYON_SET"), "over TCP: the set's name")
	flags.StringVar(&ctl.connecting.files.Certificate, "certificate", os.Getenv("TUFAYON_CERTIFICATE"), "over TCP: this client's certificate")
	flags.StringVar(&ctl.connecting.files.Key, "key", os.Getenv("TUFAYON_KEY"), "over TCP: its key")
	flags.StringVar(&ctl.connecting.files.Authorities, "authorities", os.Getenv("TUFAYON_AUTHORITIES"), "over TCP: the certificates of the set's authorities")
	flags.DurationVar(&ctl.connecting.timeout, "timeout", 0, "how long to wait for an answer (0: as long as it takes)")
	flags.BoolVar(&ctl.isJSON, "json", false, "print JSON, a line for each answer")
	root.AddCommand(ctl.create(), ctl.use(), ctl.stop(), ctl.delete(), ctl.get(), ctl.list(), ctl.nodes(), ctl.watch(), ctl.lose(), ctl.restart(), ctl.history(), ctl.draw())
	return root
}

func or(text, other string) string {
	if text == "" {
		return other
	}
	return text
}
