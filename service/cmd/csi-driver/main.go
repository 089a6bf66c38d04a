// csi-driver is a CSI driver over the proved plugins: docs/DRIVER.md, "The driver", says what its words are and how it ends.
package main

import (
	"context"
	"errors"
	"fmt"
	"os"
	"os/signal"
	"syscall"

	"tufayon/service/life"
	"tufayon/service/numbers"
	"tufayon/service/plugin"
	"tufayon/service/program"
	"tufayon/service/store"
	"tufayon/service/version"
)

func main() {
	program.OutliveReader()
	ctx, stop := signal.NotifyContext(context.Background(), syscall.SIGINT, syscall.SIGTERM)
	err := run(ctx, os.Args[1:])
	stop()
	if err != nil {
		fmt.Fprintf(os.Stderr, "csi-driver: %v\n", err)
	}
	os.Exit(statusOf(err))
}

// statusOf is the exit status of an end: those of csi-replay.
func statusOf(err error) int {
	switch {
	case err == nil:
		return 0
	case errors.Is(err, errUsage), errors.Is(err, program.ErrUsage):
		return 2
	case errors.Is(err, plugin.BadName), errors.Is(err, plugin.BadRecord), errors.Is(err, plugin.EarlierSession),
		errors.Is(err, numbers.ErrSpent), errors.Is(err, store.ErrNotes), errors.Is(err, store.ErrBeside),
		isRefused(err):
		return 1
	}
	return 3
}

func run(ctx context.Context, words []string) error {
	if len(words) == 1 && words[0] == "--version" {
		fmt.Printf("csi-driver %s\n", version.Number)
		return nil
	}
	if len(words) > 0 && (words[0] == "recover" || words[0] == "recover-controller") {
		return recoverStore(ctx, words[0] == "recover-controller", words[1:], os.Stdout)
	}
	options, err := parse(words)
	if err != nil {
		return err
	}
	watched, end, err := options.watched()
	if err != nil {
		return err
	}
	defer end()
	return life.New(watched).Run(ctx)
}
