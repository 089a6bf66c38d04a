// tufayon-orchestrator is the orchestrator as a service: docs/SERVICE.md.
package main

import (
	"context"
	"fmt"
	"io"
	"os"

	"tufayon/service/daemon"
	"tufayon/service/program"
	"tufayon/service/settings"
	"tufayon/service/version"
)

func main() {
	if version.Told("tufayon-orchestrator", os.Args[1:], os.Stdout) {
		return
	}
	ctx, stop := program.Signals()
	err := run(ctx, os.Args[1:], os.Stdout)
	stop()
	if err != nil {
		fmt.Fprintf(os.Stderr, "tufayon-orchestrator: %v\n", err)
	}
	os.Exit(program.StatusOf(err))
}

func run(ctx context.Context, words []string, output io.Writer) error {
	parsed, err := program.Parse("tufayon-orchestrator", words, "check", "config")
	if err != nil {
		return err
	}
	read, err := settings.Read(parsed.File)
	if err != nil {
		return err
	}
	if parsed.Has["config"] {
		_, err := output.Write(read.Set.Config())
		return err
	}
	until, err := read.Own()
	if parsed.Has["check"] {
		until, err = read.Check(ctx)
	}
	if err != nil {
		return err
	}
	if parsed.Has["check"] {
		program.Checked(output, read.File, read.Process.Place.Set, read.Name(), until)
		return nil
	}
	log, err := daemon.Logger(read.Process.Log)
	if err != nil {
		return err
	}
	defer log.Sync()
	daemon.CollectSeldom()
	return serve(ctx, read, log)
}
