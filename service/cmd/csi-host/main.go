// csi-host has an orchestrator decide, and carries its calls to CSI drivers: docs/DRIVER.md, "The orchestrator's host".
package main

import (
	"context"
	"flag"
	"fmt"
	"io"
	"os"
	"os/signal"
	"syscall"

	"tufayon/service/hosting"
	"tufayon/service/version"
)

func main() {
	if version.Told("csi-host", os.Args[1:], os.Stdout) {
		return
	}
	flags := flag.NewFlagSet("csi-host", flag.ContinueOnError)
	flags.SetOutput(io.Discard)
	program := flags.String("program", "", "csi-replay, where the orchestrator is to run beside the host")
	if err := flags.Parse(os.Args[1:]); err != nil || flags.NArg() != 1 {
		end(2, "usage: csi-host [--program CSI-REPLAY] FILE")
	}
	config, err := hosting.Read(flags.Arg(0))
	if err != nil {
		end(1, err)
	}
	hosting.OutliveReader()
	ctx, stop := signal.NotifyContext(context.Background(), syscall.SIGINT, syscall.SIGTERM)
	defer stop()
	if err := serve(ctx, config, *program); err != nil {
		end(hosting.StatusOf(err), err)
	}
}

func end(status int, why any) {
	fmt.Fprintf(os.Stderr, "csi-host: %v\n", why)
	os.Exit(status)
}

func serve(ctx context.Context, config hosting.Config, program string) error {
	orchestrator, first, err := begin(ctx, config, program)
	if err != nil {
		return err
	}
	return hosting.Serve(ctx, config, orchestrator, first, os.Stdin, os.Stdout)
}

// begin begins the orchestrator's next session.
func begin(ctx context.Context, config hosting.Config, program string) (hosting.Orchestrator, hosting.Answer, error) {
	if program != "" {
		return hosting.Run(program, "orchestrator", config.Store, config.Config)
	}
	content, err := os.ReadFile(config.Config)
	if err != nil {
		return nil, hosting.Answer{}, fmt.Errorf("device: %w", err)
	}
	return hosting.Open(ctx, config.Store, content, 0)
}
