// csi-orchestrator answers the lines of csi-replay orchestrator, over the library: docs/DRIVER.md, "The orchestrator's host".
package main

import (
	"context"
	"errors"
	"fmt"
	"os"
	"strconv"

	"tufayon/service/hosting"
	"tufayon/service/lines"
	"tufayon/service/version"
)

var errUsage = errors.New("usage: csi-orchestrator DB CONFIG [SESSION]")

func main() {
	if version.Told("csi-orchestrator", os.Args[1:], os.Stdout) {
		return
	}
	hosting.OutliveReader()
	err := run(os.Args[1:])
	if err == nil {
		return
	}
	fmt.Fprintf(os.Stderr, "csi-orchestrator: %v\n", err)
	if errors.Is(err, errUsage) {
		os.Exit(2)
	}
	os.Exit(hosting.StatusOf(err))
}

func run(words []string) error {
	if len(words) != 2 && len(words) != 3 {
		return errUsage
	}
	session, err := sessionOf(words[2:])
	if err != nil {
		return err
	}
	config, err := os.ReadFile(words[1])
	if err != nil {
		return fmt.Errorf("device: %w", err)
	}
	orchestrator, first, err := hosting.Open(context.Background(), words[0], config, session)
	if err != nil {
		return err
	}
	err = answer(orchestrator, first)
	if closed := orchestrator.Close(); err == nil {
		err = closed
	}
	return err
}

// sessionOf is the session that a word says, as it is printed: 0 without one.
func sessionOf(words []string) (uint64, error) {
	if len(words) == 0 {
		return 0, nil
	}
	session, err := strconv.ParseUint(words[0], 10, 64)
	if err != nil || strconv.FormatUint(session, 10) != words[0] {
		return 0, errUsage
	}
	return session, nil
}

// answer writes the first line, and an answer to each line of standard input: those that wait are answered together.
func answer(orchestrator hosting.Orchestrator, first hosting.Answer) error {
	if _, err := os.Stdout.Write(first.Line); err != nil {
		return fmt.Errorf("device: %w", err)
	}
	scanner := lines.NewScanner(os.Stdin)
	for scanner.Scan() {
		asked := [][]byte{append([]byte(nil), scanner.Line()...)}
		for len(asked) < hosting.MostTogether && scanner.Waits() && scanner.Scan() {
			asked = append(asked, append([]byte(nil), scanner.Line()...))
		}
		answers, refused := orchestrator.Answers(asked)
		var said []byte
		for _, answer := range answers {
			said = append(said, answer.Line...)
		}
		if _, err := os.Stdout.Write(said); err != nil {
			return fmt.Errorf("device: %w", err)
		}
		if refused != nil {
			return refused
		}
	}
	return scanner.Err()
}
