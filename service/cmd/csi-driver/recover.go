package main

import (
	"context"
	"errors"
	"flag"
	"fmt"
	"io"
	"os"
	"strings"

	"tufayon/service/etcd"
	"tufayon/service/lines"
	"tufayon/service/numbers"
	"tufayon/service/plugin"
	"tufayon/service/recovering"
	"tufayon/service/store"
)

// recovery are the words of csi-driver recover, or of recover-controller: where the stores are.
type recovery struct {
	program   string      // csi-replay, of recover-controller
	config    string      // the file of CONFIG
	number    uint64      // SESSION, or NEXT
	etcd      etcd.Config // of the store that is kept, the controller's or the orchestrator's, without a prefix where that is a file
	newPrefix string      // of the new one, likewise
	new, kept string
	nodes     []string
}

// isRefused says whether a recovery was refused, and nothing was changed.
func isRefused(err error) bool {
	return errors.Is(err, recovering.ErrNotNew) || errors.Is(err, plugin.NodeInUse) || errors.Is(err, plugin.SameNode) ||
		errors.Is(err, plugin.Disagrees) || errors.Is(err, plugin.BadRow) || errors.Is(err, plugin.NotLater) || errors.As(err, new(recovering.Refusal))
}

func parseRecovery(ofController bool, words []string) (*recovery, error) {
	it := &recovery{}
	flags := flag.NewFlagSet("csi-driver", flag.ContinueOnError)
	flags.SetOutput(io.Discard)
	endpoints := ""
	addEtcd(flags, &endpoints, &it.etcd)
	flags.StringVar(&it.newPrefix, "new-prefix", "", "what the keys of the new store begin with in etcd")
	if ofController {
		flags.StringVar(&it.program, "program", "csi-replay", "csi-replay")
	}
	if err := flags.Parse(words); err != nil {
		return nil, fmt.Errorf("%w (%v)", errUsage, err)
	}
	if endpoints != "" {
		it.etcd.Endpoints = strings.Split(endpoints, ",")
	}
	isInEtcd := it.etcd.Prefix != "" || it.newPrefix != ""
	hasFiles := it.etcd.CA+it.etcd.Certificate+it.etcd.Key != ""
	isTLS := it.etcd.CA != "" && it.etcd.Certificate != "" && it.etcd.Key != ""
	if isInEtcd != (endpoints != "") || hasFiles && !(isInEtcd && isTLS) || it.etcd.LeaseSeconds <= 0 || isInEtcd && it.etcd.Prefix == it.newPrefix {
		return nil, errUsage
	}
	if !it.words(flags.Args()) {
		return nil, errUsage
	}
	return it, nil
}

// words takes what stands behind the options: NEW, unless that is in etcd, CONFIG, the number, the store that is kept, unless that is, and each NODE.
func (it *recovery) words(words []string) (ok bool) {
	next := func() (word string) {
		if len(words) > 0 {
			word, words = words[0], words[1:]
		}
		return word
	}
	if it.newPrefix == "" {
		if it.new = next(); it.new == "" {
			return false
		}
	}
	it.config = next()
	if it.number, ok = numbers.Decimal(next()); !ok || it.config == "" {
		return false
	}
	if it.etcd.Prefix == "" {
		if it.kept = next(); it.kept == "" {
			return false
		}
	}
	it.nodes = words
	return true
}

// recoverStore makes the store of an orchestrator that lost its own, or of a controller that did, and tells what was made.
func recoverStore(ctx context.Context, ofController bool, words []string, to io.Writer) error {
	it, err := parseRecovery(ofController, words)
	if err != nil {
		return err
	}
	config, err := os.ReadFile(it.config)
	if err != nil {
		return fmt.Errorf("device: %w", err)
	}
	if err := (plugin.Maker{IsController: true, Name: config}).Check(); err != nil {
		return err
	}
	opened := &opened{}
	run := it.recover
	if ofController {
		run = it.rebuild
	}
	line, err := run(ctx, config, opened)
	if closed := opened.close(); err == nil {
		err = closed
	}
	if err != nil {
		return err
	}
	if _, err := to.Write(line); err != nil {
		return fmt.Errorf("device: %w", err)
	}
	return nil
}

// recover recovers an orchestrator, and gives the line of it.
func (it *recovery) recover(ctx context.Context, config []byte, opened *opened) ([]byte, error) {
	asked := recovering.Recovery{Config: config, Known: it.number}
	asked.New, asked.Controller, asked.Nodes = it.open(ctx, opened)
	if opened.err != nil {
		return nil, opened.err
	}
	told, err := asked.Run(ctx)
	return lines.Recovered(told.Lost, told.Session, told.Volumes, told.Wanted), err
}

// rebuild does so with a controller.
func (it *recovery) rebuild(ctx context.Context, config []byte, opened *opened) ([]byte, error) {
	asked := recovering.Rebuilding{Program: it.program, Config: config, Next: it.number}
	asked.New, asked.Orchestrator, asked.Nodes = it.open(ctx, opened)
	if opened.err != nil {
		return nil, opened.err
	}
	return asked.Run(ctx)
}

// open opens all stores: the new one, the one that is kept, and the nodes'.
func (it *recovery) open(ctx context.Context, opened *opened) (made, kept store.Store, nodes []store.Store) {
	for _, path := range it.nodes {
		opened.look(path)
	}
	if it.kept != "" {
		opened.look(it.kept)
	}
	made = opened.open(ctx, it.new, it.etcd, it.newPrefix)
	kept = opened.open(ctx, it.kept, it.etcd, it.etcd.Prefix)
	for _, path := range it.nodes {
		nodes = append(nodes, opened.open(ctx, path, etcd.Config{}, ""))
	}
	return made, kept, nodes
}

// opened are stores that are open, or what went wrong with the first that isn't.
type opened struct {
	stores []store.Store
	err    error
}

// look finds out whether a file is there: opening its store would make one.
func (opened *opened) look(path string) {
	if _, err := os.Stat(path); err != nil && opened.err == nil {
		opened.err = fmt.Errorf("%w: %v", store.ErrNotOpened, err)
	}
}

// open opens the store in a file, or in etcd, where it waits to lead.
func (opened *opened) open(ctx context.Context, path string, config etcd.Config, prefix string) store.Store {
	if opened.err != nil {
		return nil
	}
	var it store.Store
	if config.Prefix = prefix; prefix != "" {
		fmt.Fprintf(os.Stderr, "csi-driver: waits to lead %s\n", prefix)
		it, opened.err = config.Open(ctx)
	} else {
		it, opened.err = store.OpenSQLite(ctx, path)
	}
	if opened.err == nil {
		opened.stores = append(opened.stores, it)
	}
	return it
}

func (opened *opened) close() error {
	var first error
	for _, it := range opened.stores {
		if err := it.Close(); err != nil && first == nil {
			first = err
		}
	}
	return first
}
