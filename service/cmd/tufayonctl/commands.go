package main

import (
	"context"
	"errors"
	"fmt"
	"math"
	"strconv"
	"strings"
	"time"

	"github.com/spf13/cobra"

	"tufayon/service/api/terms"
	"tufayon/service/api/wire"
)

var errTLS = errors.New("over TCP --set, --certificate, --key and --authorities have to be there")

// asked makes a command that has one client do something.
func (ctl *ctl) asked(use, short string, words int, do func(ctx context.Context, client wire.OrchestratorClient, words []string) error) *cobra.Command {
	return &cobra.Command{
		Use: use, Short: short, Args: cobra.ExactArgs(words), ValidArgsFunction: ctl.complete,
		RunE: func(command *cobra.Command, words []string) error {
			client, ctx, end, err := ctl.connecting.client(command.Context())
			if err != nil {
				return err
			}
			defer end()
			return do(ctx, client, words)
		},
	}
}

// waiting adds --wait to a command.
func (ctl *ctl) waiting(command *cobra.Command) *cobra.Command {
	command.Flags().BoolVar(&ctl.waits, "wait", false, "wait until it is done or given up, and say what is going on")
	return command
}

func (ctl *ctl) wait() wire.Wait {
	if ctl.waits {
		return wire.Wait_AT_REST
	}
	return wire.Wait_COMMITTED
}

// access are the options of a capability.
type access struct {
	mode, fs string
	isBlock  bool
}

func (it *access) add(command *cobra.Command) {
	command.Flags().StringVar(&it.mode, "mode", "1", "the access mode: 1 to 7, or CSI's name of it, as SINGLE_NODE_WRITER")
	command.Flags().StringVar(&it.fs, "fs", "", "mounted as a file system of this type")
	command.Flags().BoolVar(&it.isBlock, "block", false, "a block device")
}

var modes = map[string]uint32{
	"SINGLE_NODE_WRITER": 1, "SINGLE_NODE_READER_ONLY": 2, "MULTI_NODE_READER_ONLY": 3, "MULTI_NODE_SINGLE_WRITER": 4, "MULTI_NODE_MULTI_WRITER": 5,
	"SINGLE_NODE_SINGLE_WRITER": 6, "SINGLE_NODE_MULTI_WRITER": 7,
}

func (it *access) capability() (*wire.Capability, error) {
	mode := modes[it.mode]
	if number, err := strconv.ParseUint(it.mode, 10, 8); err == nil {
		mode = uint32(number)
	}
	if mode < 1 || mode > 7 {
		return nil, fmt.Errorf("%w: --mode %q is none of 1 to 7", errUsage, it.mode)
	}
	if it.isBlock && it.fs != "" {
		return nil, fmt.Errorf("%w: --block or --fs", errUsage)
	}
	return &wire.Capability{Mode: mode, Mount: !it.isBlock, FsType: it.fs}, nil
}

// bytesOf reads a number of bytes: 10, 10K, 10M, 10G or 10T, in powers of 1,024.
func bytesOf(option, text string) (uint64, error) {
	digits, shift := text, 0
	if at := strings.IndexAny("KMGT", text[max(len(text)-1, 0):]); text != "" && at >= 0 {
		digits, shift = text[:len(text)-1], 10*(at+1)
	}
	count, err := strconv.ParseUint(digits, 10, 64)
	if err != nil || count > math.MaxUint64>>shift {
		return 0, fmt.Errorf("%w: --%s %q is no number of bytes, as 10G", errUsage, option, text)
	}
	return count << shift, nil
}

func max(some, other int) int {
	if some > other {
		return some
	}
	return other
}

func (ctl *ctl) create() *cobra.Command {
	var required, limit string
	var way access
	command := ctl.asked("create NAME", "creates a volume", 1, func(ctx context.Context, client wire.OrchestratorClient, words []string) error {
		capability, err := way.capability()
		if err != nil {
			return err
		}
		request := &wire.CreateRequest{Name: words[0], Capabilities: []*wire.Capability{capability}, Wait: ctl.wait()}
		if request.Required, err = bytesOf("size", required); err != nil {
			return err
		}
		if request.Limit, err = bytesOf("limit", limit); err != nil {
			return err
		}
		return ctl.answered(ctx, client, words[0], "", func() (*wire.Volume, error) { return client.Create(ctx, request) })
	})
	command.Flags().StringVar(&required, "size", "1G", "at least so many bytes")
	command.Flags().StringVar(&limit, "limit", "0", "at most so many bytes (0: any)")
	way.add(command)
	return ctl.waiting(command)
}

func (ctl *ctl) use() *cobra.Command {
	var way access
	var isReadonly bool
	command := ctl.asked("use NAME NODE TARGET", "publishes a volume at a target path of a node", 3,
		func(ctx context.Context, client wire.OrchestratorClient, words []string) error {
			capability, err := way.capability()
			if err != nil {
				return err
			}
			request := &wire.UseRequest{Name: words[0], Node: words[1], Target: words[2], Capability: capability, Readonly: isReadonly, Wait: ctl.wait()}
			return ctl.answered(ctx, client, words[0], words[1], func() (*wire.Volume, error) { return client.Use(ctx, request) })
		})
	command.Aliases = []string{"publish"}
	command.Flags().BoolVar(&isReadonly, "readonly", false, "for reading only")
	way.add(command)
	return ctl.waiting(command)
}

func (ctl *ctl) stop() *cobra.Command {
	command := ctl.asked("stop NAME NODE TARGET", "ends the use of a volume at a target path of a node", 3,
		func(ctx context.Context, client wire.OrchestratorClient, words []string) error {
			request := &wire.StopRequest{Name: words[0], Node: words[1], Target: words[2], Wait: ctl.wait()}
			return ctl.answered(ctx, client, words[0], "", func() (*wire.Volume, error) { return client.Stop(ctx, request) })
		})
	command.Aliases = []string{"unpublish"}
	return ctl.waiting(command)
}

func (ctl *ctl) delete() *cobra.Command {
	return ctl.waiting(ctl.asked("delete NAME", "deletes a volume", 1, func(ctx context.Context, client wire.OrchestratorClient, words []string) error {
		request := &wire.DeleteRequest{Name: words[0], Wait: ctl.wait()}
		return ctl.answered(ctx, client, words[0], "", func() (*wire.Volume, error) { return client.Delete(ctx, request) })
	}))
}

func (ctl *ctl) get() *cobra.Command {
	return ctl.waiting(ctl.asked("get NAME", "shows a volume, with --wait once nothing is wanted of it any more", 1,
		func(ctx context.Context, client wire.OrchestratorClient, words []string) error {
			end := ctl.follow(ctx, client, words[0])
			volume, err := client.Get(ctx, &wire.GetRequest{Name: words[0], Wait: ctl.wait()})
			end()
			if err != nil {
				return err
			}
			return ctl.print(volume, func() { ctl.volume(volume) })
		}))
}

// listed are the volumes of all pages.
func listed(ctx context.Context, client wire.OrchestratorClient, request *wire.ListRequest) (all []*wire.Volume, err error) {
	for {
		page, err := client.List(ctx, request)
		if err != nil {
			return all, err
		}
		all = append(all, page.Volumes...)
		if page.Next == "" {
			return all, nil
		}
		request.After = page.Next
	}
}

func (ctl *ctl) list() *cobra.Command {
	request := &wire.ListRequest{}
	command := ctl.asked("list", "lists volumes", 0, func(ctx context.Context, client wire.OrchestratorClient, _ []string) error {
		all, err := listed(ctx, client, request)
		if err != nil {
			return err
		}
		return ctl.print(&wire.ListResponse{Volumes: all}, func() { ctl.volumes(all) })
	})
	command.Flags().StringVar(&request.Node, "node", "", "only those that may be attached to this node, or are to be")
	command.Flags().BoolVar(&request.Wanted, "wanted", false, "only those of which something is wanted")
	return command
}

func (ctl *ctl) nodes() *cobra.Command {
	return ctl.asked("nodes", "lists the controller and the nodes", 0, func(ctx context.Context, client wire.OrchestratorClient, _ []string) error {
		response, err := client.Nodes(ctx, &wire.NodesRequest{})
		if err != nil {
			return err
		}
		return ctl.print(response, func() { ctl.plugins(response) })
	})
}

func (ctl *ctl) lose() *cobra.Command {
	var promise string
	command := ctl.asked("lose NODE", "declares a node lost: its machine is off for good, and its store never comes back", 1,
		func(ctx context.Context, client wire.OrchestratorClient, words []string) error {
			if promise != terms.Promise {
				return fmt.Errorf("%w: if it is so, say --promise %q", errUsage, terms.Promise)
			}
			response, err := client.Lose(ctx, &wire.LoseRequest{Node: words[0], Promise: promise})
			if err != nil {
				return err
			}
			return ctl.print(response, func() {
				fmt.Fprintf(ctl.output, "%s is lost. A new machine may join under this id with session %d\n", words[0], response.Session)
			})
		})
	command.Flags().StringVar(&promise, "promise", "", "what you promise, word by word")
	return command
}

func (ctl *ctl) restart() *cobra.Command {
	return ctl.asked("restart", "has the orchestrator begin its next session: names of deleted volumes are free again", 0,
		func(ctx context.Context, client wire.OrchestratorClient, _ []string) error {
			response, err := client.Restart(ctx, &wire.RestartRequest{})
			if err != nil {
				return err
			}
			return ctl.print(response, func() { fmt.Fprintf(ctl.output, "session %d\n", response.Session) })
		})
}

// namesOf are those of all volumes, as far as the service tells them.
func namesOf(ctx context.Context, client wire.OrchestratorClient) (names []string) {
	all, _ := listed(ctx, client, &wire.ListRequest{}) // a shell has nobody to tell
	for _, it := range all {
		names = append(names, it.Name)
	}
	return names
}

// completing is how long a shell waits for what may stand at a place, since nobody sees what it waits for: shorter in a test.
var completing = 2 * time.Second

// complete gives the names of volumes, nodes and targets that may stand at a place, as far as the service tells them soon.
func (ctl *ctl) complete(command *cobra.Command, words []string, _ string) ([]string, cobra.ShellCompDirective) {
	places := strings.Fields(command.Use)[1:]
	if len(words) >= len(places) {
		return nil, cobra.ShellCompDirectiveNoFileComp
	}
	client, ctx, end, err := ctl.connecting.client(command.Context())
	if err != nil {
		return nil, cobra.ShellCompDirectiveNoFileComp
	}
	defer end()
	ctx, cancel := context.WithTimeout(ctx, completing)
	defer cancel()
	var names []string
	switch strings.Trim(places[len(words)], "[]") {
	case "NAME":
		if command.Name() == "create" {
			break
		}
		names = namesOf(ctx, client)
	case "NODE":
		response, err := client.Nodes(ctx, &wire.NodesRequest{})
		if err != nil {
			break
		}
		for _, it := range response.Nodes {
			if it.Id != "" {
				names = append(names, it.Id)
			}
		}
	case "TARGET":
		volume, err := client.Get(ctx, &wire.GetRequest{Name: words[0]})
		if err != nil {
			break
		}
		for _, at := range volume.At {
			for _, it := range at.Targets {
				if at.Node == words[1] {
					names = append(names, it.Path)
				}
			}
		}
	}
	return names, cobra.ShellCompDirectiveNoFileComp
}
