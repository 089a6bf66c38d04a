package main

import (
	"context"
	"errors"
	"fmt"
	"io"
	"strings"
	"text/tabwriter"
	"time"
	"unicode"

	"github.com/golang/protobuf/jsonpb"
	"github.com/golang/protobuf/proto"
	"github.com/spf13/cobra"
	"google.golang.org/grpc/codes"
	"google.golang.org/grpc/status"

	"tufayon/service/api/wire"
)

// print prints an answer: as a line of JSON, or as a table.
func (ctl *ctl) print(answer proto.Message, asTable func()) error {
	if !ctl.isJSON {
		asTable()
		return ctl.output.err
	}
	text, err := (&jsonpb.Marshaler{OrigName: true, EmitDefaults: true}).MarshalToString(answer)
	if err != nil {
		return err
	}
	_, err = fmt.Fprintln(ctl.output, text)
	return err
}

// answered has a command carried out, and prints what it came to. With --wait it tells what is going on meanwhile, and fails where it was given up.
// Of a use at a node it fails too where the node, whose machine was started again, hasn't mounted it.
func (ctl *ctl) answered(ctx context.Context, client wire.OrchestratorClient, name, node string, ask func() (*wire.Volume, error)) error {
	end := ctl.follow(ctx, client, name)
	volume, err := ask()
	end()
	if err != nil {
		return err
	}
	if err := ctl.print(volume, func() { ctl.volume(volume) }); err != nil {
		return err
	}
	if why := unmounted(volume, node); why != "" {
		return fmt.Errorf("%s: %w at %s: %s", quoted(name), errUnmounted, node, lined(why))
	}
	if ctl.waits && !volume.Reached {
		return fmt.Errorf("%s: %w: %s", quoted(name), errUndone, lined(volume.Trouble))
	}
	return nil
}

// unmounted is why a volume that is in use at a node isn't mounted there.
func unmounted(volume *wire.Volume, node string) string {
	for _, at := range volume.At {
		if at.Node == node && len(at.Targets) > 0 && volume.Goal == "" {
			return at.Unmounted
		}
	}
	return ""
}

// follow tells what is going on with a volume, on standard error, until its end is asked for.
func (ctl *ctl) follow(ctx context.Context, client wire.OrchestratorClient, name string) (end func()) {
	if !ctl.waits || ctl.isJSON {
		return func() {}
	}
	ctx, cancel := context.WithCancel(ctx)
	stream, err := client.Watch(ctx, &wire.WatchRequest{Name: name})
	if err == nil {
		_, err = stream.Header() // from now on it tells all
	}
	ended := make(chan struct{})
	go func() {
		defer close(ended)
		for last := ""; err == nil; {
			var event *wire.Event
			if event, err = stream.Recv(); err != nil || event.GetVolume().GetGoal() == "" {
				continue
			}
			if now := goingOn(event.GetVolume()); now != last {
				fmt.Fprintf(ctl.errors, "%s: %s\n", quoted(name), now)
				last = now
			}
		}
	}()
	return func() { cancel(); <-ended }
}

// lined has a text stand in a line: a driver's words have several, and what a terminal would take for a command of its own.
func lined(text string) string {
	return strings.Map(func(it rune) rune {
		if unicode.IsControl(it) {
			return ' '
		}
		return it
	}, text)
}

// goingOn is what is going on with a volume, in a line.
func goingOn(volume *wire.Volume) string {
	text := volume.Goal
	if volume.GoalNode != "" {
		text += " " + volume.GoalNode + " " + volume.GoalTarget
	}
	if volume.HeldUpBy != "" {
		text += fmt.Sprintf(": waits for %s, try %d", volume.HeldUpBy, volume.Tries)
	}
	if volume.Trouble != "" {
		text += " (" + volume.Trouble + ")"
	}
	return lined(text)
}

func (ctl *ctl) table(head string, rows func(to io.Writer)) {
	to := tabwriter.NewWriter(ctl.output, 0, 0, 2, ' ', 0)
	fmt.Fprintln(to, head)
	rows(to)
	to.Flush()
}

// volume prints one volume.
func (ctl *ctl) volume(volume *wire.Volume) {
	ctl.volumes([]*wire.Volume{volume})
}

func (ctl *ctl) volumes(volumes []*wire.Volume) {
	ctl.table("NAME\tID\tEXISTS\tWANTED\tSINCE\tAT", func(to io.Writer) {
		for _, it := range volumes {
			id, wanted, since := "-", "-", "-"
			if it.Id != 0 {
				id = fmt.Sprint(it.Id)
			}
			if it.Goal != "" {
				wanted = goingOn(it)
			}
			if it.WantedSince != 0 {
				since = time.UnixMilli(it.WantedSince).Format(time.RFC3339)
			}
			fmt.Fprintf(to, "%s\t%s\t%s\t%s\t%s\t%s\n", quoted(it.Name), id, known(it.Exists), wanted, since, places(it.At))
		}
	})
}

func known(it wire.Known) string { return strings.ToLower(it.String()) }

// places are where a volume is used: node:target, with a question mark where that may be, or is only attached, and a remark where the node says that it
// isn't mounted.
func places(all []*wire.At) string {
	var texts []string
	for _, at := range all {
		if len(at.Targets) == 0 {
			texts = append(texts, at.Node+"?")
		}
		for _, it := range at.Targets {
			text := at.Node + ":" + it.Path
			if it.Published != wire.Known_YES {
				text += "?"
			}
			if at.Unmounted != "" {
				text += " (not mounted)"
			}
			texts = append(texts, text)
		}
	}
	if len(texts) == 0 {
		return "-"
	}
	return lined(strings.Join(texts, " "))
}

func (ctl *ctl) plugins(response *wire.NodesResponse) {
	ctl.table("PLUGIN\tCONNECTION\tUNDER WAY\tQUEUED\tATTACHED\tADDRESS\tTROUBLE", func(to io.Writer) {
		for _, it := range response.Nodes {
			name := "controller"
			if it.Id != "" {
				name = "node:" + it.Id
			}
			trouble := lined(it.Trouble)
			if trouble == "" {
				trouble = "-"
			}
			fmt.Fprintf(to, "%s\t%s\t%d\t%d\t%d\t%s\t%s\n", name, it.Connection, it.UnderWay, it.Queued, it.Attached, it.Address, trouble)
		}
	})
}

func (ctl *ctl) watch() *cobra.Command {
	var current bool
	command := &cobra.Command{
		Use: "watch [NAME]", Short: "tells what happens, until it is interrupted", Args: cobra.MaximumNArgs(1), ValidArgsFunction: ctl.complete,
		RunE: func(command *cobra.Command, words []string) error {
			client, ctx, end, err := ctl.connecting.client(command.Context())
			if err != nil {
				return err
			}
			defer end()
			request := &wire.WatchRequest{Current: current}
			if len(words) == 1 {
				request.Name = words[0]
			}
			err = ctl.watched(ctx, client, request)
			if errors.Is(command.Context().Err(), context.Canceled) {
				return nil // it was interrupted
			}
			return err
		},
	}
	command.Flags().BoolVar(&current, "current", false, "first tell how it is now")
	return command
}

// watched tells what happens. Where a service that told something ends, or was too fast, it begins again, with how it is then.
func (ctl *ctl) watched(ctx context.Context, client wire.OrchestratorClient, request *wire.WatchRequest) error {
	for until := (time.Time{}); ; time.Sleep(again) {
		hasBegun, err := ctl.watchOnce(ctx, client, request)
		if hasBegun {
			until = time.Now().Add(patience)
		}
		code := status.Code(err)
		if ctx.Err() != nil || code != codes.Unavailable && code != codes.OutOfRange || time.Now().After(until) {
			return err
		}
		if hasBegun {
			fmt.Fprintf(ctl.errors, "tufayonctl: %s: it begins again\n", told(err))
		}
		request.Current = true
	}
}

// watchOnce tells what happens until that ends, and says whether it had begun: an answer had a header, then.
func (ctl *ctl) watchOnce(ctx context.Context, client wire.OrchestratorClient, request *wire.WatchRequest) (hasBegun bool, err error) {
	stream, err := client.Watch(ctx, request)
	if err != nil {
		return false, err
	}
	for err == nil {
		var event *wire.Event
		if event, err = stream.Recv(); err == nil {
			err = ctl.print(event, func() { ctl.event(event) })
		}
	}
	header, _ := stream.Header()
	return len(header) > 0, err
}

func (ctl *ctl) event(event *wire.Event) {
	text := ""
	switch it := event.Of.(type) {
	case *wire.Event_Volume:
		if text = goingOn(it.Volume); it.Volume.Goal == "" {
			text = "at rest, exists " + known(it.Volume.Exists) + ", at " + places(it.Volume.At)
		}
		text = quoted(it.Volume.Name) + ": " + text
	case *wire.Event_Forgotten:
		text = quoted(it.Forgotten) + ": the name is free"
	case *wire.Event_Lost:
		text = "node " + it.Lost + " is lost"
	}
	fmt.Fprintf(ctl.output, "%d %d %s\n", event.Session, event.Count, text)
}
