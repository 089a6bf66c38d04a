package main

import (
	"context"
	"encoding/json"
	"fmt"
	"io"
	"os"
	"time"
	"unicode"

	"github.com/spf13/cobra"
	"google.golang.org/grpc"

	"tufayon/service/api/wire"
	"tufayon/service/replaying"
)

// mostHistory is how large the service's whole history may be, in bytes.
const mostHistory = 256 << 20

func (ctl *ctl) history() *cobra.Command {
	var most uint32
	var isSchedule bool
	command := ctl.asked("history [NAME]", "tells what happened last, or has it as a schedule of csi-replay", 0,
		func(ctx context.Context, client wire.OrchestratorClient, words []string) error {
			request := &wire.HistoryRequest{Most: most, Schedule: isSchedule}
			if len(words) == 1 {
				request.Name = words[0]
			}
			response, err := client.History(ctx, request, grpc.MaxCallRecvMsgSize(mostHistory))
			if err != nil {
				return err
			}
			if isSchedule {
				_, err := io.WriteString(ctl.output, response.Schedule)
				return err
			}
			return ctl.print(response, func() { ctl.happened(response.Events) })
		})
	command.Args = cobra.MaximumNArgs(1)
	command.Flags().Uint32Var(&most, "most", 0, "only the last so many events (0: all that are kept)")
	command.Flags().BoolVar(&isSchedule, "schedule", false, "print it as a schedule, which csi-replay runs and draws")
	return command
}

func (ctl *ctl) happened(events []*wire.Happened) {
	ctl.table("TIME\tSESSION\tVOLUME\tEVENT", func(to io.Writer) {
		for _, it := range events {
			name := "-"
			if it.Name != "" {
				name = quoted(it.Name)
			}
			fmt.Fprintf(to, "%s\t%d\t%s\t%s\n", time.UnixMilli(it.Time).Format("2006-01-02T15:04:05.000Z07:00"), it.Session, name, lined(it.Text))
		}
	})
}

// quoted has a name that isn't of printable characters alone as a literal, so that an event is a line.
func quoted(name string) string {
	for _, it := range name {
		if unicode.IsControl(it) || it == '\ufffd' {
			return fmt.Sprintf("%q", name)
		}
	}
	return name
}

func (ctl *ctl) draw() *cobra.Command {
	var most uint32
	var program string
	command := ctl.asked("draw NAME", "draws what happened to a volume last, as an SVG, by csi-replay", 1,
		func(ctx context.Context, client wire.OrchestratorClient, words []string) error {
			response, err := client.History(ctx, &wire.HistoryRequest{Name: words[0], Most: most, Schedule: true}, grpc.MaxCallRecvMsgSize(mostHistory))
			if err != nil {
				return err
			}
			schedule, err := read(response)
			if err != nil {
				return err
			}
			if len(schedule.Events) == 0 {
				return fmt.Errorf("%s: %w", words[0], errNothing)
			}
			drawn, err := schedule.Draw(ctx, program)
			if err != nil {
				return fmt.Errorf("%s: %w", program, err)
			}
			if at, why, err := schedule.Check(ctx, program); err == nil && at > 0 {
				fmt.Fprintf(ctl.errors, "tufayonctl: from event %d on the picture isn't what happened: %s\n", at, why)
			}
			_, err = ctl.output.Write(drawn)
			return err
		})
	command.Flags().Uint32Var(&most, "most", 300, "only the last so many events (0: all that are kept)")
	command.Flags().StringVar(&program, "program", or(os.Getenv("CSI_REPLAY"), "csi-replay"), "the program that draws")
	return command
}

// read is the schedule of a response.
func read(response *wire.HistoryResponse) (*replaying.Schedule, error) {
	schedule := &replaying.Schedule{Outcomes: response.Outcomes}
	err := json.Unmarshal([]byte(response.Schedule), schedule)
	return schedule, err
}
