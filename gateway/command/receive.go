package command

import (
	"os"
	"strconv"
	"time"

	"github.com/spf13/cobra"

	"gateway/rabbit/broker"
	"gateway/rabbit/bus"
	"gateway/rabbit/logs"
	"gateway/rabbit/receiver"
)

// receiveOptions are the options of receive.
type receiveOptions struct {
	from, place, output string
	idle                duration
	metrics             string
}

func receiveCommand() *cobra.Command {
	var options receiveOptions
	c := &cobra.Command{
		Use:   "receive [OPTIONS]",
		Short: "Writes the answers of all partitions on RabbitMQ, each once",
		Long:  brokerHelp,
		Args:  noFiles,
		RunE:  func(c *cobra.Command, _ []string) error { return runReceive(c, options) },
	}
	flags := c.Flags()
	flags.StringVar(&options.from, "from", fromFirst,
		"Begin at `WHERE`: first, next, a time as 2026-11-27T16:00:00Z, or an offset of each partition's answers; the place that --place "+
			"keeps comes first")
	flags.StringVar(&options.place, "place", "", "Keep the place in this `FILE`, and go on there when started again")
	flags.StringVar(&options.output, "output", "",
		"Write the answers to this `FILE`; with --place it has each answer once, whatever happens")
	flags.StringVar(&options.metrics, "metrics", "", metricsHelp)
	flags.Var(&options.idle, "idle", "End after so long without an answer, as 5s; 0s for never")
	return c
}

// Where a receiver begins, besides a time.
const (
	fromFirst = "first"
	fromNext  = "next"
)

// fromOf reads where a receiver begins.
func fromOf(text string) (bus.From, error) {
	switch text {
	case fromFirst:
		return bus.From{}, nil
	case fromNext:
		return bus.From{Place: bus.Next}, nil
	}
	if offset, err := strconv.ParseInt(text, 10, 64); err == nil && offset >= 0 {
		return bus.FromOffset(offset), nil
	}
	at, err := time.Parse(time.RFC3339, text)
	if err != nil {
		return bus.From{}, wrong("--from is first, next, a time as 2026-11-27T16:00:00Z, or an offset as 1000, not %q", text)
	}
	return bus.From{Place: bus.Since, Since: at}, nil
}

func runReceive(c *cobra.Command, o receiveOptions) error {
	collectSeldom()
	on, settings, err := broker.Read()
	if err != nil {
		return wrong("%w", err)
	}
	options := receiver.Options{Bus: on, Place: o.place, Output: os.Stdout,
		Idle: time.Duration(o.idle), Log: logs.New(c.ErrOrStderr(), "desk receive"), Gauges: receiver.NewGauges()}
	if options.From, err = fromOf(o.from); err != nil {
		return err
	}
	if o.output != "" && o.output != dash {
		file, err := os.OpenFile(o.output, os.O_RDWR|os.O_CREATE, 0o666)
		if err != nil {
			return err
		}
		defer file.Close()
		options.Output, options.File = file, true
	}
	ctx, stop := untilStopped(c)
	defer stop()
	if err := serveMetrics(ctx, o.metrics, options.Gauges); err != nil {
		return err
	}
	if options.Scale, err = bus.StartWatch(ctx, on, options.Log, "desk receive", settings); err != nil {
		return err
	}
	return receiver.Receive(ctx, options)
}
