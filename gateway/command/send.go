package command

import (
	"bytes"
	"context"
	"errors"
	"fmt"
	"os/exec"
	"time"

	"github.com/spf13/cobra"

	"gateway/engine"
	"gateway/rabbit/broker"
	"gateway/rabbit/bus"
	"gateway/rabbit/logs"
	"gateway/rabbit/sender"
)

// sendOptions are the options of send.
type sendOptions struct {
	sender, batch string
	giveUp        duration
	metrics       string
}

func sendCommand() *cobra.Command {
	options := sendOptions{giveUp: duration(5 * time.Minute)}
	c := &cobra.Command{
		Use:   "send [OPTIONS] < LINES.jsonl",
		Short: "Sends the lines of standard input to the partitions of their keys, on RabbitMQ",
		Long: `A line that can't be sent is reported on standard error, and the rest is sent; the status is then 3. Where a partition
can't be reached, the lines of the others are sent; the status is then 1, and the batch can be sent again.

` + brokerHelp,
		Args: noFiles,
		RunE: func(c *cobra.Command, _ []string) error { return runSend(c, options) },
	}
	c.Flags().StringVar(&options.sender, "sender", "", "Use this `NAME`, under which the sender may be started again; a new process ends the one before")
	c.Flags().StringVar(&options.batch, "batch", "",
		"Use this `ID` for this input: sent again under it, only what is missing is sent (default a new one)")
	c.Flags().Var(&options.giveUp, "give-up", "Give up a partition that confirms nothing for so long, while others do; 0s for never")
	c.Flags().StringVar(&options.metrics, "metrics", "", metricsHelp)
	return c
}

// check returns an error for an invalid name or id.
func (o sendOptions) check() error {
	switch {
	case o.batch != "" && (o.sender == "" || !bus.IsBatch(o.batch)):
		return wrong("--batch is an id in UTF-8 of at most %d bytes, and is for a --sender", bus.MaximumBatchBytes)
	case o.sender != "" && !bus.IsSender(o.sender):
		return wrong("--sender is a name in UTF-8 of 1 to %d bytes", bus.MaximumSenderBytes)
	}
	return nil
}

func runSend(c *cobra.Command, o sendOptions) error {
	options := sender.Options{Name: o.sender, Named: o.sender != "", Batch: o.batch, GiveUp: time.Duration(o.giveUp),
		Input: c.InOrStdin(), Log: logs.New(c.ErrOrStderr(), "desk send"), Gauges: sender.NewGauges()}
	err := o.check()
	if err != nil {
		return err
	}
	on, settings, err := broker.Read()
	if err != nil {
		return wrong("%w", err)
	}
	options.Bus = on
	path, err := engine.Path()
	if err != nil {
		return err
	}
	collectSeldom()
	ctx, stop := untilStopped(c)
	defer stop()
	options.Check = func(model []byte) error { return checkBeforeSending(ctx, path, model) }
	if err := nameBatch(c, &options); err != nil {
		return err
	}
	if err := serveMetrics(ctx, o.metrics, options.Gauges); err != nil {
		return err
	}
	if err := lookAtScale(ctx, &options, settings); err != nil {
		return err
	}
	tally, err := sender.Send(ctx, options)
	c.PrintErrf("desk send: %d lines sent, %d repeated (taken before in this batch), %d not sent\n",
		tally.Sent, tally.Repeated, tally.Refused+tally.Unsent)
	if err == nil && tally.Refused > 0 {
		return ended(statusRefused)
	}
	return err
}

// nameBatch makes the names that the user didn't give.
func nameBatch(c *cobra.Command, options *sender.Options) (err error) {
	if !options.Named {
		options.Name, err = bus.NewMark()
		return err
	}
	if options.Batch == "" {
		if options.Batch, err = bus.NewMark(); err != nil {
			return err
		}
		c.PrintErrf("desk send: batch %s\n", options.Batch)
	}
	return nil
}

// lookAtScale finds the present and earlier numbers of partitions, from the settings if the brokers don't have them.
func lookAtScale(ctx context.Context, options *sender.Options, settings bus.Settings) error {
	scale, err := bus.StartWatch(ctx, options.Bus, options.Log, "desk send, "+options.Name, settings)
	if err != nil {
		return err
	}
	known, err := scale.Look(ctx)
	if err != nil {
		return err
	}
	newest, _ := known.Newest()
	options.Scale, options.Settings, options.Earlier = scale, newest, known.All[:len(known.All)-1]
	return nil
}

// checkBeforeSending lets the engine check a model.
func checkBeforeSending(ctx context.Context, path string, model []byte) error {
	check := exec.CommandContext(ctx, path, "check")
	check.Stdin = bytes.NewReader(model)
	said, err := check.CombinedOutput()
	var exit *exec.ExitError
	switch {
	case errors.As(err, &exit):
		return fmt.Errorf("the model is refused: %s", bytes.TrimSpace(said))
	case err != nil:
		return fmt.Errorf("checking the model: %w", err)
	}
	return nil
}
