package command

import (
	"context"
	"fmt"
	"strconv"
	"time"

	"github.com/spf13/cobra"

	"gateway/engine"
	"gateway/rabbit/broker"
	"gateway/rabbit/bus"
	"gateway/rabbit/logs"
	"gateway/rabbit/metrics"
	"gateway/rabbit/partition"
	"gateway/rabbit/process"
	"gateway/rabbit/rescale"
)

// brokerHelp describes the environment of send, partition and receive.
const brokerHelp = `Environment:
  DESK_BROKERS     the brokers, addresses with commas between [default: amqp://127.0.0.1]
  DESK_PARTITIONS  how many partitions desk partition --declare makes [default: 1]

ops/rabbitmq/README.md describes the protocol, settings and alarms.`

// metricsHelp describes --metrics of send, partition and receive.
const metricsHelp = "Serve /metrics, /healthz and /readyz at this `ADDRESS`, as 127.0.0.1:9100"

// serveMetrics serves metrics at an address, if there is one.
func serveMetrics(ctx context.Context, address string, of metrics.Source) error {
	if address == "" {
		return nil
	}
	_, err := metrics.Serve(ctx, address, of)
	return err
}

// partitionOptions are the options of partition.
type partitionOptions struct {
	engine   process.Options
	memory   size
	deadline duration
	metrics  string
	days     int
	declare  bool
}

// leastMemory is the least address space of an engine in bytes, as it needs some itself.
const leastMemory = 32 << 20

func partitionCommand() *cobra.Command {
	options := partitionOptions{memory: 1 << 30, deadline: duration(time.Minute)}
	c := &cobra.Command{
		Use:   "partition [OPTIONS]",
		Short: "Owns one partition on RabbitMQ at a time, and answers its lines",
		Long:  brokerHelp,
		Args:  noFiles,
		RunE:  func(c *cobra.Command, _ []string) error { return runPartition(c, options) },
	}
	c.AddCommand(repairCommand(), rescaleCommand())
	flags := c.Flags()
	flags.IntVar(&options.engine.Workers, "workers", 1, "Use this `NUMBER` of workers in the engine, 1 to 8")
	flags.Var(&options.deadline, "deadline", "Give the evaluation of a line this long, from 1s on")
	flags.IntVar(&options.engine.Longest, "longest", 1<<20, "Allow an answer this many `BYTES`, 1024 to 16777216")
	flags.Var(&options.memory, "memory", "Limit the address space of the engine, from 32MiB on; 0 for no limit")
	flags.StringVar(&options.metrics, "metrics", "", metricsHelp)
	flags.BoolVar(&options.declare, "declare", false, "Make the exchanges and queues of all partitions where they aren't there, and end")
	flags.IntVar(&options.days, "sender-days", 90, "Know a sender and its batches for this `NUMBER` of days after its last message; 0 for ever")
	return c
}

func repairCommand() *cobra.Command {
	epoch := int64(-1)
	c := &cobra.Command{
		Use:   "repair NUMBER",
		Short: "Makes the log of a partition anew, where it is lost for good",
		Long: `What is answered stays answered, and what wasn't is told as lost. Stop the senders of the partition before, and send their
batches again as new ones. It waits until nobody owns the partition.

` + brokerHelp,
		Args: cobra.ExactArgs(1),
		RunE: func(c *cobra.Command, words []string) error { return runRepair(c, words[0], epoch) },
	}
	c.Flags().Int64Var(&epoch, "epoch", -1, "Repair one of an earlier number of partitions, which has this `EPOCH` [default: the newest]")
	return c
}

func runRepair(c *cobra.Command, text string, epoch int64) error {
	on, settings, err := broker.Read()
	if err != nil {
		return wrong("%w", err)
	}
	ctx, stop := untilStopped(c)
	defer stop()
	scale, err := bus.StartWatch(ctx, on, partitionLog(c), "desk partition repair", settings)
	if err != nil {
		return err
	}
	known, err := scale.Look(ctx)
	if err != nil {
		return err
	}
	repair, err := repairOf(known, text, epoch)
	if err != nil {
		return err
	}
	repair.Program, repair.Log = version, partitionLog(c)
	if err := on.Repair(ctx, repair); err != nil {
		return err
	}
	c.PrintErrf("desk partition: partition %v is repaired\n", repair.Partition)
	return nil
}

// repairOf returns what is repaired: a partition of the newest number, or of the given epoch.
func repairOf(known bus.Scaling, text string, epoch int64) (repair broker.Repair, err error) {
	last := int64(len(known.All) - 1)
	if epoch < 0 {
		epoch = last
	}
	if epoch > last {
		return repair, wrong("there is no epoch %d: the newest is %d", epoch, last)
	}
	settings := known.All[epoch]
	number, err := strconv.Atoi(text)
	if err != nil || number < 0 || number >= settings.Partitions {
		return repair, wrong("%q is no partition: they have the numbers 0 to %d", text, settings.Partitions-1)
	}
	repair.Partition = settings.Each()[number]
	if epoch < last {
		repair.After = known.All[epoch+1]
	}
	return repair, nil
}

func rescaleCommand() *cobra.Command {
	return &cobra.Command{
		Use:   "rescale NUMBER",
		Short: "Changes how many partitions there are, while they answer",
		Long: `What is sent before the change is answered before it, and tickets go on. Senders of before end with status 1 and the new number.
Run again, it goes on where it was killed.

` + brokerHelp,
		Args: cobra.ExactArgs(1),
		RunE: func(c *cobra.Command, words []string) error { return runRescale(c, words[0]) },
	}
}

func runRescale(c *cobra.Command, text string) error {
	number, err := strconv.Atoi(text)
	if err != nil || number < 1 || number > bus.MaximumPartitions {
		return wrong("%q is no number of partitions from 1 to %d", text, bus.MaximumPartitions)
	}
	on, _, err := broker.Read()
	if err != nil {
		return wrong("%w", err)
	}
	ctx, stop := untilStopped(c)
	defer stop()
	options := rescaling(c, on)
	options.To = number
	change, err := rescale.Run(ctx, options)
	if err != nil {
		return err
	}
	c.PrintErrf("desk partition: there are %d partitions now (epoch %d); each needs a process\n", change.To.Partitions, change.To.Epoch)
	return nil
}

// rescaling returns how the number of partitions is changed, or declared.
func rescaling(c *cobra.Command, on broker.Broker) rescale.Options {
	log := partitionLog(c)
	return rescale.Options{Bus: on, Log: log, Leave: on.Leave, Declare: func(ctx context.Context, settings bus.Settings) error {
		return on.Declare(ctx, settings, log)
	}}
}

// partitionLog returns the log of desk partition.
func partitionLog(c *cobra.Command) *logs.Log { return logs.New(c.ErrOrStderr(), "desk partition") }

// check returns an error for a number out of range.
func (o *partitionOptions) check() error {
	switch {
	case o.engine.Workers < 1 || o.engine.Workers > 8:
		return wrong("--workers is a number from 1 to 8, not %d", o.engine.Workers)
	case time.Duration(o.deadline) < time.Second:
		return wrong("--deadline is at least 1s, not %v", time.Duration(o.deadline))
	case o.engine.Longest < 1024 || o.engine.Longest > bus.WindowBytes:
		return wrong("--longest is a number from 1024 to %d, not %d", bus.WindowBytes, o.engine.Longest)
	case o.days < 0:
		return wrong("--sender-days is a number of days, not %d", o.days)
	case o.memory != 0 && o.memory < leastMemory:
		return wrong("--memory is at least 32MiB: an engine takes some of it for itself")
	}
	return nil
}

func runPartition(c *cobra.Command, o partitionOptions) error {
	if err := o.check(); err != nil {
		return err
	}
	o.engine.Memory = uint64(o.memory)
	on, settings, err := broker.Read()
	if err != nil {
		return wrong("%w", err)
	}
	ctx, stop := untilStopped(c)
	defer stop()
	if o.declare {
		return declare(ctx, c, on, settings)
	}
	if o.engine.Path, err = engine.Path(); err != nil {
		return err
	}
	collectSeldom()
	log := partitionLog(c)
	for _, note := range engineNotes(o.engine.Path) {
		log.Warning("%s", note)
	}
	gauges := partition.NewGauges()
	if err := serveMetrics(ctx, o.metrics, gauges); err != nil {
		return err
	}
	options := partition.Options{Bus: on, Settings: settings, Deadline: time.Duration(o.deadline), Log: log, Gauges: gauges,
		Engine: o.engine, Keep: time.Duration(o.days) * 24 * time.Hour, Program: version}
	if err := partition.Run(ctx, options); err != nil && ctx.Err() == nil {
		return err
	}
	return nil
}

// declare makes what the partitions need at the brokers.
func declare(ctx context.Context, c *cobra.Command, on broker.Broker, settings bus.Settings) error {
	newest, err := rescale.Declare(ctx, rescaling(c, on), settings)
	if err != nil {
		return err
	}
	if newest.Epoch == 0 && newest != settings {
		return fmt.Errorf("there are %d partitions, which are declared: desk partition rescale changes the number", newest.Partitions)
	}
	c.PrintErrf("desk partition: %d partitions are declared\n", newest.Partitions)
	return nil
}
