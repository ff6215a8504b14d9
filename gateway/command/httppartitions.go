package command

import (
	"context"
	"time"

	"github.com/spf13/cobra"
	"github.com/spf13/pflag"

	"gateway/rabbit/broker"
	"gateway/rabbit/calls"
	"gateway/rabbit/logs"
	"gateway/service"
)

// keptAnswers limits the bytes of kept answers from partitions.
const keptAnswers = 64 << 20

// partitionFlags adds the options for answers from partitions.
func partitionFlags(flags *pflag.FlagSet, o *httpOptions) {
	flags.BoolVar(&o.partitions, "partitions", false, "Let the partitions on RabbitMQ answer, which DESK_BROKERS and DESK_PARTITIONS name")
	flags.Var(&o.wait, "wait", "With --partitions, wait this long for an answer until status 202 says where to ask later, 10ms to 25s")
	flags.Var(&o.keepAnswers, "keep-answers", "With --partitions, keep answers for this long, 10s to 24h")
}

// setPartitions lets the partitions answer, if requested.
func setPartitions(options *service.Options, c *cobra.Command, o httpOptions) error {
	if !o.partitions {
		return nil
	}
	wait, keep := time.Duration(o.wait), time.Duration(o.keepAnswers)
	switch {
	case wait < 10*time.Millisecond || wait > 25*time.Second:
		return wrong("--wait is a time from 10ms to 25s, not %v", wait)
	case keep < 10*time.Second || keep > 24*time.Hour:
		return wrong("--keep-answers is a time from 10s to 24h, not %v", keep)
	}
	on, settings, err := broker.Read()
	if err != nil {
		return wrong("%w", err)
	}
	options.Wait = wait
	options.OpenPartitions = func(model []byte) (service.Partitions, error) {
		return calls.Start(context.Background(), calls.Options{Bus: on, Settings: settings, Log: logs.New(c.ErrOrStderr(), "desk http"),
			Model: model, Keep: keep, Bytes: keptAnswers})
	}
	return nil
}
