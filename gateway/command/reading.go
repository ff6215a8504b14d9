package command

import (
	"errors"
	"fmt"
	"strconv"
	"strings"

	"github.com/spf13/pflag"

	"gateway/calendar"
	"gateway/profile"
)

// readingFlags adds the options for what is translated of DMN files, and how.
func readingFlags(flags *pflag.FlagSet, options *profile.Options) {
	flags.StringVar(&options.Service, "service", "", "Make the service of this `NAME` alone: a decision service or a decision")
	translationFlags(flags, options)
}

// translationFlags adds the options for how DMN files are translated.
func translationFlags(flags *pflag.FlagSet, options *profile.Options) {
	flags.BoolVar(&options.Partial, "partial", false, "Make the services that need no refused place, and report the others")
	flags.BoolVar(&options.FreeInputs, "free-inputs", false,
		"Make an input of each name that nothing declares and that is a typed column's whole expression")
	flags.StringArrayVar(&options.Nullable, "nullable", nil,
		"Let the input or component of this `NAME`, as Age or Applicant.Age, be missing or null over HTTP; may come several times")
	flags.Var(clock{options}, "clock", "Let today() and now() ask the clock of this zone, as Europe/Berlin, UTC or +02:00")
	flags.Var(offsets{options}, "offset", "Take times with an offset for the input of this name, as Start or Order.Placed; may come several times")
	flags.Var(decimals{options}, "decimals", "Take this many decimals of numbers of inputs, or of a decision, as 2, Rate=3 or "+
		"Applicant.Income=2; may come several times (default 2 where fractions meet them)")
}

// A clock is the option for the clock's zone.
type clock struct{ options *profile.Options }

func (c clock) String() string { return c.options.Clock }

func (c clock) Type() string { return "ZONE" }

func (c clock) Set(zone string) error {
	if _, err := calendar.Zone(zone); err != nil {
		return err
	}
	c.options.Clock = zone
	return nil
}

// An offsets is the option for times of inputs with an offset.
type offsets struct{ options *profile.Options }

func (o offsets) String() string { return "" }

func (o offsets) Type() string { return "NAME" }

func (o offsets) Set(name string) error {
	if strings.TrimSpace(name) == "" {
		return errors.New("a name is due")
	}
	o.options.Offsets = append(o.options.Offsets, name)
	return nil
}

// A decimals is the option for the decimals of inputs.
type decimals struct{ options *profile.Options }

func (d decimals) String() string { return "" }

func (d decimals) Type() string { return "[NAME=]NUMBER" }

func (d decimals) Set(word string) error {
	name, number := "", word
	if at := strings.LastIndexByte(word, '='); at >= 0 {
		if name, number = strings.TrimSpace(word[:at]), word[at+1:]; name == "" {
			return errors.New("a name is due before =")
		}
	}
	count, err := strconv.Atoi(strings.TrimSpace(number))
	if err != nil || count < 0 || count > profile.MostDecimals {
		return fmt.Errorf("a number from 0 to %d is due", profile.MostDecimals)
	}
	if d.options.Decimals == nil {
		said := profile.NoDecimals()
		said.Named = map[string]int{}
		d.options.Decimals = &said
	}
	if name == "" {
		d.options.Decimals.All = count
	} else {
		d.options.Decimals.Named[name] = count
	}
	return nil
}
