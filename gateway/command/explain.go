package command

import (
	"strconv"

	"github.com/spf13/cobra"

	"gateway/engine"
	"gateway/tell"
)

func explainCommand() *cobra.Command {
	c := &cobra.Command{
		Use:   "explain [OPTIONS] [FILE|-]",
		Short: "Answers the lines of serve one after another, and says how each result came about",
		Long: `Each line is one JSON object, as those of serve, and is answered as serve with these options answers it. Without a file
it reads standard input.

The answer to a model has its text and the SHA-256 of that. A reply has, before its result, that SHA-256, the inputs as
they were read, and the value of each decision on the way: for a table also the values of its inputs, the rules that hit
and those that decided; for a list its members; for a context its entries.

One thread answers, so --workers and --capacity change nothing. desk run --text says the same of a file of requests, in the
names and decimals of a .dmn file.

` + engineStatus,
		Example: `  desk explain examples/clients.jsonl
  desk explain --text examples/explain/loan.jsonl`,
		ValidArgsFunction: completeFiles("jsonl"),
	}
	engineNumbers(c.Flags())
	misses := c.Flags().Bool("misses", false, "Name, for each rule that missed, the first column that did not match")
	text := c.Flags().Bool("text", false, "Write text for people to read")
	c.RunE = func(c *cobra.Command, files []string) error {
		if len(files) == 0 {
			files = []string{dash}
		}
		switch {
		case len(files) > 1:
			return wrong("one file of lines is read: %q is one too many", files[1])
		case isDMN(files[0], nil):
			return wrong("explain reads lines of requests: desk import --line %[1]s > FILE, and requests after it; or desk run --text %[1]s REQUESTS", files[0])
		}
		lines, err := open(c, files[0])
		if err != nil {
			return err
		}
		defer lines.Close()
		if !*text {
			return askEngine(c, lines, engineWords(c))
		}
		clients, err := strconv.Atoi(c.Flag("clients").Value.String())
		if err != nil {
			return wrong("--clients is a number from 1 to 64, not %q", c.Flag("clients").Value)
		}
		return explainInText(c, lines, tell.ExplainOptions{Clients: clients, Misses: *misses, Text: true})
	}
	return c
}

// explainInText answers lines, and explains each answer as text.
func explainInText(c *cobra.Command, lines *source, options tell.ExplainOptions) error {
	path, err := engine.Path()
	if err != nil {
		return err
	}
	shown := readProgress(c.ErrOrStderr(), c.OutOrStdout(), c.Name(), lines)
	status, err := tell.Explain(c.Context(), path, options, lines.Reader, c.OutOrStdout(), c.ErrOrStderr())
	shown.stop()
	if err != nil {
		return engine.NotStarted(path, err)
	}
	return ended(status)
}
