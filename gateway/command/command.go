// Package command is the command line of desk: commands, help and exit statuses.
//
// replay and serve replace the process with the engine: pipes, signals, status and bytes are the engine's own. check and
// explain run the engine too, after opening or importing a named file.
package command

import (
	"context"
	"fmt"
	"io"
	"os"
	"strings"

	"github.com/spf13/cobra"
	"github.com/spf13/pflag"
)

// Run runs the command line, and returns the exit status.
func Run(words []string) int {
	if isHandedOver(words) {
		return finish(os.Stderr, "desk", handOver(words))
	}
	openStandardFiles()
	return run(newRoot(), words)
}

// run runs a command line on the root's streams.
func run(root *cobra.Command, words []string) int {
	root.SetArgs(words)
	if err := find(root, words); err != nil {
		return finish(root.ErrOrStderr(), root.Name(), err)
	}
	c, err := root.ExecuteContextC(context.Background())
	return finish(c.ErrOrStderr(), c.CommandPath(), err)
}

// finish reports the error that ended a command, and returns its status.
func finish(to io.Writer, name string, err error) int {
	status := statusOf(err)
	if known, is := err.(*failure); is && known.err == nil {
		return status
	}
	if err != nil {
		fmt.Fprintf(to, "%s %v\n", painted(to, red, name+":"), err)
	}
	if status == statusUsage {
		fmt.Fprintf(to, "For more, try: %s --help\n", name)
	}
	return status
}

// newRoot returns the desk command with all its commands.
func newRoot() *cobra.Command {
	root := &cobra.Command{
		Use:   "desk COMMAND",
		Short: "Evaluates decision services after OMG DMN 1.3",
		Long: statusHelp + `

Documents, in the repository or in /usr/share/doc/colkuzai:
  README.md           a first run, and a model of your own
  docs/MODEL.md       models and their expressions
  docs/DMN.md         files of DMN: what is supported
  docs/LINES.md       every line of replay and serve, and its answer
  docs/CASES.md       files of requests, and test cases
  docs/HTTP.md        the HTTP service
  docs/OPERATIONS.md  running it: options, systemd, limits, upgrades

Licence: MIT or Apache-2.0, as you choose (LICENSE, NOTICE).`,
		Example: `  desk import --line examples/dmn/dish.dmn > dish.jsonl
  desk serve --workers 4 < examples/clients.jsonl
  desk http examples/parcel.json`,
		SilenceErrors: true,
		SilenceUsage:  true,
	}
	isVersion := root.Flags().BoolP("version", "V", false, "Print the versions of the program and of its engine")
	root.RunE = func(c *cobra.Command, _ []string) error {
		if *isVersion {
			return writeVersion(c)
		}
		writeHelp(c.ErrOrStderr(), c)
		return ended(statusUsage)
	}
	cobra.EnableCommandSorting = false
	help := helpCommand()
	root.AddCommand(replayCommand(), serveCommand(), checkCommand(), explainCommand(), importCommand(), exportCommand(),
		runCommand(), casesCommand(), compareCommand(), httpCommand(), releaseCommand(), journalCommand(),
		sendCommand(), partitionCommand(), receiveCommand(), completionCommand(), manualCommand(), help)
	root.SetHelpCommand(help)
	for _, c := range append(everyCommand(root), root) {
		c.Flags().BoolP("help", "h", false, "Print help")
		c.DisableFlagsInUseLine = true
		c.Flags().SortFlags = false
	}
	root.SetHelpFunc(func(c *cobra.Command, _ []string) { writeHelp(c.OutOrStdout(), c) })
	root.SetFlagErrorFunc(flagError)
	return root
}

// everyCommand lists the commands, each before its own.
func everyCommand(of *cobra.Command) (all []*cobra.Command) {
	for _, c := range of.Commands() {
		all = append(append(all, c), everyCommand(c)...)
	}
	return all
}

// find returns an error if the first word is not a command.
func find(root *cobra.Command, words []string) error {
	if len(words) == 0 || strings.HasPrefix(words[0], "-") || strings.HasPrefix(words[0], cobra.ShellCompRequestCmd) {
		return nil
	}
	for _, c := range root.Commands() {
		if c.Name() == words[0] {
			return nil
		}
	}
	return unknownCommand(root, words[0])
}

func unknownCommand(root *cobra.Command, word string) error {
	var names []string
	for _, c := range root.Commands() {
		names = append(names, c.Name())
	}
	return wrong("%q is no command%s", word, tip("", word, names))
}

// flagError returns the error of an unknown option, with the nearest known one.
func flagError(c *cobra.Command, err error) error {
	const unknown = "unknown flag: --"
	if !strings.HasPrefix(err.Error(), unknown) {
		return wrong("%s", strings.ReplaceAll(err.Error(), "flag", "option"))
	}
	word := strings.TrimPrefix(err.Error(), unknown)
	var names []string
	c.Flags().VisitAll(func(f *pflag.Flag) { names = append(names, f.Name) })
	return wrong("there is no option --%s%s", word, tip("--", word, names))
}

// tip suggests the nearest name, if one is near.
func tip(prefix, word string, names []string) string {
	index := &cobra.Command{SuggestionsMinimumDistance: 2}
	for _, name := range names {
		index.AddCommand(&cobra.Command{Use: name, Run: func(*cobra.Command, []string) {}})
	}
	near := index.SuggestionsFor(word)
	if len(near) == 0 {
		return ""
	}
	return "; did you mean " + prefix + near[0] + "?"
}

// noFiles refuses words that aren't options.
func noFiles(_ *cobra.Command, words []string) error {
	if len(words) > 0 {
		return wrong("%q is no option", words[0])
	}
	return nil
}

// helpCommand shows what --help shows.
func helpCommand() *cobra.Command {
	return &cobra.Command{
		Use:               "help [COMMAND]",
		Short:             "Shows this help, or the help of a command",
		ValidArgsFunction: completeCommands,
		RunE: func(c *cobra.Command, words []string) error {
			if len(words) > 1 {
				return wrong("the help of one command is shown at a time")
			}
			of := c.Root()
			if len(words) == 1 {
				if err := find(of, words); err != nil {
					return err
				}
				of, _, _ = of.Find(words)
			}
			writeHelp(c.OutOrStdout(), of)
			return nil
		},
	}
}

func completeCommands(c *cobra.Command, words []string, _ string) (names []string, _ cobra.ShellCompDirective) {
	for _, of := range c.Root().Commands() {
		if len(words) == 0 {
			names = append(names, of.Name())
		}
	}
	return names, cobra.ShellCompDirectiveNoFileComp
}

// completeFiles completes files with these extensions.
func completeFiles(extensions ...string) func(*cobra.Command, []string, string) ([]string, cobra.ShellCompDirective) {
	return func(*cobra.Command, []string, string) ([]string, cobra.ShellCompDirective) {
		return extensions, cobra.ShellCompDirectiveFilterFileExt
	}
}

// completionCommand writes shell completions.
func completionCommand() *cobra.Command {
	writers := map[string]func(*cobra.Command, io.Writer) error{
		"bash": func(root *cobra.Command, to io.Writer) error { return root.GenBashCompletionV2(to, true) },
		"zsh":  (*cobra.Command).GenZshCompletion,
		"fish": func(root *cobra.Command, to io.Writer) error { return root.GenFishCompletion(to, true) },
	}
	return &cobra.Command{
		Use:     "completion bash|zsh|fish",
		Short:   "Writes the completions of the command line for a shell",
		Example: "  . <(desk completion bash)",
		ValidArgs: []string{
			"bash", "zsh", "fish",
		},
		RunE: func(c *cobra.Command, words []string) error {
			if len(words) != 1 || writers[words[0]] == nil {
				return wrong("one shell is due: bash, zsh or fish")
			}
			if err := writers[words[0]](c.Root(), c.OutOrStdout()); err != nil {
				return fmt.Errorf("writing the completions: %w", err)
			}
			return nil
		},
	}
}
