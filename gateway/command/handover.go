package command

import (
	"errors"
	"fmt"
	"os"
	"os/exec"
	"syscall"

	"github.com/spf13/cobra"
	"github.com/spf13/pflag"

	"gateway/engine"
)

// isHandedOver reports whether the words go to the engine unchanged: those of replay and serve without a request for help.
func isHandedOver(words []string) bool {
	if len(words) == 0 || words[0] != "replay" && words[0] != "serve" {
		return false
	}
	for _, word := range words[1:] {
		switch word {
		case "--":
			return true
		case "-h", "--help":
			return false
		}
	}
	return true
}

// handOver replaces the process with the engine. It only returns if that fails.
func handOver(words []string) error {
	path, err := engine.Path()
	if err != nil {
		return err
	}
	keepIgnored()
	err = syscall.Exec(path, append([]string{"desk"}, words...), os.Environ())
	return engine.NotStarted(path, err)
}

// replayCommand and serveCommand describe the engine's commands.
func replayCommand() *cobra.Command {
	return &cobra.Command{
		Use:   "replay",
		Short: "Answers the lines of standard input one after another",
		Long: `Each line is one JSON object:
  {"model":M}                                      a model, in force from the next line on
  {"open":"ann","capacity":2}                      a client with room for two requests
  {"submit":"ann","service":"s","inputs":{"a":4}}  a request, which gets the client's next ticket
  {"take":"ann","ticket":0}                        a worker takes the request
  {"answer":"ann","ticket":0}                      the request is evaluated, and its result kept
  {"release":"ann"}                                the client's next result is released
  {"resize":"ann","capacity":3}                    the client has room for three requests
  {"close":"ann"}                                  the client makes no more requests

An answer with "service" and "inputs", as in a submit, evaluates that request instead.

` + engineStatus,
		Example: "  desk replay < examples/first.jsonl",
		RunE:    handOverAll,
	}
}

func serveCommand() *cobra.Command {
	c := &cobra.Command{
		Use:   "serve [OPTIONS]",
		Short: "Answers the lines of many clients at once, each client's in order",
		Long: `Each line is one JSON object:
  {"model":M}                                      a model, in force from the next line on
  {"client":"ann","service":"s","inputs":{"a":4}}  a request
  {"client":"ann","close":true}                    the client makes no more requests
  {"resize":"ann","capacity":3}                    the client has room for three requests

A client's answers come in the order of its lines, and are written while the program waits for input. A slow request
keeps one worker. It delays other clients if all workers are kept, or if a line has to wait for it: one past its
client's capacity, or its client's next refusal, close or resize.

` + engineStatus,
		Example: "  desk serve --workers 4 < examples/clients.jsonl",
		RunE:    handOverAll,
	}
	engineNumbers(c.Flags())
	return c
}

const engineStatus = `The status is 0 at the end of the input, and 1 if a fault ended the run. Standard error then has one word: read,
write, long (over 2^40 bytes came) or memory. docs/LINES.md has every line and its answers.`

// engineNumbers adds serve's options as the engine reads them.
func engineNumbers(flags *pflag.FlagSet) {
	flags.String("clients", "8", "Serve this `NUMBER` of clients, 1 to 64")
	flags.String("workers", "4", "Evaluate with this `NUMBER` of workers, 1 to 8")
	flags.String("capacity", "64", "Allow this `NUMBER` of outstanding requests per client, 1 to 4096")
}

// handOverAll runs if the program's options come before the command.
func handOverAll(*cobra.Command, []string) error { return handOver(os.Args[1:]) }

// engineWords returns the command and its options as the engine reads them.
func engineWords(c *cobra.Command) []string {
	words := []string{c.Name()}
	c.Flags().Visit(func(f *pflag.Flag) {
		switch {
		case f.Value.Type() != "bool":
			words = append(words, "--"+f.Name, f.Value.String())
		case f.Value.String() == "true":
			words = append(words, "--"+f.Name)
		}
	})
	return words
}

// askEngine runs the engine on an input. Its output goes to this command's, and its status is this command's.
func askEngine(c *cobra.Command, input *source, words []string) error {
	path, err := engine.Path()
	if err != nil {
		return err
	}
	run := exec.Command(path, words...)
	run.Stdin, run.Stdout, run.Stderr = input.Reader, c.OutOrStdout(), c.ErrOrStderr()
	run.SysProcAttr = &syscall.SysProcAttr{Pdeathsig: syscall.SIGKILL}
	if err := run.Start(); err != nil {
		return engine.NotStarted(path, err)
	}
	shown := readProgress(c.ErrOrStderr(), c.OutOrStdout(), c.Name(), input)
	err = run.Wait()
	shown.stop()
	var exit *exec.ExitError
	switch {
	case errors.As(err, &exit) && exit.Exited():
		return ended(exit.ExitCode())
	case err != nil:
		return fmt.Errorf("running the engine: %w", err)
	}
	return nil
}
