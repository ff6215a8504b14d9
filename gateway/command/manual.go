package command

import (
	"bufio"
	"fmt"
	"io"
	"strings"

	"github.com/spf13/cobra"
	"github.com/spf13/pflag"
)

// manualCommand writes the manual page, which docs/desk.1 is a copy of.
func manualCommand() *cobra.Command {
	return &cobra.Command{
		Use:    "manual",
		Short:  "Writes the manual page",
		Hidden: true,
		Args:   noFiles,
		RunE: func(c *cobra.Command, _ []string) error {
			if err := writeManual(c.OutOrStdout(), c.Root()); err != nil {
				return fmt.Errorf("writing the manual page: %w", err)
			}
			return nil
		},
	}
}

// writeManual writes a man(7) page from the help of all commands.
func writeManual(to io.Writer, root *cobra.Command) error {
	page := bufio.NewWriter(to)
	fmt.Fprintf(page, ".\\\" Written by desk manual.\n.TH DESK 1 \"\" \"desk %s\" \"User Commands\"\n", version)
	fmt.Fprintf(page, ".SH NAME\ndesk \\- %s\n.SH SYNOPSIS\n", roff(lowerFirst(root.Short)))
	for _, c := range everyCommand(root) {
		if !c.Hidden && !isGroup(c) {
			fmt.Fprintf(page, ".B %s\n%s\n.br\n", c.CommandPath(), roffLine(strings.TrimSpace(strings.TrimPrefix(c.Use, c.Name()))))
		}
	}
	fmt.Fprintf(page, ".B desk \\-\\-version\n.SH DESCRIPTION\n%s.SH COMMANDS\n", roffText(manualAbout))
	for _, c := range everyCommand(root) {
		if !c.Hidden {
			writeManualOf(page, c)
		}
	}
	fmt.Fprintf(page, ".SH OPTIONS\n%s.SH EXIT STATUS\n", roffOptions(root.LocalFlags(), true))
	for _, line := range strings.Split(statusHelp, "\n")[1:] {
		status, text, _ := strings.Cut(strings.TrimSpace(line), "  ")
		fmt.Fprintf(page, ".TP\n.B %s\n%s\n", status, roffLine(text))
	}
	page.WriteString(manualRest)
	return page.Flush()
}

// writeManualOf writes the part of one command.
func writeManualOf(to io.Writer, c *cobra.Command) {
	fmt.Fprintf(to, ".SS %s\n%s.\n.PP\n%s", c.CommandPath(), roffLine(c.Short), roffText(c.Long))
	if c.Name() == "help" {
		return
	}
	fmt.Fprint(to, roffOptions(c.LocalFlags(), false))
	if c.Example != "" {
		fmt.Fprintf(to, ".PP\nExamples:\n%s", roffText(c.Example))
	}
}

// roffOptions describes options. Every command has --help, which is described once.
func roffOptions(flags *pflag.FlagSet, hasHelp bool) string {
	var text strings.Builder
	flags.VisitAll(func(f *pflag.Flag) {
		if f.Name == "help" && !hasHelp {
			return
		}
		argument, usage := pflag.UnquoteUsage(f)
		names := "--" + f.Name
		if f.Shorthand != "" {
			names = "-" + f.Shorthand + ", " + names
		}
		fmt.Fprintf(&text, ".TP\n.BI \"%s\" \" %s\"\n%s.\n", roff(names), roff(argument), roffLine(usage))
		if f.DefValue != "" && f.DefValue != "false" && f.DefValue != "0s" && f.DefValue != "[]" {
			fmt.Fprintf(&text, "Without it %s.\n", roff(f.DefValue))
		}
	})
	return text.String()
}

// roffText writes text with paragraphs; lines that begin with blanks are kept.
func roffText(text string) string {
	var page strings.Builder
	isKept := false
	for _, line := range append(strings.Split(text, "\n"), "") {
		switch keep := strings.HasPrefix(line, "  "); {
		case keep && !isKept:
			page.WriteString(".PP\n.EX\n")
			isKept = true
		case !keep && isKept:
			page.WriteString(".EE\n")
			isKept = false
		}
		if line == "" {
			page.WriteString(".PP\n")
			continue
		}
		page.WriteString(roffLine(line) + "\n")
	}
	return strings.TrimSuffix(page.String(), ".PP\n")
}

// roffLine returns a line that roff doesn't take for a request.
func roffLine(line string) string {
	line = roff(line)
	if strings.HasPrefix(line, ".") || strings.HasPrefix(line, "'") {
		return `\&` + line
	}
	return line
}

// roff escapes what roff would interpret.
func roff(text string) string {
	return strings.NewReplacer(`\`, `\e`, "-", `\-`, "^", `\(ha`, `"`, `\(dq`, "~", `\(ti`).Replace(strings.TrimSuffix(text, "\n"))
}

func lowerFirst(text string) string { return strings.ToLower(text[:1]) + text[1:] }

const manualAbout = `desk reads a model with decisions after OMG DMN 1.3, and answers requests to its services: between two pipes
(replay, serve), over HTTP (http), or over RabbitMQ (send, partition, receive). It hands each client its results in the
order of its requests. An engine evaluates, a proved program of its own.

Where a command reads a file, - stands for standard input.`

// manualRest is what the page has besides the help.
const manualRest = `.SH ENVIRONMENT
.TP
.B DESK_ENGINE
The engine's file.
Without it
.I ../libexec/colkuzai/desk
from the folder in which the program lies, or else
.I desk
in that folder.
.TP
.B DESK_BROKERS
The brokers of
.BR send ", " partition " and " receive :
addresses with commas between.
Without it amqp://127.0.0.1.
.TP
.B DESK_PARTITIONS
How many partitions desk partition \-\-declare makes.
Without it 1.
.TP
.B NO_COLOR
Colours are left out.
.SH FILES
.TP
.I /etc/colkuzai/model.json
The model of the service of systemd.
.TP
.I /etc/colkuzai/tokens
Its tokens.
.SH DIAGNOSTICS
At status 1 replay, serve, check and explain write one word on standard error:
.TP
.B read
Standard input can't be read.
The whole lines before are answered.
.TP
.B write
Standard output can't be written.
The output ends where it failed, perhaps inside a line.
.TP
.B long
More than 2\(ha40 bytes came; for check, more than 64 MiB.
The whole lines within them are answered.
.TP
.B memory
Memory was refused.
The output ends with a whole line.
.PP
A line that can't be answered as it asks ends nothing.
Its answer has the word of the refusal, as in
.BR {\(dqclient\(dq:\(dqann\(dq,\(dqline\(dq:9,\(dqrefused\(dq:\(dqfull\(dq} .
.SH SEE ALSO
In the repository, or in
.IR /usr/share/doc/colkuzai :
README.md, docs/MODEL.md, docs/DMN.md, docs/LINES.md, docs/HTTP.md, docs/OPERATIONS.md, ops/rabbitmq/README.md.
.SH COPYRIGHT
MIT OR Apache\-2.0, as you choose; what it is linked with has licences of its own, which NOTICE lists.
`
