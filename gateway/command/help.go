package command

import (
	"fmt"
	"io"
	"strings"

	"github.com/spf13/cobra"
)

// writeHelp writes a command's help. A failed write changes no status.
func writeHelp(to io.Writer, c *cobra.Command) {
	fmt.Fprintf(to, "%s\n\nUsage: %s\n", c.Short, usageOf(c))
	if c.HasSubCommands() {
		fmt.Fprintf(to, "\nCommands:\n%s", commandList(c))
	}
	fmt.Fprintf(to, "\nOptions:\n%s", c.LocalFlags().FlagUsagesWrapped(100))
	if c.Long != "" {
		fmt.Fprintf(to, "\n%s\n", c.Long)
	}
	if c.Example != "" {
		fmt.Fprintf(to, "\nExamples:\n%s\n", c.Example)
	}
}

// usageOf returns the usage line: the command with its arguments.
func usageOf(c *cobra.Command) string {
	if c.HasParent() {
		return c.Parent().CommandPath() + " " + c.Use
	}
	return c.Use
}

// commandList has a line for each command.
func commandList(c *cobra.Command) string {
	var list strings.Builder
	for _, of := range c.Commands() {
		if !of.Hidden {
			fmt.Fprintf(&list, "  %-10s  %s\n", of.Name(), of.Short)
		}
	}
	return list.String()
}
