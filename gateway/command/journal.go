package command

import (
	"bufio"
	"context"
	"encoding/csv"
	"encoding/json"
	"fmt"
	"io"
	"os"
	"strconv"
	"strings"
	"time"

	"github.com/spf13/cobra"
	"github.com/spf13/pflag"

	"gateway/engine"
	"gateway/journal"
	"gateway/profile"
	"gateway/record"
	"gateway/service"
)

func journalCommand() *cobra.Command {
	return group("journal", "Verifies, finds, shows and exports what desk http recorded",
		`A journal is the folder of desk http --journal. docs/HTTP.md says what it has.`,
		verifyCommand(), findCommand(), showCommand(), exportJournalCommand())
}

// group returns a command that only has commands.
func group(name, short, long string, commands ...*cobra.Command) *cobra.Command {
	c := &cobra.Command{Use: name + groupEnd, Short: short, Long: long, RunE: func(c *cobra.Command, words []string) error {
		if len(words) == 0 {
			writeHelp(c.ErrOrStderr(), c)
			return ended(statusUsage)
		}
		var names []string
		for _, of := range c.Commands() {
			names = append(names, of.Name())
		}
		return wrong("%q is no command of %s%s", words[0], c.Name(), tip("", words[0], names))
	}}
	c.AddCommand(commands...)
	return c
}

// isGroup reports whether a command only has commands.
func isGroup(c *cobra.Command) bool { return strings.HasSuffix(c.Use, groupEnd) }

// groupEnd ends the usage of a group.
const groupEnd = " COMMAND"

// folderOf returns the folder that a command takes first, of count words.
func folderOf(c *cobra.Command, words []string, count int) (string, error) {
	if len(words) != count {
		return "", wrong("%s is due", usageOf(c))
	}
	about, err := os.Stat(words[0])
	if err == nil && !about.IsDir() {
		return "", wrong("%s is no folder", words[0])
	}
	return words[0], err
}

func verifyCommand() *cobra.Command {
	var head string
	c := &cobra.Command{
		Use:   "verify [OPTIONS] FOLDER",
		Short: "Says whether a journal is as it was recorded",
		Long: `Each entry is held against the chain. The status is 1 if an entry is changed, cut, missing or twice, or if no entry has the
sum of --head: without it a whole chain that was written anew is not seen.`,
		Example: "  desk journal verify --head 5f3c.. journal",
	}
	c.Flags().StringVar(&head, "head", "", "Ask for an entry with this `SUM`, a head that was logged at the end of a file")
	c.RunE = func(c *cobra.Command, words []string) error {
		folder, err := folderOf(c, words, 1)
		if err != nil {
			return err
		}
		begin := time.Now()
		report, err := journal.Verify(folder, head)
		if err != nil {
			return err
		}
		return writeVerified(c.OutOrStdout(), report, time.Since(begin))
	}
	return c
}

func writeVerified(to io.Writer, report *journal.Report, took time.Duration) error {
	for _, fault := range report.Faults {
		fmt.Fprintln(to, fault)
	}
	if report.Entries > 0 {
		fmt.Fprintf(to, "%d entries, %d to %d, in %d files\nhead %s\n", report.Entries, report.First, report.Last, report.Files, report.Head)
	}
	if report.Pruned > 0 {
		fmt.Fprintf(to, "entries up to %d were removed by --keep or --journal-limit\n", report.Pruned)
	}
	if report.At > 0 {
		fmt.Fprintf(to, "entry %d has the sum that was asked for\n", report.At)
	}
	if report.IsOpen {
		fmt.Fprintln(to, "a process writes it: what came meanwhile may not be among these")
	}
	if report.Lines > 0 {
		fmt.Fprintf(to, "%d lines of files that an earlier version wrote have no chain\n", report.Lines)
	}
	if len(report.Faults) > 0 {
		fmt.Fprintf(to, "not as it was recorded: %d faults\n", len(report.Faults))
		return ended(statusFault)
	}
	_, err := fmt.Fprintf(to, "as it was recorded (%.1f s)\n", took.Seconds())
	return err
}

// filterFlags adds the options that select cases.
func filterFlags(flags *pflag.FlagSet, filter *record.Filter) {
	flags.StringVar(&filter.Client, "client", "", "Want this `NAME`, of X-Client or of a token")
	flags.StringVar(&filter.Service, "service", "", "Want the service of this `NAME`")
	flags.StringVar(&filter.From, "from", "", "Want answers from this `TIME` on, as 2026-11-29 or 2026-11-29T16:00")
	flags.StringVar(&filter.To, "to", "", "Want answers before this `TIME`")
	flags.StringVar(&filter.Rule, "rule", "", "Want answers that this `RULE` decided: DECISION, DECISION:NUMBER or an id")
	flags.StringVar(&filter.Release, "release", "", "Want answers of this `RELEASE`: \"NAME VERSION\", or the beginning of its sum")
}

func findCommand() *cobra.Command {
	var filter record.Filter
	c := &cobra.Command{
		Use:   "find [OPTIONS] FOLDER [ID]",
		Short: "Writes the cases of a journal that are wanted, each as a line of JSON",
		Long: `An id is ours (Desk-Record), the caller's (X-Request-Id), or # with the number of an entry. Inputs and results have the names
of their file. The status is 1 if nothing is found.`,
		Example: "  desk journal find --rule 'Strategy:1' --from 2026-11-01 journal",
	}
	filterFlags(c.Flags(), &filter)
	c.RunE = func(c *cobra.Command, words []string) error {
		if len(words) == 2 {
			filter.ID = words[1]
			words = words[:1]
		}
		folder, err := folderOf(c, words, 1)
		if err != nil {
			return err
		}
		ctx, stop := untilStopped(c)
		defer stop()
		count, err := writeCases(ctx, c.OutOrStdout(), folder, filter)
		if err == nil && count == 0 {
			c.PrintErrln("nothing is found")
			return ended(statusFault)
		}
		return err
	}
	return c
}

// writeCases writes cases as lines of JSON, and reports their number.
func writeCases(ctx context.Context, w io.Writer, folder string, filter record.Filter) (count int, err error) {
	asker, err := newAsker()
	if err != nil {
		return 0, err
	}
	to := bufio.NewWriterSize(w, 64<<10)
	lines := json.NewEncoder(to)
	lines.SetEscapeHTML(false)
	err = record.Each(folder, filter, func(it *record.Case) error {
		count++
		if it.Inputs, err = asker.Inputs(ctx, it); err != nil {
			return err
		}
		return lines.Encode(it)
	})
	if err == nil {
		err = to.Flush()
	}
	return count, err
}

func newAsker() (*record.Asker, error) {
	path, err := engine.Path()
	if err != nil {
		return nil, err
	}
	return &record.Asker{Path: path, Memory: 1 << 30}, nil
}

func exportJournalCommand() *cobra.Command {
	var filter record.Filter
	isCSV := false
	c := &cobra.Command{
		Use:     "export [OPTIONS] FOLDER",
		Short:   "Writes the cases of a journal as CSV or as lines of JSON",
		Long:    `CSV has a column for each input of the services: inputs.NAME. What is no text, number or truth value is JSON in its cell.`,
		Example: `  desk journal export --csv --service shipping journal > cases.csv`,
	}
	filterFlags(c.Flags(), &filter)
	c.Flags().BoolVar(&isCSV, "csv", false, "Write CSV in place of lines of JSON")
	c.RunE = func(c *cobra.Command, words []string) error {
		folder, err := folderOf(c, words, 1)
		if err != nil {
			return err
		}
		ctx, stop := untilStopped(c)
		defer stop()
		if !isCSV {
			_, err = writeCases(ctx, c.OutOrStdout(), folder, filter)
			return err
		}
		return writeCSV(ctx, c.OutOrStdout(), folder, filter)
	}
	return c
}

// caseColumns are the CSV columns before those of inputs.
var caseColumns = []string{"entry", "id", "request", "time", "token", "client", "service", "name", "version", "release", "program",
	"engine", "result", "problem", "rules", "redacted"}

func writeCSV(ctx context.Context, w io.Writer, folder string, filter record.Filter) error {
	asker, err := newAsker()
	if err != nil {
		return err
	}
	inputs, err := record.InputNames(folder, filter.Service)
	if err != nil {
		return err
	}
	to := csv.NewWriter(w)
	header := append([]string(nil), caseColumns...)
	for _, name := range inputs {
		header = append(header, "inputs."+name)
	}
	if err := to.Write(header); err != nil {
		return err
	}
	err = record.Each(folder, filter, func(it *record.Case) error {
		if it.Inputs, err = asker.Inputs(ctx, it); err != nil {
			return err
		}
		return to.Write(caseRow(it, inputs))
	})
	if err != nil {
		return err
	}
	to.Flush()
	return to.Error()
}

// caseRow returns a case as a CSV row.
func caseRow(it *record.Case, inputs []string) []string {
	problem := ""
	if it.Problem != nil {
		problem = strings.TrimSpace(it.Problem.Type + " " + it.Problem.Pointer)
	}
	entry := ""
	if it.Entry > 0 {
		entry = strconv.FormatUint(it.Entry, 10)
	}
	row := []string{entry, it.ID, it.Request, it.Time, it.Token, it.Client, it.Service, it.Name, it.Version, it.Release, it.Program,
		it.Engine, cell(it.Result), problem, ruleText(it), strings.Join(it.Redacted, " ")}
	var members map[string]json.RawMessage
	// Inputs that are not an object have no members.
	_ = json.Unmarshal(it.Inputs, &members)
	for _, name := range inputs {
		row = append(row, cell(members[name]))
	}
	return row
}

// cell returns a value as a cell: a text without its quotes.
func cell(value json.RawMessage) string {
	var text string
	if len(value) > 0 && value[0] == '"' && json.Unmarshal(value, &text) == nil {
		return text
	}
	return string(value)
}

// ruleText lists the rules that decided.
func ruleText(it *record.Case) string {
	var all []string
	for _, rule := range it.RuleList() {
		if rule.Default {
			all = append(all, rule.Decision+": default")
			continue
		}
		all = append(all, fmt.Sprintf("%s: rule %d", rule.Decision, rule.Rule))
	}
	if len(all) == 0 && len(it.Rules) > 0 {
		return cell(it.Rules)
	}
	return strings.Join(all, "; ")
}

func showCommand() *cobra.Command {
	var model string
	var reading profile.Options
	c := &cobra.Command{
		Use:   "show [OPTIONS] FOLDER ID",
		Short: "Shows a case as it was decided then, and whether it is decided alike now",
		Long: `It is decided again by this program's engine under the release of then, and under --model, or else the release last in the
journal. What was redacted isn't. The status is 1 if the release of then comes to another answer.`,
		Example: "  desk journal show journal a7",
	}
	c.Flags().StringVar(&model, "model", "", "Decide under the model of this `FILE` too")
	readingFlags(c.Flags(), &reading)
	c.RunE = func(c *cobra.Command, words []string) error {
		folder, err := folderOf(c, words, 2)
		if err != nil {
			return err
		}
		ctx, stop := untilStopped(c)
		defer stop()
		s := &showing{command: c, to: c.OutOrStdout()}
		if s.asker, err = newAsker(); err != nil {
			return err
		}
		if model != "" {
			if s.present, err = readModel(c, []string{model}, reading, c.PrintErrf); err != nil {
				return err
			}
			s.presentName = model
		}
		return reported(c.ErrOrStderr(), s.show(ctx, folder, words[1]))
	}
	return c
}

// A showing shows cases.
type showing struct {
	command     *cobra.Command
	to          io.Writer
	asker       *record.Asker
	present     *service.Source
	presentName string
	differs     bool
}

// mostShown limits the cases shown at once.
const mostShown = 100

func (s *showing) show(ctx context.Context, folder, id string) error {
	var found []*record.Case
	err := record.Each(folder, record.Filter{ID: id}, func(it *record.Case) error {
		if len(found) < mostShown {
			found = append(found, it)
		}
		return nil
	})
	if err != nil {
		return err
	}
	if len(found) == 0 {
		fmt.Fprintf(s.command.ErrOrStderr(), "the journal has no case %s\n", id)
		return ended(statusFault)
	}
	if s.present == nil {
		last, err := record.LastHead(folder)
		if err != nil {
			return err
		}
		if last != nil && last.Source != nil {
			s.present, s.presentName = last.Source, "the release last in the journal"
		}
	}
	for _, it := range found {
		if err := s.one(ctx, it); err != nil {
			return err
		}
	}
	if s.differs {
		return ended(statusFault)
	}
	return nil
}

// one shows a case.
func (s *showing) one(ctx context.Context, it *record.Case) error {
	inputs, err := s.asker.Inputs(ctx, it)
	if err != nil {
		return err
	}
	fmt.Fprintf(s.to, "case %s, entry %d, %s:%d\n", it.ID, it.Entry, it.Path, it.Line)
	release := it.Release
	if name := strings.TrimSpace(it.Name + " " + it.Version); name != "" {
		release = name + ", SHA-256 " + release
	}
	if it.Head != nil && it.Head.Release.Who != "" {
		release += fmt.Sprintf("; put by %s, %s", it.Head.Release.Who, it.Head.Release.When)
	}
	answer := string(it.Result)
	if it.Problem != nil {
		answer = "problem " + strings.TrimSpace(it.Problem.Type+" "+it.Problem.Pointer)
	}
	for _, line := range [][2]string{{"request", it.Request}, {"time", it.Time}, {"token", it.Token}, {"client", it.Client},
		{"release", release}, {"program", it.Program}, {"engine", it.Engine}, {"service", it.Service}, {"inputs", string(inputs)},
		{"redacted", strings.Join(it.Redacted, ", ")}, {"answer", answer}} {
		if line[1] != "" {
			fmt.Fprintf(s.to, "  %-9s %s\n", line[0], plain(line[1]))
		}
	}
	writeRules(s.to, it.RuleList())
	return s.again(ctx, it)
}

func writeRules(to io.Writer, rules []record.Rule) {
	for _, rule := range rules {
		text := fmt.Sprintf("%s: rule %d", rule.Decision, rule.Rule)
		if rule.Default {
			text = rule.Decision + ": no rule, its default"
		}
		if rule.ID != "" {
			text += ", id " + rule.ID
		}
		if len(rule.Annotations) > 0 {
			text += ": " + strings.Join(rule.Annotations, "; ")
		}
		fmt.Fprintf(to, "  decided   %s\n", plain(text))
	}
}

// again decides a case again, and reports whether the outcome is the same.
func (s *showing) again(ctx context.Context, it *record.Case) error {
	if !it.CanDecide() {
		_, err := fmt.Fprintln(s.to, "  now       not decided again: an input is redacted, or no engine answered it")
		return err
	}
	then, err := s.asker.Decide(ctx, it, it.Head.Source)
	if err != nil {
		return err
	}
	said, isSame := alike(then, it)
	s.differs = s.differs || !isSame
	fmt.Fprintf(s.to, "  now       by the release of then: %s\n", plain(said))
	if s.present == nil || s.present.Sum() == it.Release {
		return nil
	}
	now, err := s.asker.Decide(ctx, it, s.present)
	if err != nil {
		return err
	}
	said, isSame = alike(now, it)
	fmt.Fprintf(s.to, "  now       by %s, SHA-256 %s: %s\n", s.presentName, s.present.Sum(), plain(said))
	if !isSame {
		var rules []record.Rule
		_ = json.Unmarshal(now.Rules, &rules)
		writeRules(s.to, rules)
	}
	return nil
}

// alike compares a decision with the recorded answer, in words.
func alike(now *record.Decision, then *record.Case) (string, bool) {
	if then.Result == nil && then.Problem == nil {
		return now.String() + " (no answer was recorded)", true
	}
	if now.Same(then) {
		return "the same", true
	}
	return now.String() + ", another answer", false
}
