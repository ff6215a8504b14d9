package command

import (
	"bufio"
	"context"
	"encoding/csv"
	"fmt"
	"io"
	"os"
	"sync/atomic"

	"github.com/spf13/cobra"

	"gateway/compare"
	"gateway/profile"
	"gateway/record"
	"gateway/release"
	"gateway/service"
)

// tryOptions are the options of release try.
type tryOptions struct {
	filter  record.Filter
	over    []string
	against string
	csv     string
	by      said
	reading profile.Options
}

func tryRelease() *cobra.Command {
	var o tryOptions
	c := &cobra.Command{
		Use:   "try [OPTIONS] --over JOURNAL FOLDER RELEASE|MODEL.json|FILE.dmn",
		Short: "Says which recorded requests would get another answer from a release",
		Long: `Both the release in force and the other one are asked again. What differs between the models is listed, then how many
answers differ by which rules, and the first 20 of them. Requests with redacted inputs are counted apart. That a release
was tried is kept in the folder. The status is 1 if an answer differs.`,
		Example: `  desk release try --over journal --from 2026-11-01 --csv differing.csv releases "loan 1.5"`,
	}
	flags := c.Flags()
	flags.StringArrayVar(&o.over, "over", nil, "Ask the requests of this `JOURNAL`; may come several times")
	flags.StringVar(&o.against, "against", "", "Hold it against this `RELEASE` or model, not the one in force")
	flags.StringVar(&o.csv, "csv", "", "Write all that differ to this `FILE`")
	filterFlags(flags, &o.filter)
	flags.StringVar(&o.by.who, "who", "", "Say who tries it (default the user)")
	translationFlags(flags, &o.reading)
	c.RunE = func(c *cobra.Command, words []string) error {
		folder, err := folderOf(c, words[:least(len(words), 1)], 1)
		if err != nil {
			return err
		}
		if len(words) != 2 || len(o.over) == 0 {
			return wrong("a journal, a folder and a release are due: %s", usageOf(c))
		}
		ctx, stop := untilStopped(c)
		defer stop()
		t := &trying{command: c, options: o, folder: folder}
		return reported(c.ErrOrStderr(), t.run(ctx, words[1]))
	}
	return c
}

func least(one, other int) int {
	if one < other {
		return one
	}
	return other
}

// A trying is one run of release try.
type trying struct {
	command  *cobra.Command
	options  tryOptions
	folder   string
	old, new *service.Source
	// newFile is the new release's file; empty for a model.
	newFile string
	listed  []*record.Difference
	table   *csv.Writer
}

// mostTried limits the listed requests that differ.
const mostTried = 20

func (t *trying) run(ctx context.Context, word string) (err error) {
	if t.new, t.newFile, err = t.model(word); err != nil {
		return err
	}
	if err = t.readOld(); err != nil {
		return err
	}
	changes, err := compare.Models(t.old, t.new)
	if err != nil {
		return refused(err)
	}
	tried, err := t.askAll(ctx)
	if err != nil {
		return err
	}
	if err := t.keep(tried); err != nil {
		return err
	}
	if err := t.write(changes, tried); err != nil {
		return err
	}
	if tried.Differing > 0 {
		return ended(statusFault)
	}
	return nil
}

// askAll asks both models, and writes the table of differences.
func (t *trying) askAll(ctx context.Context) (tried *record.Tried, err error) {
	if t.options.csv == "" {
		return t.ask(ctx)
	}
	file, err := os.Create(t.options.csv)
	if err != nil {
		return nil, err
	}
	t.table = csv.NewWriter(file)
	err = t.table.Write([]string{"id", "request", "time", "service", "inputs", "old", "new", "rules"})
	if err == nil {
		tried, err = t.ask(ctx)
	}
	t.table.Flush()
	if written := firstOf(t.table.Error(), file.Close()); written != nil && err == nil {
		err = fmt.Errorf("writing %s: %w", t.options.csv, written)
	}
	return tried, err
}

// model reads a release from the folder, or else a model.
func (t *trying) model(word string) (*service.Source, string, error) {
	it, err := findKept(t.folder, word)
	if err == nil {
		source, it := readKept(t.folder, it.file)
		return source, it.file, it.err
	}
	if _, missing := os.Stat(word); missing != nil {
		return nil, "", err
	}
	source, err := readModel(t.command, []string{word}, t.options.reading, func(form string, words ...any) { t.command.PrintErrf(form+"\n", words...) })
	return source, "", err
}

// readOld reads the current release, or the one to compare with.
func (t *trying) readOld() (err error) {
	if t.options.against != "" {
		t.old, _, err = t.model(t.options.against)
		return err
	}
	active, _, err := release.ReadActive(t.folder)
	if err != nil {
		return err
	}
	source, it := readKept(t.folder, active.File)
	t.old = source
	return it.err
}

// ask asks both models over all journals.
func (t *trying) ask(ctx context.Context) (*record.Tried, error) {
	asker, err := newAsker()
	if err != nil {
		return nil, err
	}
	var before, done atomic.Int64
	trial := &record.Trial{Asker: asker, Old: t.old, New: t.new, Asked: func(count int) error {
		done.Store(before.Load() + int64(count))
		return nil
	}}
	shown := showProgress(t.command.ErrOrStderr(), "trying", unit{"requests", 1}, 0, done.Load)
	defer shown.stop()
	all := &record.Tried{By: map[string]int{}}
	for _, journal := range t.options.over {
		tried, err := trial.Run(ctx, journal, t.options.filter, t.take)
		if err != nil {
			return nil, err
		}
		all.Add(tried)
		before.Store(int64(all.Asked))
	}
	return all, nil
}

// take lists a request with another answer.
func (t *trying) take(it *record.Difference) error {
	if len(t.listed) < mostTried {
		t.listed = append(t.listed, it)
	}
	if t.table == nil {
		return nil
	}
	return t.table.Write([]string{it.Case.ID, it.Case.Request, it.Case.Time, it.Case.Service, string(it.Inputs), it.Old, it.New, it.Where})
}

// keep records that a release of the folder was tried.
func (t *trying) keep(tried *record.Tried) error {
	if t.newFile == "" {
		return nil
	}
	return release.KeepTried(t.folder, release.Tried{Sum: t.new.Sum(), Against: t.old.Sum(), Over: t.options.over, Asked: tried.Asked,
		Differing: tried.Differing, Who: t.options.by.name(), When: now()})
}

func (t *trying) write(changes []compare.Change, tried *record.Tried) error {
	to := bufio.NewWriter(t.command.OutOrStdout())
	for _, change := range changes {
		fmt.Fprintln(to, plain(change.String()))
	}
	fmt.Fprintf(to, "%d requests asked, %d get another answer", tried.Asked, tried.Differing)
	if tried.Left > 0 {
		fmt.Fprintf(to, ", %d can't be asked again", tried.Left)
	}
	fmt.Fprintln(to)
	for _, where := range tried.Counts() {
		fmt.Fprintf(to, "%8d  %s\n", tried.By[where], plain(where))
	}
	for _, it := range t.listed {
		writeDifference(to, it)
	}
	if left := tried.Differing - len(t.listed); left > 0 {
		fmt.Fprintf(to, "%d more; --csv FILE has all\n", left)
	}
	return to.Flush()
}

func writeDifference(to io.Writer, it *record.Difference) {
	fmt.Fprintf(to, "%s %s: %s -> %s\n", it.Case.ID, it.Inputs, plain(it.Old), plain(it.New))
}
