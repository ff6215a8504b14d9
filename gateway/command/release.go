package command

import (
	"bytes"
	"context"
	"errors"
	"fmt"
	"os"
	"os/user"
	"path/filepath"
	"strings"
	"text/tabwriter"
	"time"
	"unicode"

	"github.com/spf13/cobra"
	"github.com/spf13/pflag"

	"gateway/engine"
	"gateway/near"
	"gateway/profile"
	"gateway/release"
	"gateway/service"
	"gateway/tell"
)

func releaseCommand() *cobra.Command {
	return group("release", "Keeps releases of a model in a folder, and puts them in force",
		`The folder is that of desk http --releases: each service that follows it serves the release in force within 2 seconds.
A release is a file that is never changed.`,
		listReleases(), putRelease(), tryRelease(), activateRelease(), backRelease())
}

// A said is what is said about a change.
type said struct{ who, why string }

func (s *said) add(flags *pflag.FlagSet) {
	flags.StringVar(&s.who, "who", "", "Say who does it (default the user)")
	flags.StringVar(&s.why, "why", "", "Say why")
}

// name returns who does it.
func (s *said) name() string {
	if s.who != "" {
		return s.who
	}
	if it, err := user.Current(); err == nil {
		return it.Username
	}
	return ""
}

func now() string { return time.Now().UTC().Format(time.RFC3339) }

// A kept is a release in a folder.
type kept struct {
	file string
	service.Release
	sum string
	err error
}

// readKept reads a file's release.
func readKept(folder, file string) (*service.Source, kept) {
	it := kept{file: file}
	text, err := os.ReadFile(filepath.Join(folder, file))
	if err != nil {
		it.err = err
		return nil, it
	}
	source, err := service.ReadSource(text)
	if err != nil {
		it.err = err
		return nil, it
	}
	if source.Release != nil {
		it.Release = *source.Release
	}
	it.sum = source.Sum()
	return source, it
}

// called returns a release's name and version, or its file.
func (k *kept) called() string {
	if name := strings.TrimSpace(k.Name + " " + k.Version); name != "" {
		return name
	}
	return k.file
}

func readAllKept(folder string) ([]kept, error) {
	files, err := release.Files(folder)
	if err != nil {
		return nil, err
	}
	all := make([]kept, len(files))
	for at, file := range files {
		_, all[at] = readKept(folder, file)
	}
	return all, nil
}

// leastSum is the least number of digits of a sum that name a release.
const leastSum = 6

// findKept finds the release in a folder that a word names: its file, its name and version, or a prefix of its sum.
func findKept(folder, word string) (kept, error) {
	all, err := readAllKept(folder)
	if err != nil {
		return kept{}, err
	}
	var found []kept
	for _, it := range all {
		if it.file == word || it.file == word+".json" || it.called() == word ||
			len(word) >= leastSum && strings.HasPrefix(it.sum, strings.ToLower(word)) {
			found = append(found, it)
		}
	}
	switch {
	case len(found) == 0:
		var names []string
		for _, it := range all {
			names = append(names, it.called())
		}
		hint := ""
		if nearest := near.To(word, names); nearest != "" {
			hint = fmt.Sprintf("; did you mean %q?", nearest)
		}
		return kept{}, wrong("%s has no release %q%s", folder, word, hint)
	case len(found) > 1:
		return kept{}, wrong("%q is %s and %s", word, found[0].called(), found[1].called())
	}
	return found[0], found[0].err
}

func listReleases() *cobra.Command {
	c := &cobra.Command{
		Use:   "list FOLDER",
		Short: "Lists the releases of a folder; * marks the one in force",
	}
	c.RunE = func(c *cobra.Command, words []string) error {
		folder, err := folderOf(c, words, 1)
		if err != nil {
			return err
		}
		all, err := readAllKept(folder)
		if err != nil {
			return err
		}
		active, _, err := release.ReadActive(folder)
		if err != nil && !errors.Is(err, release.ErrNone) {
			return err
		}
		to := tabwriter.NewWriter(c.OutOrStdout(), 0, 8, 2, ' ', 0)
		for _, it := range all {
			mark := " "
			if active != nil && active.File == it.file {
				mark = "*"
			}
			if it.err != nil {
				fmt.Fprintf(to, "%s %s\t%v\n", mark, it.file, it.err)
				continue
			}
			fields := []string{mark + " " + plain(it.called()), it.sum[:12], plain(it.When), plain(it.Who), plain(it.Why)}
			fmt.Fprintln(to, strings.TrimRight(strings.Join(fields, "\t"), "\t"))
		}
		return to.Flush()
	}
	return c
}

// plain returns a text on one line, without terminal escapes.
func plain(text string) string {
	return strings.Map(func(r rune) rune {
		if unicode.IsPrint(r) {
			return r
		}
		return ' '
	}, text)
}

func putRelease() *cobra.Command {
	var it service.Release
	var by said
	var reading profile.Options
	c := &cobra.Command{
		Use:   "put [OPTIONS] --name NAME --version VERSION FOLDER MODEL.json|FILE.dmn..",
		Short: "Checks a model, and keeps it as a release; it is not put in force",
		Example: `  desk release put --name loan --version 1.4 --why "new limits" releases loan.dmn
  desk release activate releases "loan 1.4"`,
	}
	flags := c.Flags()
	flags.StringVar(&it.Name, "name", "", "Call it by this `NAME`")
	flags.StringVar(&it.Version, "version", "", "Give it this `VERSION`")
	by.add(flags)
	readingFlags(flags, &reading)
	c.RunE = func(c *cobra.Command, words []string) error {
		if len(words) < 2 || it.Name == "" || it.Version == "" {
			return wrong("a name, a version, a folder and a model are due: %s", usageOf(c))
		}
		ctx, stop := untilStopped(c)
		defer stop()
		it.Who, it.Why, it.When = by.name(), by.why, now()
		return reported(c.ErrOrStderr(), runPut(ctx, c, words[0], words[1:], it, reading))
	}
	return c
}

func runPut(ctx context.Context, c *cobra.Command, folder string, files []string, it service.Release, reading profile.Options) error {
	source, err := readModel(c, files, reading, func(form string, words ...any) { c.PrintErrf(form+"\n", words...) })
	if err != nil {
		return err
	}
	path, err := engine.Path()
	if err != nil {
		return err
	}
	if _, err := service.Ask(ctx, path, 1<<30, source); err != nil {
		return err
	}
	source.Release = &it
	text, err := source.Whole()
	if err != nil {
		return err
	}
	file := release.FileName(it.Name, it.Version)
	if known, before := readKept(folder, file); known != nil && before.sum == source.Sum() {
		fmt.Fprintf(c.OutOrStdout(), "%s is kept already, SHA-256 %s\n", before.called(), before.sum)
		return nil
	}
	if err := release.Put(folder, file, text); err != nil {
		return err
	}
	_, err = fmt.Fprintf(c.OutOrStdout(), "%s %s is kept as %s, SHA-256 %s\n", it.Name, it.Version, filepath.Join(folder, file), source.Sum())
	return err
}

// What activate may require of a release.
const (
	needsChecked = "checked"
	needsTried   = "tried"
)

// meets returns why a release doesn't meet the requirements, or nil; and the file that it was tried against, if that is required.
func meets(ctx context.Context, folder string, it kept, required []string) (against string, err error) {
	source, _ := readKept(folder, it.file)
	for _, word := range required {
		switch word {
		case needsChecked:
			if err := checked(ctx, it, source.Text); err != nil {
				return "", err
			}
		case needsTried:
			active, _, err := release.ReadActive(folder)
			if err != nil {
				return "", err
			}
			_, inForce := readKept(folder, active.File)
			tried, err := release.ReadTried(folder, it.sum, inForce.sum)
			if err != nil {
				return "", err
			}
			if tried == nil {
				return "", refused(fmt.Errorf("%s is not in force, since it was not tried against %s: desk release try --over JOURNAL %s %q",
					it.called(), inForce.called(), folder, it.called()))
			}
			against = active.File
		default:
			return "", wrong("--require takes %s and %s, not %q", needsChecked, needsTried, word)
		}
	}
	return against, nil
}

// checked returns why check --tables --strict refuses a model, or nil.
func checked(ctx context.Context, it kept, model []byte) error {
	path, err := engine.Path()
	if err != nil {
		return err
	}
	var said bytes.Buffer
	options := tell.CheckOptions{Tables: true, Strict: true, Format: tell.Text, Version: version}
	status, err := tell.Check(ctx, path, options, bytes.NewReader(model), &said, &said)
	if err != nil {
		return engine.NotStarted(path, err)
	}
	if status != statusDone {
		return refused(fmt.Errorf("%s is not in force, since check --tables --strict refuses it:\n%s", it.called(), strings.TrimSpace(said.String())))
	}
	return nil
}

func activateRelease() *cobra.Command {
	var by said
	var required []string
	c := &cobra.Command{
		Use:   "activate [OPTIONS] FOLDER RELEASE",
		Short: "Puts a release in force",
		Long: `A release is named by name and version with a blank between, by its file, or by the beginning of its sum. The one before
stays, and desk release back puts it in force again.`,
		Example: `  desk release activate releases "loan 1.4"`,
	}
	by.add(c.Flags())
	c.Flags().StringSliceVar(&required, "require", nil,
		"Require these `WORDS`: checked (check --tables --strict takes it), tried (release try ran against the one in force)")
	c.RunE = func(c *cobra.Command, words []string) error {
		folder, err := folderOf(c, words, 2)
		if err != nil {
			return err
		}
		it, err := findKept(folder, words[1])
		if err != nil {
			return err
		}
		against, err := meets(c.Context(), folder, it, required)
		if err != nil {
			return err
		}
		next := release.Active{File: it.file, Sum: it.sum, Who: by.name(), When: now(), Why: by.why}
		err = release.Activate(folder, next, func(before *release.Active) error {
			if against != "" && (before == nil || before.File != against) {
				return refused(fmt.Errorf("%s is not in force, since another release than %s, against which it was tried, is by now", it.called(), against))
			}
			return nil
		})
		if err != nil {
			return err
		}
		_, err = fmt.Fprintf(c.OutOrStdout(), "%s is in force, SHA-256 %s\n", it.called(), it.sum)
		return err
	}
	return c
}

func backRelease() *cobra.Command {
	var by said
	c := &cobra.Command{
		Use:   "back [OPTIONS] FOLDER",
		Short: "Puts the release in force that was before",
	}
	by.add(c.Flags())
	c.RunE = func(c *cobra.Command, words []string) error {
		folder, err := folderOf(c, words, 1)
		if err != nil {
			return err
		}
		var it kept
		_, err = release.Back(folder, func(file string) (release.Active, error) {
			_, it = readKept(folder, file)
			return release.Active{File: file, Sum: it.sum, Who: by.name(), When: now(), Why: by.why}, it.err
		})
		if err != nil {
			return err
		}
		_, err = fmt.Fprintf(c.OutOrStdout(), "%s is in force, SHA-256 %s\n", it.called(), it.sum)
		return err
	}
	return c
}
