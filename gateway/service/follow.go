package service

import (
	"bytes"
	"context"
	"errors"
	"fmt"
	"os"
	"path/filepath"
	"time"

	"gateway/lines"
	"gateway/release"
)

const (
	// followPause is the interval between looks at the folder of releases.
	followPause = 500 * time.Millisecond
	// againPause is the time until a release that could not be put in force is tried again.
	againPause = 5 * time.Second
	// originRelease is the origin of a model from the folder of releases.
	originRelease = "release"
)

// A following is what was last seen of the folder of releases.
type following struct {
	// seen is the text that names the release in force, failed the time when it could not be put in force, and said
	// what was logged then.
	seen   []byte
	failed time.Time
	said   string
}

// follow puts the release that the folder names in force, whenever that changes, until the context ends.
func (s *Service) follow(ctx context.Context) {
	ticker := time.NewTicker(followPause)
	defer ticker.Stop()
	for {
		select {
		case <-ctx.Done():
			return
		case <-ticker.C:
			s.followOnce(ctx, false)
		}
	}
}

// followOnce looks at the folder once. With anew it reads the release again even if the folder names the same one.
func (s *Service) followOnce(ctx context.Context, anew bool) {
	s.putting.Lock()
	defer s.putting.Unlock()
	active, text, err := release.ReadActive(s.options.Releases)
	it := &s.following
	if err == nil && bytes.Equal(text, it.seen) && !anew && (it.failed.IsZero() || time.Since(it.failed) < againPause) {
		return
	}
	if err == nil {
		it.seen = text
		err = s.switchTo(ctx, active)
	}
	if err == nil {
		it.failed, it.said = time.Time{}, ""
		return
	}
	if ctx.Err() != nil {
		return
	}
	it.failed = time.Now()
	s.metrics.releaseFaults.Inc()
	if said := err.Error(); said != it.said {
		it.said = said
		s.options.Log("the release in force stays as it is: %v", err)
	}
}

// switchTo puts a release in force unless it already is.
func (s *Service) switchTo(ctx context.Context, active *release.Active) error {
	source, err := s.readRelease(active)
	if err != nil {
		return err
	}
	before := s.model.Load()
	if before.wholeSum == source.Sum() && before.origin == originRelease && *before.release().namedBy() == *source.namedBy() {
		return nil
	}
	ctx, stop := context.WithTimeout(ctx, putPatience)
	defer stop()
	model, err := s.read(ctx, source, originRelease)
	if err != nil {
		return fmt.Errorf("%s: %w", active.File, err)
	}
	s.inForce(ctx, model, func() {
		s.logModel(fmt.Sprintf("the release %s is in force, put there by %s", model.called(), orNobody(active.Who)), before, model)
		s.logRelease(active.Who, before, model)
	})
	return nil
}

func orNobody(who string) string {
	if who == "" {
		return "nobody who said a name"
	}
	return who
}

// namedBy returns the name and version of a release; never nil.
func (s *Source) namedBy() *Release {
	if s.Release == nil {
		return &Release{}
	}
	return s.Release
}

func (r releasePage) namedBy() *Release { return &r.Release }

// called returns a model's release by name and version, or by its file.
func (m *served) called() string {
	it := m.source.namedBy()
	switch {
	case it.Name != "" && it.Version != "":
		return it.Name + " " + it.Version
	case it.Name != "":
		return it.Name
	}
	return m.wholeSum
}

// readRelease reads the file of a release.
func (s *Service) readRelease(active *release.Active) (*Source, error) {
	path := filepath.Join(s.options.Releases, active.File)
	text, err := os.ReadFile(path)
	if err != nil {
		return nil, fmt.Errorf("reading a release: %w", err)
	}
	source, err := ReadSource(text)
	if err != nil {
		return nil, fmt.Errorf("reading a release: %s: %w", path, err)
	}
	if sum := source.Sum(); active.Sum != "" && active.Sum != sum {
		return nil, fmt.Errorf("reading a release: %s has the SHA-256 %s, and %s was put in force", path, sum, active.Sum)
	}
	return source, nil
}

// firstRelease returns the release in force at the start, or the model of the command line if the folder names none.
func (s *Service) firstRelease(ctx context.Context) (*served, error) {
	active, text, err := release.ReadActive(s.options.Releases)
	if errors.Is(err, release.ErrNone) && s.options.Model != nil {
		s.options.Log("no release is in force in %s, so %s is served", s.options.Releases, s.options.Named)
		return s.read(ctx, s.options.Model, originFiles)
	}
	if err != nil {
		return nil, err
	}
	source, err := s.readRelease(active)
	if err != nil {
		return nil, err
	}
	s.following.seen = text
	model, err := s.read(ctx, source, originRelease)
	if err != nil {
		return nil, fmt.Errorf("%s: %w", filepath.Join(s.options.Releases, active.File), err)
	}
	return model, nil
}

// keepRelease writes a model that was put as a release, and names it as the one in force. If after isn't empty, the
// folder has to name the release with that SHA-256: another service may have put one that isn't followed here yet.
func (s *Service) keepRelease(model *served, after string) error {
	text, err := model.source.text()
	if err != nil {
		return err
	}
	it := model.source.Release
	next := release.Active{File: release.FileName(it.Name, it.Version), Sum: model.wholeSum, Who: it.Who, When: it.When, Why: it.Why}
	err = release.PutInForce(s.options.Releases, text, next, func(before *release.Active) error {
		if after == "" || before == nil {
			return nil
		}
		// A release that can't be read is in force nowhere.
		if source, err := s.readRelease(before); err == nil && source.Sum() != after {
			return fmt.Errorf("%w: the release in force has the SHA-256 %s", errMatch, source.Sum())
		}
		return nil
	})
	if err != nil {
		return err
	}
	_, s.following.seen, err = release.ReadActive(s.options.Releases)
	return err
}

// errMatch means that the release in force isn't the expected one.
var errMatch = errors.New("If-Match names another")

// versionForm is the form of a version made from a time.
const versionForm = "20060102T150405.000Z"

// released returns the release of a model that is put now: named by the query or the body, or else by the name of the
// previous one, with the time as version.
func (s *Service) released(source *Source, before *served, who caller, query func(string) string) *Release {
	now := time.Now().UTC()
	it := *source.namedBy()
	it.Who, it.When = who.name(), now.Format(time.RFC3339)
	for _, part := range []struct {
		word string
		to   *string
	}{{"name", &it.Name}, {"version", &it.Version}, {"why", &it.Why}} {
		if said := query(part.word); said != "" {
			*part.to = said
		}
	}
	if it.Name == "" {
		if it.Name = before.source.namedBy().Name; it.Name == "" {
			it.Name = "model"
		}
	}
	if it.Version == "" || source.Release == nil && query("version") == "" {
		it.Version = now.Format(versionForm)
	}
	return &it
}

// maxCalled is how many bytes a name or a version may have, maxWhy how many the reason.
const (
	maxCalled = 100
	maxWhy    = 1000
)

// problem says what is wrong with the names of a release.
func (r *Release) problem() *problem {
	if !lines.IsText(r.Name, maxCalled) || !lines.IsText(r.Version, maxCalled) || r.Why != "" && !lines.IsText(r.Why, maxWhy) {
		return problemHeader.with(fmt.Sprintf("a release's name and version are texts of 1 to %d bytes in UTF-8, and why is one of %d at most",
			maxCalled, maxWhy))
	}
	return nil
}
