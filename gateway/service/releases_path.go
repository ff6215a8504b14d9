package service

import (
	"errors"
	"fmt"
	"io/fs"
	"net/http"
	"os"
	"path/filepath"
	"sync"

	"gateway/release"
)

// A releaseLine is a release of the folder.
type releaseLine struct {
	releasePage
	File     string `json:"file"`
	IsActive bool   `json:"active"`
	// Fault is why it can't be read, or empty.
	Fault string `json:"fault,omitempty"`
}

// readReleases keeps what was read from release files. They don't change, so each is read once. If another file takes
// its place, that is read.
type readReleases struct {
	mu  sync.Mutex
	all map[string]readRelease
}

// A readRelease is what was read from a file.
type readRelease struct {
	about fs.FileInfo
	line  releaseLine
}

// isOf reports whether it was read from this file, in its present state.
func (r *readRelease) isOf(about fs.FileInfo) bool {
	return r.about != nil && os.SameFile(r.about, about) && r.about.Size() == about.Size() && r.about.ModTime().Equal(about.ModTime())
}

// read reads a file, unless it is known.
func (r *readReleases) read(folder, file string) (it readRelease) {
	about, err := os.Stat(filepath.Join(folder, file))
	if known, is := r.all[file]; is && err == nil && known.isOf(about) {
		return known
	}
	it = readRelease{about: about, line: releaseLine{File: file}}
	var source *Source
	if err == nil {
		source, err = readSourceIn(folder, file)
	}
	if err != nil {
		it.line.Fault = fmt.Sprint(err)
		return it
	}
	it.line.releasePage = releasePage{source.Sum(), *source.namedBy()}
	return it
}

func readSourceIn(folder, file string) (*Source, error) {
	text, err := os.ReadFile(filepath.Join(folder, file))
	if err != nil {
		return nil, err
	}
	return ReadSource(text)
}

// sourceIn returns the release in a file of the folder.
func (s *Service) sourceIn(file string) (*Source, *problem) {
	source, err := readSourceIn(s.options.Releases, file)
	if err != nil {
		return nil, problemInside.with(err.Error())
	}
	return source, nil
}

// releases returns those of the folder, by their files' names.
func (s *Service) releases() ([]releaseLine, error) {
	folder, r := s.options.Releases, &s.readReleases
	files, err := release.Files(folder)
	if err != nil {
		return nil, err
	}
	active, _, err := release.ReadActive(folder)
	if err != nil && !errors.Is(err, release.ErrNone) {
		return nil, err
	}
	r.mu.Lock()
	defer r.mu.Unlock()
	all, known := make([]releaseLine, len(files)), make(map[string]readRelease, len(files))
	for at, file := range files {
		it := r.read(folder, file)
		known[file], all[at] = it, it.line
		all[at].IsActive = active != nil && active.File == file
	}
	r.all = known
	return all, nil
}

// releasesPath answers GET /v1/releases.
func (s *Service) releasesPath(w http.ResponseWriter, r *http.Request) {
	if !takes(w, r, http.MethodGet, http.MethodHead) {
		return
	}
	_, p := s.caller(r)
	if p == nil && s.options.Releases == "" {
		p = problemPath.with("there is no folder of releases")
	}
	var all []releaseLine
	if p == nil {
		var err error
		if all, err = s.releases(); err != nil {
			p = problemInside.with(err.Error())
		}
		// Reading many for the first time takes long.
		limitWrite(r, longAnswer+1)
	}
	if p != nil {
		p.write(w, w.Header().Get("X-Request-Id"))
		return
	}
	writePage(w, http.StatusOK, map[string]any{"releases": all})
}
