package release

import (
	"encoding/json"
	"errors"
	"fmt"
	"io/fs"
	"os"
	"path/filepath"
)

// A Tried says that a release was tried over recorded requests.
type Tried struct {
	// Sum is that of the release, Against that of the one that was in force.
	Sum       string   `json:"sha256"`
	Against   string   `json:"against"`
	Over      []string `json:"over"`
	Asked     int      `json:"asked"`
	Differing int      `json:"differing"`
	Who       string   `json:"who,omitempty"`
	When      string   `json:"when"`
}

// triedName is the folder of what was tried.
const triedName = "tried"

func triedPath(folder, sum, against string) string {
	return filepath.Join(folder, triedName, fmt.Sprintf("%.16s-%.16s%s", sum, against, suffix))
}

// KeepTried keeps that a release was tried, unless nothing was asked.
func KeepTried(folder string, it Tried) error {
	if it.Asked == 0 {
		return nil
	}
	text, err := json.MarshalIndent(it, "", "  ")
	if err != nil {
		return err
	}
	if err := os.MkdirAll(filepath.Join(folder, triedName), folderMode); err != nil {
		return fmt.Errorf("keeping that a release was tried: %w", err)
	}
	return write(triedPath(folder, it.Sum, it.Against), append(text, '\n'))
}

// ReadTried says how a release was tried against another; nil where it was not.
func ReadTried(folder, sum, against string) (*Tried, error) {
	text, err := os.ReadFile(triedPath(folder, sum, against))
	if errors.Is(err, fs.ErrNotExist) {
		return nil, nil
	}
	if err != nil {
		return nil, fmt.Errorf("reading how a release was tried: %w", err)
	}
	it := &Tried{}
	if err := json.Unmarshal(text, it); err != nil || it.Sum != sum || it.Against != against {
		return nil, nil
	}
	return it, nil
}
