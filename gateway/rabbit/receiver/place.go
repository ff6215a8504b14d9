package receiver

import (
	"crypto/sha256"
	"encoding/hex"
	"encoding/json"
	"errors"
	"fmt"
	"io"
	"io/fs"
	"os"
	"path/filepath"

	"gateway/rabbit/ledger"
)

// A place is a receiver's place in the answers of one partition.
type place struct {
	Stream int64        `json:"stream"`         // the offset of the last message read, or -1
	Known  bool         `json:"known"`          // whether Upto is known
	Upto   ledger.Place `json:"upto"`           // the last line whose answer was written
	Hole   bool         `json:"hole,omitempty"` // whether offsets are missing since then
	Over   bool         `json:"over,omitempty"` // whether it no longer counts: its keys have other partitions
}

// A places is the content of the --place file.
type places struct {
	Partitions []place       `json:"partitions"`       // of the first number of partitions
	Later      []epochPlaces `json:"epochs,omitempty"` // of later numbers
	Output     int64         `json:"output"`           // how many bytes of the output belong to it
	Sum        string        `json:"sum"`              // SHA-256 of their last sumBytes
}

// An epochPlaces has the places of the partitions of one number.
type epochPlaces struct {
	Epoch      int64   `json:"epoch"`
	Partitions []place `json:"partitions"`
}

// epochs returns the places for each number of partitions.
func (p *places) epochs() []epochPlaces {
	return append([]epochPlaces{{Partitions: p.Partitions}}, p.Later...)
}

// sumBytes is how much of an output's end is summed: enough to recognize another file, and little to read back.
const sumBytes = 1 << 20

// sumBefore returns the sum of the end of a file of this length.
func sumBefore(file *os.File, length int64) (string, error) {
	begin := length - sumBytes
	if begin < 0 {
		begin = 0
	}
	hash := sha256.New()
	if _, err := io.Copy(hash, io.NewSectionReader(file, begin, length-begin)); err != nil {
		return "", err
	}
	return hex.EncodeToString(hash.Sum(nil)), nil
}

// readPlaces reads the file; nil if there is none.
func readPlaces(path string, partitions int) (*places, error) {
	text, err := os.ReadFile(path)
	if errors.Is(err, fs.ErrNotExist) {
		return nil, nil
	}
	if err != nil {
		return nil, fmt.Errorf("reading the place: %w", err)
	}
	var p places
	if err := json.Unmarshal(text, &p); err != nil {
		return nil, fmt.Errorf("reading the place in %s: %w", path, err)
	}
	if len(p.Partitions) != partitions {
		return nil, fmt.Errorf("the place in %s is one of %d partitions, not of %d", path, len(p.Partitions), partitions)
	}
	return &p, nil
}

// write replaces the whole file.
func (p *places) write(path string) error {
	text, err := json.Marshal(p)
	if err != nil {
		return fmt.Errorf("writing the place: %w", err)
	}
	file, err := os.CreateTemp(filepath.Dir(path), filepath.Base(path)+".*")
	if err != nil {
		return fmt.Errorf("writing the place: %w", err)
	}
	_, err = file.Write(append(text, '\n'))
	if err == nil {
		err = file.Sync()
	}
	if closed := file.Close(); err == nil {
		err = closed
	}
	if err == nil {
		err = os.Rename(file.Name(), path)
	}
	if err != nil {
		os.Remove(file.Name())
		return fmt.Errorf("writing the place: %w", err)
	}
	return nil
}
