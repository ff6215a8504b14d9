package journal

import (
	"encoding/json"
	"errors"
	"fmt"
	"io/fs"
	"os"
	"path/filepath"
	"time"
)

// A kept is an ended file.
type kept struct {
	path string
	size int64
	// first and last are its entries' numbers; 0 for a file without any, from earlier versions.
	first, last uint64
	// at is the chain at the last entry.
	at link
	// ended is when it was last written.
	ended time.Time
}

func (f *file) kept(now time.Time) kept {
	return kept{path: f.os.Name(), size: f.synced, first: f.first, last: f.last, ended: now}
}

// prune removes the files past their time, after an entry about that. Whole files are removed, oldest first, and only those
// whose entries come before all that remain.
func (j *Journal) prune(now time.Time, to *file) error {
	count := j.prunable(now)
	if count == 0 {
		return nil
	}
	gone := j.past[:count]
	var last uint64
	names, paths := make([]string, count), make([]string, count)
	for at, it := range gone {
		names[at], paths[at] = filepath.Base(it.path), it.path
		if it.last > last {
			last = it.last
		}
	}
	if err := j.sayPruned(now, to, names, last); err != nil {
		return err
	}
	j.past = append([]kept(nil), j.past[count:]...)
	err := removeAll(paths)
	if err == nil {
		err = syncFolder(j.folder)
	}
	if j.options.Pruned != nil {
		j.options.Pruned(paths, last, err)
	}
	return nil
}

// removeAll removes files, and returns the first error. A missing file is not an error.
func removeAll(paths []string) (first error) {
	for _, path := range paths {
		if err := os.Remove(path); err != nil && !errors.Is(err, fs.ErrNotExist) && first == nil {
			first = err
		}
	}
	return first
}

// sayPruned writes the entry about removed files.
func (j *Journal) sayPruned(now time.Time, to *file, names []string, last uint64) error {
	text, err := json.Marshal(names)
	if err != nil {
		return err
	}
	before := j.chain.at
	about := fmt.Sprintf(`"pruned":%s,"last":%d,"time":%q`, text, last, now.UTC().Format(TimeForm))
	if err = to.write(j.chain.add(nil, &Entry{About: []byte(about)})); err == nil {
		err = to.sync()
	}
	if err == nil {
		to.last = j.chain.at.n
		return nil
	}
	j.chain.at = before
	j.end(now, to)
	if left := to.abandon(); left != nil {
		return &lostError{left}
	}
	return err
}

// prunable returns how many of the oldest files are due for removal.
func (j *Journal) prunable(now time.Time) int {
	total := int64(0)
	for _, it := range j.past {
		total += it.size
	}
	for _, f := range j.files {
		total += f.synced
	}
	count, last := 0, uint64(0)
	for at, it := range j.past {
		isOld := j.options.Keep > 0 && now.Sub(it.ended) > j.options.Keep
		if !isOld && (j.options.Limit <= 0 || total <= j.options.Limit) {
			break
		}
		total -= it.size
		if last < it.last {
			last = it.last
		}
		if last < j.firstFrom(at+1) {
			count = at + 1
		}
	}
	return count
}

// firstFrom returns the least number of an entry in the ended files from at on, and in the open ones.
func (j *Journal) firstFrom(at int) uint64 {
	least := j.chain.at.n + 1
	for _, it := range j.past[at:] {
		if it.first > 0 && it.first < least {
			least = it.first
		}
	}
	for _, f := range j.files {
		if f.first < least {
			least = f.first
		}
	}
	return least
}
