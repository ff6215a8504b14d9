package journal

import (
	"bufio"
	"errors"
	"fmt"
	"io/fs"
	"os"
	"path/filepath"
	"syscall"
	"time"
)

const (
	// nameForm is the form of a file's name, in UTC: files in name order are in time order.
	nameForm = "2006-01-02T150405.000000Z"
	suffix   = ".jsonl"
	// fileMode and folderMode let only the owner read what was decided about people.
	fileMode   = 0o600
	folderMode = 0o700
)

// A file is a file open for writing.
type file struct {
	model Model
	os    *os.File
	to    *bufio.Writer
	// size is what was passed to the writer, synced what is on disk.
	size, synced int64
	// begun is when it was created; first and last are its entries' numbers.
	begun       time.Time
	first, last uint64
}

// create begins a file with its model and the line about it, and syncs its name.
func create(folder string, now time.Time, model Model, chain *chainer) (*file, error) {
	var opened *os.File
	for name := now; ; name = name.Add(time.Microsecond) {
		var err error
		path := filepath.Join(folder, name.UTC().Format(nameForm)+suffix)
		opened, err = os.OpenFile(path, os.O_CREATE|os.O_EXCL|os.O_WRONLY, fileMode)
		if err == nil {
			break
		}
		if !errors.Is(err, fs.ErrExist) {
			return nil, err
		}
	}
	f := &file{model: model, os: opened, to: bufio.NewWriterSize(opened, 256<<10), begun: now, first: chain.at.n + 1}
	f.last = f.first
	err := f.write(chain.add(nil, &Entry{Asked: model.AppendLine(nil), About: aboutFile(now, model, chain.at)}))
	if err == nil {
		err = f.sync()
	}
	if err == nil {
		err = syncFolder(folder)
	}
	if err == nil {
		return f, nil
	}
	if left := f.abandon(); left != nil {
		return nil, &lostError{left}
	}
	return nil, err
}

// A lostError ends a journal: its files are not what was recorded.
type lostError struct{ error }

func (l *lostError) Unwrap() error { return l.error }

// aboutFile returns the line about a file's beginning.
func aboutFile(now time.Time, model Model, before link) []byte {
	about := fmt.Sprintf(`"begins":true,"form":2,"time":%q,"before":"%s"`, now.UTC().Format(TimeForm), before)
	if it, is := model.(Described); is {
		return it.AppendAbout(append([]byte(about), ','))
	}
	return []byte(about)
}

// makeFolder makes a missing folder, and syncs its name.
func makeFolder(folder string) error {
	if _, err := os.Stat(folder); err == nil {
		return nil
	}
	if err := os.MkdirAll(folder, folderMode); err != nil {
		return err
	}
	return syncFolder(filepath.Dir(folder))
}

func syncFolder(folder string) error {
	opened, err := os.Open(folder)
	if err != nil {
		return err
	}
	defer opened.Close()
	return opened.Sync()
}

func (f *file) write(text []byte) error {
	n, err := f.to.Write(text)
	f.size += int64(n)
	return err
}

// syncFile syncs a file to disk.
var syncFile = (*os.File).Sync

func (f *file) sync() error {
	if err := f.to.Flush(); err != nil {
		return err
	}
	if err := syncFile(f.os); err != nil {
		return err
	}
	f.synced = f.size
	return nil
}

// look reports what others did to an open file: its name is gone or leads to another file, or its size has changed.
func (f *file) look() error {
	own, err := f.os.Stat()
	if err != nil {
		return fmt.Errorf("looking at %s: %w", f.os.Name(), err)
	}
	if own.Size() != f.synced {
		return fmt.Errorf("%s has %d bytes, and %d were written", f.os.Name(), own.Size(), f.synced)
	}
	if it, is := own.Sys().(*syscall.Stat_t); is && it.Nlink == 0 {
		return fmt.Errorf("%s was deleted", f.os.Name())
	}
	named, err := os.Lstat(f.os.Name())
	if err != nil {
		return fmt.Errorf("%s was moved: %w", f.os.Name(), err)
	}
	if !os.SameFile(own, named) {
		return fmt.Errorf("%s was replaced", f.os.Name())
	}
	return nil
}

// abandon cuts a failed file to what was synced, and closes it. It removes an empty one. An error means that the file may have
// entries that were not recorded.
func (f *file) abandon() error {
	defer f.os.Close()
	if f.synced == 0 {
		if err := os.Remove(f.os.Name()); err != nil && !errors.Is(err, fs.ErrNotExist) {
			return fmt.Errorf("removing what was written in part: %w", err)
		}
		return nil
	}
	if err := f.os.Truncate(f.synced); err != nil {
		return fmt.Errorf("cutting what was written in part: %w", err)
	}
	// If the disk fails, the next file fails too.
	_ = f.os.Sync()
	return nil
}

func (f *file) close() error {
	return f.os.Close()
}
