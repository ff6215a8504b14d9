// Package release keeps releases of a model in a folder: a file for each, and one that names the release in force.
//
// The files are never changed. The one that names the release in force is replaced by a rename, so whoever reads the folder
// sees the one before or the one after, and following it needs no more than reading it again.
package release

import (
	"bytes"
	"crypto/sha256"
	"encoding/hex"
	"encoding/json"
	"errors"
	"fmt"
	"io/fs"
	"os"
	"path/filepath"
	"sort"
	"strings"
	"syscall"
)

// An Active names the release in force. File is its name in the folder; Sum, if it is not empty, is what its sum has to be.
type Active struct {
	File string `json:"file"`
	Sum  string `json:"sha256,omitempty"`
	Who  string `json:"who,omitempty"`
	When string `json:"when,omitempty"`
	Why  string `json:"why,omitempty"`
	// Former has the files that were in force before, the last one last.
	Former []string `json:"former,omitempty"`
}

const (
	activeName = "active.json"
	lockName   = "lock"
	suffix     = ".json"
	fileMode   = 0o644
	folderMode = 0o755
	// mostFormer is how many releases before are named.
	mostFormer = 100
)

// ErrExists says that a folder has a release of this name and version.
var ErrExists = errors.New("there is such a release, and releases are not changed; give another version")

// ErrNone says that no release is in force.
var ErrNone = errors.New("no release is in force")

// ReadActive reads which release is in force, and the text that says so; ErrNone where none is.
func ReadActive(folder string) (*Active, []byte, error) {
	text, err := os.ReadFile(filepath.Join(folder, activeName))
	if errors.Is(err, fs.ErrNotExist) {
		if _, err := os.Stat(folder); err != nil {
			return nil, nil, fmt.Errorf("reading the releases: %w", err)
		}
		return nil, nil, fmt.Errorf("%w in %s", ErrNone, folder)
	}
	if err != nil {
		return nil, nil, fmt.Errorf("reading the releases: %w", err)
	}
	active := &Active{}
	if err := json.Unmarshal(text, active); err != nil {
		return nil, text, fmt.Errorf("reading the releases: %s: %w", filepath.Join(folder, activeName), err)
	}
	if !isName(active.File) {
		return nil, text, fmt.Errorf("reading the releases: %s: %q is no file of a release", filepath.Join(folder, activeName), active.File)
	}
	return active, text, nil
}

// isName says whether a name is that of a release's file.
func isName(name string) bool {
	return name == filepath.Base(name) && strings.HasSuffix(name, suffix) && name != activeName && !strings.HasPrefix(name, ".")
}

// Files are the names of the releases' files, in order.
func Files(folder string) (names []string, err error) {
	entries, err := os.ReadDir(folder)
	if err != nil {
		return nil, fmt.Errorf("reading the releases: %w", err)
	}
	for _, it := range entries {
		if isName(it.Name()) {
			names = append(names, it.Name())
		}
	}
	sort.Strings(names)
	return names, nil
}

// FileName is the name of the file of a release.
func FileName(name, version string) string {
	whole := name + "-" + version
	made := strings.Map(func(r rune) rune {
		if r >= 'a' && r <= 'z' || r >= 'A' && r <= 'Z' || r >= '0' && r <= '9' || strings.ContainsRune("._-+", r) {
			return r
		}
		return '_'
	}, whole)
	if made != whole || strings.HasPrefix(made, ".") || made+suffix == activeName {
		sum := sha256.Sum256([]byte(name + "\x00" + version))
		made = strings.TrimLeft(made, ".") + "-" + hex.EncodeToString(sum[:4])
	}
	return made + suffix
}

// Put adds the file of a release.
func Put(folder, file string, text []byte) error {
	if err := os.MkdirAll(folder, folderMode); err != nil {
		return fmt.Errorf("keeping a release: %w", err)
	}
	return locked(folder, func() error { return add(folder, file, text) })
}

// add adds the file of a release, unless it is there.
func add(folder, file string, text []byte) error {
	path := filepath.Join(folder, file)
	if known, err := os.ReadFile(path); err == nil {
		if bytes.Equal(known, text) {
			return nil
		}
		return fmt.Errorf("%s: %w", path, ErrExists)
	}
	return write(path, text)
}

// A Check says why a release may not be put in force after the one before, which is nil where there is none. No change comes
// between its answer and the change that it allows. It may be nil.
type Check func(before *Active) error

// Activate puts a release in force. The one before is named as former.
func Activate(folder string, next Active, check Check) error {
	return locked(folder, func() error {
		if _, err := os.Stat(filepath.Join(folder, next.File)); err != nil {
			return fmt.Errorf("putting a release in force: %w", err)
		}
		return next.follow(folder, check, func() error { return nil })
	})
}

// PutInForce adds the file of a release and puts it in force; neither where the check refuses it.
func PutInForce(folder string, text []byte, next Active, check Check) error {
	return locked(folder, func() error {
		return next.follow(folder, check, func() error { return add(folder, next.File, text) })
	})
}

// follow puts a release in force after the one before, once it is made.
func (next *Active) follow(folder string, check Check, make func() error) error {
	before, _, err := ReadActive(folder)
	if err != nil && !errors.Is(err, ErrNone) {
		return err
	}
	if check != nil {
		if err := check(before); err != nil {
			return err
		}
	}
	if err := make(); err != nil {
		return err
	}
	switch {
	case before == nil:
	case before.File == next.File:
		next.Former = before.Former
	default:
		next.Former = append(before.Former, before.File)
	}
	return writeActive(folder, *next)
}

// Back puts the release in force that was before, and gives it.
func Back(folder string, make func(file string) (Active, error)) (Active, error) {
	var next Active
	err := locked(folder, func() error {
		now, _, err := ReadActive(folder)
		if err != nil {
			return err
		}
		last := len(now.Former) - 1
		if last < 0 {
			return fmt.Errorf("%w before %s", ErrNone, now.File)
		}
		if next, err = make(now.Former[last]); err != nil {
			return err
		}
		next.Former = now.Former[:last]
		return writeActive(folder, next)
	})
	return next, err
}

func writeActive(folder string, next Active) error {
	if over := len(next.Former) - mostFormer; over > 0 {
		next.Former = next.Former[over:]
	}
	text, err := json.MarshalIndent(next, "", "  ")
	if err != nil {
		return err
	}
	return write(filepath.Join(folder, activeName), append(text, '\n'))
}

// write writes a file whole, by a rename, and has it on the disk.
func write(path string, text []byte) error {
	folder := filepath.Dir(path)
	file, err := os.CreateTemp(folder, ".new-*")
	if err != nil {
		return fmt.Errorf("keeping a release: %w", err)
	}
	defer os.Remove(file.Name())
	_, err = file.Write(text)
	if err == nil {
		err = file.Chmod(fileMode)
	}
	if err == nil {
		err = file.Sync()
	}
	if closed := file.Close(); err == nil {
		err = closed
	}
	if err == nil {
		err = os.Rename(file.Name(), path)
	}
	if err == nil {
		err = syncFolder(folder)
	}
	if err != nil {
		return fmt.Errorf("keeping a release: %w", err)
	}
	return nil
}

func syncFolder(folder string) error {
	opened, err := os.Open(folder)
	if err != nil {
		return err
	}
	defer opened.Close()
	return opened.Sync()
}

// locked runs a change of a folder while no other runs.
func locked(folder string, change func() error) error {
	lock, err := os.OpenFile(filepath.Join(folder, lockName), os.O_CREATE|os.O_RDWR, fileMode)
	if err != nil {
		return fmt.Errorf("changing the releases: %w", err)
	}
	defer lock.Close()
	if err := syscall.Flock(int(lock.Fd()), syscall.LOCK_EX); err != nil {
		return fmt.Errorf("changing the releases: %w", err)
	}
	return change()
}
