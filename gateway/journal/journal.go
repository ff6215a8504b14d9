package journal

import (
	"bytes"
	"errors"
	"fmt"
	"os"
	"path/filepath"
	"sync"
	"syscall"
	"time"
)

// Options says how a journal is kept.
type Options struct {
	// Size is about the most bytes in a file.
	Size int64
	// Keep is how long files are kept at least, Limit the most bytes in all of them; 0 means forever, and any.
	Keep  time.Duration
	Limit int64
	// Synced is called after each group with its lines, its bytes, how long writing and syncing took, and the error.
	Synced func(lines int, bytes int64, took time.Duration, err error)
	// Ended is called when a file ends, with its path, its last entry's number, and the chain's sum. Pruned is called with
	// removed files, and why one could not be removed. Both may be nil.
	Ended  func(path string, last uint64, sum string)
	Pruned func(paths []string, last uint64, err error)
}

// A Model is the model under which requests were answered.
type Model interface {
	// AppendLine adds its line, with the newline.
	AppendLine(to []byte) []byte
}

// A Described model says more about itself at the start of a file.
type Described interface {
	Model
	// AppendAbout adds members, without braces.
	AppendAbout(to []byte) []byte
}

// TimeForm is the form of a time in an entry, in UTC.
const TimeForm = "2006-01-02T15:04:05.000Z"

// A Journal is a folder of files that is being written.
type Journal struct {
	folder  string
	options Options
	lock    *os.File
	posts   chan *post
	ended   chan struct{}
	// closing keeps posts from coming after the end.
	closing sync.RWMutex
	closed  bool
	// files are the open files, newest last. chain is at the last entry. past has the ended files. Only the writing goroutine
	// uses them.
	files []*file
	chain *chainer
	past  []kept
	// begun is the last entry at opening.
	begun link

	mu     sync.Mutex
	fault  error
	failed time.Time
	// lost is why nothing is recorded any more, or nil.
	lost error
}

// A post is what one call adds.
type post struct {
	model   Model
	entries []Entry
	size    int
	// turn ends all files; look only checks that they are unchanged.
	turn, look bool
	done       chan error
}

const (
	// groupEntries and groupBytes limit what is synced at once.
	groupEntries = 4096
	groupBytes   = 8 << 20
	// openFiles limits the open files: one for the current model, and others for earlier models with open requests.
	openFiles = 4
	// faultPause is how long a failed journal is not tried again.
	faultPause = time.Second
	lockName   = "lock"
	// dayLong is how long a file is written at most if files are not kept forever.
	dayLong = 24 * time.Hour
)

// ErrClosed means that the journal is closed.
var ErrClosed = errors.New("the journal is closed")

// Open makes the folder if it is missing, cuts off partial entries, and locks the journal for this process. Repaired has a
// sentence for each file that was cut.
func Open(folder string, options Options) (journal *Journal, repaired []string, err error) {
	if err := makeFolder(folder); err != nil {
		return nil, nil, fmt.Errorf("opening the journal: %w", err)
	}
	lock, err := os.OpenFile(filepath.Join(folder, lockName), os.O_CREATE|os.O_RDWR, fileMode)
	if err != nil {
		return nil, nil, fmt.Errorf("opening the journal: %w", err)
	}
	if err := take(lock); err != nil {
		lock.Close()
		return nil, nil, fmt.Errorf("opening the journal: another process writes %s: %w", folder, err)
	}
	past, repaired, err := repair(folder)
	if err != nil {
		lock.Close()
		return nil, nil, err
	}
	j := &Journal{
		folder:  folder,
		options: options,
		lock:    lock,
		posts:   make(chan *post, groupEntries),
		ended:   make(chan struct{}),
		chain:   newChainer(lastOf(past)),
		past:    past,
	}
	j.begun = j.chain.at
	go j.write()
	return j, repaired, nil
}

// Begun returns the number of the last entry at opening, and the chain's sum.
func (j *Journal) Begun() (n uint64, sum string) { return j.begun.n, j.begun.String() }

// lockTries is how often the lock is tried, with a pause between: a process that only checks the lock takes it for a moment.
const (
	lockTries = 5
	lockPause = 20 * time.Millisecond
)

// take locks the lock for this process.
func take(lock *os.File) (err error) {
	for try := 0; try < lockTries; try++ {
		if err = syscall.Flock(int(lock.Fd()), syscall.LOCK_EX|syscall.LOCK_NB); err == nil {
			return nil
		}
		time.Sleep(lockPause)
	}
	return err
}

// Append adds lines, each with its newline, that were answered under a model. They are on disk if it returns no error. With an
// error none is recorded.
func (j *Journal) Append(model Model, text []byte, lines int) error {
	entries := make([]Entry, 0, lines)
	for _, line := range bytes.SplitAfter(text, []byte("\n")) {
		if len(line) > 0 {
			entries = append(entries, Entry{Asked: line})
		}
	}
	return j.Record(model, entries)
}

// Record adds entries under a model. They are on disk if it returns no error. With an error none is recorded.
func (j *Journal) Record(model Model, entries []Entry) error {
	size := 0
	for at := range entries {
		size += entries[at].size()
	}
	return j.put(&post{model: model, entries: entries, size: size, done: make(chan error, 1)})
}

// Turn ends all files: later entries go to new ones.
func (j *Journal) Turn() error {
	return j.put(&post{turn: true, done: make(chan error, 1)})
}

// Look checks that the open files are unchanged, and returns an error if one is not.
func (j *Journal) Look() error {
	return j.put(&post{look: true, done: make(chan error, 1)})
}

func (j *Journal) put(p *post) error {
	j.closing.RLock()
	if j.closed {
		j.closing.RUnlock()
		return ErrClosed
	}
	j.posts <- p
	j.closing.RUnlock()
	return <-p.done
}

// Fault returns why the last lines could not be written, or nil. After a second writing is tried again, unless others changed
// the files.
func (j *Journal) Fault() error {
	j.mu.Lock()
	defer j.mu.Unlock()
	if j.lost != nil {
		return j.lost
	}
	if j.fault != nil && time.Since(j.failed) < faultPause {
		return j.fault
	}
	return nil
}

// Failing reports whether the last lines could not be written.
func (j *Journal) Failing() bool {
	j.mu.Lock()
	defer j.mu.Unlock()
	return j.fault != nil || j.lost != nil
}

// Close writes what is left, and closes the files.
func (j *Journal) Close() error {
	j.closing.Lock()
	if j.closed {
		j.closing.Unlock()
		return nil
	}
	j.closed = true
	close(j.posts)
	j.closing.Unlock()
	<-j.ended
	err := j.turn()
	if closed := j.lock.Close(); err == nil {
		err = closed
	}
	return err
}

// write takes posts in groups.
func (j *Journal) write() {
	defer close(j.ended)
	for first := range j.posts {
		j.commit(j.group(first))
	}
}

// group returns a post and those waiting after it.
func (j *Journal) group(first *post) []*post {
	group := []*post{first}
	size := first.size
	for len(group) < groupEntries && size < groupBytes {
		select {
		case p, is := <-j.posts:
			if !is {
				return group
			}
			group = append(group, p)
			size += p.size
		default:
			return group
		}
	}
	return group
}

// commit writes a group, file by file, and returns each post's outcome to its caller.
func (j *Journal) commit(group []*post) {
	start := time.Now()
	var others []*post
	var order []Model
	byModel := map[Model][]*post{}
	for _, p := range group {
		if p.turn || p.look {
			others = append(others, p)
			continue
		}
		if byModel[p.model] == nil {
			order = append(order, p.model)
		}
		byModel[p.model] = append(byModel[p.model], p)
	}
	if err := j.look(); err != nil {
		j.lose(err)
	}
	for _, model := range order {
		j.commitOne(start, model, byModel[model])
	}
	for _, p := range others {
		err := j.gone()
		if p.turn && err == nil {
			err = j.turn()
		}
		p.done <- err
	}
}

// look checks that the open files are unchanged.
func (j *Journal) look() error {
	for _, f := range j.files {
		if err := f.look(); err != nil {
			return err
		}
	}
	return nil
}

// lose ends the journal, with the first error.
func (j *Journal) lose(err error) {
	j.mu.Lock()
	defer j.mu.Unlock()
	if j.lost == nil {
		j.lost = fmt.Errorf("the journal is not what was recorded, so nothing more is: %w", err)
	}
}

// gone returns why nothing is recorded any more, or nil.
func (j *Journal) gone() error {
	j.mu.Lock()
	defer j.mu.Unlock()
	return j.lost
}

func (j *Journal) commitOne(start time.Time, model Model, posts []*post) {
	err := j.gone()
	size := int64(0)
	if err == nil {
		size, err = j.add(start, model, posts)
	}
	var lost *lostError
	if errors.As(err, &lost) {
		j.lose(lost)
	}
	j.mu.Lock()
	j.fault, j.failed = err, time.Now()
	j.mu.Unlock()
	lines := 0
	for _, p := range posts {
		lines += len(p.entries)
		p.done <- err
	}
	if j.options.Synced != nil {
		j.options.Synced(lines, size, time.Since(start), err)
	}
}

// add writes one model's entries to its file. A failed file is cut to what it had before and left, and the chain continues from
// there.
func (j *Journal) add(now time.Time, model Model, posts []*post) (int64, error) {
	f, err := j.fileOf(now, model)
	if err != nil {
		return 0, err
	}
	before, at := f.size, j.chain.at
	if err = j.fill(f, posts); err == nil {
		err = f.sync()
	}
	if err != nil {
		j.chain.at = at
		j.end(now, f)
		if left := f.abandon(); left != nil {
			return 0, &lostError{left}
		}
		return 0, fmt.Errorf("writing the journal: %w", err)
	}
	f.last = j.chain.at.n
	if f.size > j.options.Size || j.options.Keep > 0 && now.Sub(f.begun) > dayLong {
		// The lines are on disk, whatever closing returns.
		_ = j.finish(now, f)
	}
	return f.size - before, nil
}

// fill passes entries to a file's writer.
func (j *Journal) fill(f *file, posts []*post) error {
	var text []byte
	for _, p := range posts {
		text = text[:0]
		for at := range p.entries {
			text = j.chain.add(text, &p.entries[at])
		}
		if err := f.write(text); err != nil {
			return err
		}
	}
	return nil
}

// fileOf returns a model's file, a new one if none is open.
func (j *Journal) fileOf(now time.Time, model Model) (*file, error) {
	for _, f := range j.files {
		if f.model == model {
			return f, nil
		}
	}
	if len(j.files) == openFiles {
		_ = j.finish(now, j.files[0])
	}
	at := j.chain.at
	f, err := create(j.folder, now, model, j.chain)
	if err != nil {
		j.chain.at = at
		return nil, fmt.Errorf("beginning a file of the journal: %w", err)
	}
	j.files = append(j.files, f)
	if err := j.prune(now, f); err != nil {
		return nil, fmt.Errorf("pruning the journal: %w", err)
	}
	return f, nil
}

func (j *Journal) forget(f *file) {
	for at, other := range j.files {
		if other == f {
			j.files = append(j.files[:at], j.files[at+1:]...)
			return
		}
	}
}

// finish ends a file, and closes it.
func (j *Journal) finish(now time.Time, f *file) error {
	j.end(now, f)
	return f.close()
}

// end notes that a file has ended.
func (j *Journal) end(now time.Time, f *file) {
	j.forget(f)
	j.past = append(j.past, f.kept(now))
	if j.options.Ended != nil {
		j.options.Ended(f.os.Name(), j.chain.at.n, j.chain.at.String())
	}
}

// turn ends all files.
func (j *Journal) turn() error {
	var first error
	for len(j.files) > 0 {
		if err := j.finish(time.Now(), j.files[0]); err != nil && first == nil {
			first = fmt.Errorf("closing a file of the journal: %w", err)
		}
	}
	return first
}
