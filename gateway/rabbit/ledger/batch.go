package ledger

import (
	"crypto/sha256"
	"math/bits"
	"time"
)

// DigestBytes is the length of a digest.
const DigestBytes = 12

// A Digest identifies a list of lines. The digest with one more line follows from it and the line.
type Digest [DigestBytes]byte

// usualBytes is the length of most lines at most.
const usualBytes = 500

// With returns the digest with one more line.
func (d Digest) With(line []byte) Digest {
	var next Digest
	if len(line) <= usualBytes { // without its own hash, which takes longer
		var text [DigestBytes + usualBytes]byte
		copy(text[copy(text[:], d[:]):], line)
		sum := sha256.Sum256(text[:DigestBytes+len(line)])
		copy(next[:], sum[:])
		return next
	}
	hash := sha256.New()
	hash.Write(d[:])
	hash.Write(line)
	copy(next[:], hash.Sum(nil))
	return next
}

// A Step leads from one digest to the next, by one line. The zero value is none.
type Step struct{ before, after Digest }

// A Batch is what a partition knows of a batch: how many of its lines it took, and digests of them.
type Batch struct {
	ID    string
	Count int64 // how many lines were taken
	// Marks are the digests of the first 1, 2, 4, 8, .. lines taken.
	Marks []Digest
	Last  Digest // the digest of all
	Ended bool   // whether no more lines are taken
	// Missing is how many lines before the last one never came: the broker lost them.
	Missing int64
	Models  int64 // how many of the lines are models
	// Adrift means that a model of the batch is missing: the model for its next lines isn't known.
	Adrift bool
	Sent   time.Time
	// Had is how many models of the batch came before its first line, as each partition that had its keys took them.
	Had int64
	// Sections are what earlier partitions of its keys took before the number of partitions changed. Count and its related
	// fields count the lines that none of them took.
	Sections []Section
}

// skip notes that the next line has this number, after this many models; -1 if unknown. It returns how many lines are missing.
func (b *Batch) skip(number, models int64) (missing int64) {
	missing = number - b.Count
	if missing <= 0 {
		return 0
	}
	b.Count, b.Missing = number, b.Missing+missing
	b.Adrift = b.Adrift || models != b.Models
	if models >= 0 {
		b.Models = models
	}
	return missing
}

// add takes one more line. Its step may be known.
func (b *Batch) add(line []byte, isModel bool, known Step) Step {
	if isModel {
		b.Models, b.Adrift = b.Models+1, false
	}
	b.Count++
	step := known
	if step == (Step{}) || step.before != b.Last {
		step = Step{b.Last, b.Last.With(line)}
	}
	b.Last = step.after
	if b.Count&(b.Count-1) == 0 {
		b.Marks = append(b.Marks, b.Last)
	}
	return step
}

// Mark returns the digest of the first count lines, if it is kept.
func (b *Batch) Mark(count int64) (Digest, bool) {
	if count == b.Count {
		return b.Last, true
	}
	at := bits.TrailingZeros64(uint64(count))
	if count&(count-1) != 0 || at >= len(b.Marks) {
		return Digest{}, false
	}
	return b.Marks[at], true
}

// clone returns a deep copy.
func (b *Batch) clone() *Batch {
	copied := *b
	copied.Marks = append([]Digest(nil), b.Marks...)
	copied.Sections = append([]Section(nil), b.Sections...)
	return &copied
}
