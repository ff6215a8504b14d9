package ledger

import "bytes"

// Models has the model of each open batch. A batch's model applies to its later lines. A batch without one has the log's model
// at its first line.
type Models struct {
	log     []byte // the last model that any batch loaded; nil if there is none, or unknown
	batches map[BatchKey][]byte
}

// unknown is a model that was loaded and is lost.
var unknown = []byte{}

// IsUnknown reports whether a model was loaded and is lost.
func IsUnknown(model []byte) bool { return model != nil && len(model) == 0 }

// Lose notes that a model was loaded and is lost.
func (m *Models) Lose() { m.log = unknown }

// NewModels has no models.
func NewModels() *Models { return &Models{batches: make(map[BatchKey][]byte)} }

// Clone returns an independent copy.
func (m *Models) Clone() *Models {
	copied := &Models{log: m.log, batches: make(map[BatchKey][]byte, len(m.batches))}
	for key, text := range m.batches {
		copied.batches[key] = text
	}
	return copied
}

// Begin notes that the next line is the first of its batch.
func (m *Models) Begin(batch BatchKey) { m.batches[batch] = m.log }

// Put notes that a model of the batch is loaded.
func (m *Models) Put(batch BatchKey, text []byte) {
	m.log = text
	m.batches[batch] = text
}

// Last returns the model that any batch loaded last, or nil.
func (m *Models) Last() []byte { return m.log }

// At returns the model for the batch's next line, or nil.
func (m *Models) At(batch BatchKey) []byte { return m.batches[batch] }

// Forget notes that the batch has no more lines.
func (m *Models) Forget(batch BatchKey) { delete(m.batches, batch) }

// SameModel reports whether two models have the same text; nil means no model.
func SameModel(a, b []byte) bool { return (a == nil) == (b == nil) && bytes.Equal(a, b) }
