package ledger

import (
	"bytes"
	"encoding/json"
	"fmt"
	"time"

	"gateway/rabbit/line"
)

// SnapshotVersion is the version of the snapshot format. With sections it is sectionsVersion, so that programs without sections
// reject it.
const (
	SnapshotVersion = 2
	sectionsVersion = 3
)

// A snapshot is a ledger in JSON. It has each model once, named by number; -1 means none, -2 a lost one.
type snapshot struct {
	Version int               `json:"version"`
	Program string            `json:"program"` // the version of the program that wrote it
	Place   Place             `json:"place"`
	Part    bool              `json:"part,omitempty"`
	Lines   int64             `json:"lines"`
	Models  []json.RawMessage `json:"models"`
	Model   int               `json:"model"`
	Tickets map[string]int64  `json:"tickets"`
	Sent    int64             `json:"sent"` // the latest time stamp of the log, in milliseconds since 1970
	Senders []senderRecord    `json:"senders"`
}

type senderRecord struct {
	Name    string        `json:"name"`
	Named   bool          `json:"named"`
	Epoch   int64         `json:"epoch,omitempty"`
	Sent    int64         `json:"sent"`
	Batches []batchRecord `json:"batches"`
}

type batchRecord struct {
	ID      string   `json:"id"`
	Count   int64    `json:"count"`
	Marks   [][]byte `json:"marks,omitempty"`
	Last    []byte   `json:"last,omitempty"`
	Ended   bool     `json:"ended,omitempty"`
	Missing int64    `json:"missing,omitempty"`
	Models  int64    `json:"models,omitempty"`
	Adrift  bool     `json:"adrift,omitempty"`
	Sent    int64    `json:"sent"`
	Model   int      `json:"model"` // of an open batch
	// Had is how many models it had at first, Sections what closed partitions took of it.
	Had      int64           `json:"had,omitempty"`
	Sections []sectionRecord `json:"sections,omitempty"`
}

type sectionRecord struct {
	Origination
	Count   int64    `json:"count"`
	Models  int64    `json:"models,omitempty"`
	Missing int64    `json:"missing,omitempty"`
	Marks   [][]byte `json:"marks,omitempty"`
	Last    []byte   `json:"last,omitempty"`
}

// Snapshot returns the ledger as the body of a message, written by this program version.
func (l *Ledger) Snapshot(program string) ([]byte, error) {
	w := &snapshotWriter{numbers: make(map[string]int)}
	s := snapshot{Version: SnapshotVersion, Program: program, Place: l.Place, Part: l.Part, Lines: l.Lines, Model: w.number(l.Models.log),
		Tickets: map[string]int64{}, Sent: l.Senders.now.UnixMilli(), Senders: []senderRecord{}}
	for client, ticket := range l.Tickets {
		if ticket > 0 {
			s.Tickets[line.ClientName(client)] = ticket
		}
	}
	for _, sender := range l.Senders.All() {
		record := senderRecord{Name: sender.Name, Named: sender.Named, Epoch: sender.Epoch, Sent: sender.Sent.UnixMilli()}
		for _, batch := range sender.Batches {
			record.Batches = append(record.Batches, w.batch(batch, l.Models.At(BatchKey{sender.Name, batch.ID})))
		}
		s.Senders = append(s.Senders, record)
	}
	s.Models = w.models
	if w.hasSections {
		s.Version = sectionsVersion
	}
	var body bytes.Buffer
	encoder := json.NewEncoder(&body)
	encoder.SetEscapeHTML(false) // a model stays as sent
	if err := encoder.Encode(s); err != nil {
		return nil, fmt.Errorf("writing a snapshot: %w", err)
	}
	return body.Bytes(), nil
}

// Numbers that are not in the list of models.
const (
	noModel   = -1
	lostModel = -2
)

// A snapshotWriter numbers the models.
type snapshotWriter struct {
	models      []json.RawMessage
	numbers     map[string]int
	hasSections bool
}

func (w *snapshotWriter) number(model []byte) int {
	switch {
	case model == nil:
		return noModel
	case IsUnknown(model):
		return lostModel
	}
	number, known := w.numbers[string(model)]
	if !known {
		number = len(w.models)
		w.numbers[string(model)] = number
		w.models = append(w.models, model)
	}
	return number
}

func (w *snapshotWriter) batch(batch *Batch, model []byte) batchRecord {
	record := batchRecord{ID: batch.ID, Count: batch.Count, Last: append([]byte(nil), batch.Last[:]...), Ended: batch.Ended,
		Missing: batch.Missing, Models: batch.Models, Adrift: batch.Adrift, Sent: batch.Sent.UnixMilli(), Model: noModel, Had: batch.Had}
	record.Marks = written(batch.Marks)
	for _, section := range batch.Sections {
		w.hasSections = true
		record.Sections = append(record.Sections, sectionRecord{Origination: section.Origination, Count: section.Count, Models: section.Models,
			Missing: section.Missing, Marks: written(section.Marks), Last: append([]byte(nil), section.Last[:]...)})
	}
	if !batch.Ended {
		record.Model = w.number(model)
	}
	return record
}

func written(digests []Digest) (marks [][]byte) {
	for _, digest := range digests {
		marks = append(marks, append([]byte(nil), digest[:]...))
	}
	return marks
}

func read(marks [][]byte) (digests []Digest) {
	for _, mark := range marks {
		var digest Digest
		copy(digest[:], mark)
		digests = append(digests, digest)
	}
	return digests
}

// Read reads a snapshot. Named senders are remembered for keep after their last message.
func Read(body []byte, keep time.Duration) (*Ledger, error) {
	var s snapshot
	if err := json.Unmarshal(body, &s); err != nil {
		return nil, fmt.Errorf("reading a snapshot: %w", err)
	}
	if s.Version != SnapshotVersion && s.Version != sectionsVersion {
		return nil, fmt.Errorf("reading a snapshot of the program's version %q: its form has version %d, and this program reads %d and %d",
			s.Program, s.Version, SnapshotVersion, sectionsVersion)
	}
	l := &Ledger{Place: s.Place, Part: s.Part, Lines: s.Lines, Models: NewModels()}
	for name, ticket := range s.Tickets {
		client, known := line.ClientNumber([]byte(name))
		if !known {
			return nil, fmt.Errorf("reading a snapshot: %q is no client", name)
		}
		l.Tickets[client] = ticket
	}
	if err := l.readModels(s); err != nil {
		return nil, err
	}
	senders := make([]Sender, len(s.Senders))
	for at, record := range s.Senders {
		senders[at] = record.sender()
	}
	return l.with(NewSenders(senders, time.UnixMilli(s.Sent), keep)), nil
}

// readModels reads which models apply.
func (l *Ledger) readModels(s snapshot) error {
	var err error
	if l.Models.log, err = s.model(s.Model); err != nil {
		return err
	}
	for _, sender := range s.Senders {
		for _, batch := range sender.Batches {
			text, err := s.model(batch.Model)
			if err != nil {
				return err
			}
			if !batch.Ended {
				l.Models.batches[BatchKey{sender.Name, batch.ID}] = text
			}
		}
	}
	return nil
}

// model returns the model with this number.
func (s snapshot) model(number int) ([]byte, error) {
	switch {
	case number == noModel:
		return nil, nil
	case number == lostModel:
		return unknown, nil
	case number < 0 || number >= len(s.Models):
		return nil, fmt.Errorf("reading a snapshot: there is no model %d", number)
	}
	return s.Models[number], nil
}

func (r senderRecord) sender() Sender {
	sender := Sender{Name: r.Name, Named: r.Named, Epoch: r.Epoch, Sent: time.UnixMilli(r.Sent)}
	for _, record := range r.Batches {
		batch := &Batch{ID: record.ID, Count: record.Count, Ended: record.Ended, Missing: record.Missing,
			Models: record.Models, Adrift: record.Adrift, Sent: time.UnixMilli(record.Sent), Had: record.Had}
		copy(batch.Last[:], record.Last)
		batch.Marks = read(record.Marks)
		for _, s := range record.Sections {
			section := Section{Origination: s.Origination, Count: s.Count, Models: s.Models, Missing: s.Missing, Marks: read(s.Marks)}
			copy(section.Last[:], s.Last)
			batch.Sections = append(batch.Sections, section)
		}
		sender.Batches = append(sender.Batches, batch)
	}
	return sender
}
