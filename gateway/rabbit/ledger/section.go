package ledger

import (
	"sort"
	"time"
)

// An Origination is a partition of an earlier number of partitions, whose log is closed.
type Origination struct {
	Epoch      int64 `json:"epoch"`
	Partitions int   `json:"partitions"`
	Partition  int   `json:"partition"`
}

// A Section is what a partition took of a batch before its log was closed. It no longer changes.
type Section struct {
	Origination
	Count  int64 // lines
	Models int64 // of these
	// Missing is how many lines before the last one never came.
	Missing int64
	Marks   []Digest // as of a batch
	Last    Digest
}

// A Source is a partition whose log is closed, with its last ledger.
type Source struct {
	Origination
	*Ledger
}

// Merge returns the ledger before the first line of a partition that has the keys of the sources. It depends only on these, so
// each owner of the partition begins with the same. Named senders are remembered for keep after their last message.
//
// The greatest ticket of each client counts, and the newest process of each name. The current model is that of the first
// source. A batch counts its lines from the start; sections say what the sources took. A model of a batch comes again unless
// each source took it, so the batch begins with the model of the source that took the fewest. Senders without a name can't send
// again, and are forgotten.
func Merge(sources []Source, keep time.Duration) *Ledger {
	l := New(keep)
	names := map[string]*Sender{}
	var now time.Time
	for at, source := range sources {
		if at == 0 {
			l.Models.log = source.Models.log
		}
		if l.Lines < source.Lines {
			l.Lines = source.Lines
		}
		for client, ticket := range source.Tickets {
			if l.Tickets[client] < ticket {
				l.Tickets[client] = ticket
			}
		}
		if source.Senders.now.After(now) {
			now = source.Senders.now
		}
		for _, sender := range source.Senders.All() {
			if sender.Named {
				mergeSender(names, sender)
			}
		}
	}
	known := make([]Sender, 0, len(names))
	for _, sender := range names {
		mergeBatches(sender, sources, l.Models)
		known = append(known, *sender)
	}
	sort.Slice(known, func(a, b int) bool {
		if !known[a].Sent.Equal(known[b].Sent) {
			return known[a].Sent.Before(known[b].Sent)
		}
		return known[a].Name < known[b].Name
	})
	return l.with(NewSenders(known, now, keep))
}

// mergeSender takes what a source knows of a sender, except its batches.
func mergeSender(names map[string]*Sender, sender Sender) {
	found := names[sender.Name]
	if found == nil {
		found = &Sender{Name: sender.Name, Named: true}
		names[sender.Name] = found
	}
	if found.Epoch < sender.Epoch {
		found.Epoch = sender.Epoch
	}
	if found.Sent.Before(sender.Sent) {
		found.Sent = sender.Sent
	}
}

// mergeBatches merges what the sources know of a sender's batches.
func mergeBatches(sender *Sender, sources []Source, models *Models) {
	batches := map[string]*Batch{}
	for _, source := range sources {
		known := source.Senders.Find(sender.Name)
		if known == nil {
			continue
		}
		for _, batch := range known.Batches {
			if _, is := batches[batch.ID]; !is {
				batches[batch.ID] = mergeBatch(BatchKey{sender.Name, batch.ID}, sources, models)
			}
		}
	}
	for _, batch := range batches {
		if batch != nil {
			sender.Batches = append(sender.Batches, batch)
		}
	}
	sort.Slice(sender.Batches, func(a, b int) bool {
		first, second := sender.Batches[a], sender.Batches[b]
		if !first.Sent.Equal(second.Sent) {
			return first.Sent.Before(second.Sent)
		}
		return first.ID < second.ID
	})
	if over := len(sender.Batches) - MaximumBatches; over > 0 {
		sender.Batches = sender.Batches[over:]
	}
}

// mergeBatch merges what the sources know of a batch. It returns nil if none has begun it: its next line is the first, as for
// an unknown batch. A source in which the batch has ended needs no model.
func mergeBatch(key BatchKey, sources []Source, models *Models) *Batch {
	merged, fewest := &Batch{ID: key.Batch, Ended: true}, int64(-1)
	for _, source := range sources {
		var taken int64
		inForce := source.Models.Last()
		batch := source.Senders.Find(key.Sender).Batch(key.Batch)
		if batch != nil {
			merged.take(source.Origination, batch)
			taken, inForce = batch.Had+batch.Models, source.Models.At(key)
		}
		if batch != nil && batch.Ended {
			continue
		}
		if merged.Ended = false; fewest < 0 || taken < fewest {
			fewest = taken
			models.batches[key] = inForce
		}
	}
	switch {
	case merged.Ended:
		return merged
	case !merged.isBegun():
		models.Forget(key)
		return nil
	}
	merged.Had = fewest
	return merged
}

// isBegun reports whether any line of the batch came.
func (b *Batch) isBegun() bool {
	for _, section := range b.Sections {
		if section.Count > 0 || section.Missing > 0 {
			return true
		}
	}
	return false
}

// take takes what a source knows of a batch.
func (b *Batch) take(from Origination, of *Batch) {
	b.Adrift = b.Adrift || of.Adrift
	if b.Sent.Before(of.Sent) {
		b.Sent = of.Sent
	}
	copied := of.clone()
	sections := append(copied.Sections, Section{Origination: from, Count: of.Count, Models: of.Models, Missing: of.Missing, Marks: copied.Marks, Last: of.Last})
	for _, section := range sections {
		if !b.has(section.Origination) {
			b.Sections = append(b.Sections, section)
		}
	}
	sort.Slice(b.Sections, func(x, y int) bool {
		first, second := b.Sections[x].Origination, b.Sections[y].Origination
		return first.Epoch < second.Epoch || first.Epoch == second.Epoch && first.Partition < second.Partition
	})
}

// has reports whether a partition's section is known: two sources may have inherited it.
func (b *Batch) has(of Origination) bool {
	for _, section := range b.Sections {
		if section.Origination == of {
			return true
		}
	}
	return false
}
