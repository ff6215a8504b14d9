package sender

import (
	"gateway/rabbit/bus"
	"gateway/rabbit/ledger"
	"gateway/rabbit/line"
)

// A sections knows which lines of a batch were taken before the number of partitions changed. Each earlier partition took the
// first of its lines that none before it had taken, so the input shows which these are. They no longer change, so each process
// skips the same lines. The zero value knows none.
type sections struct {
	earlier []bus.Settings // the earlier numbers of partitions, oldest first
	newest  bus.Settings
	known   map[ledger.Origination]*known
}

// add takes what a partition knows of the batch. Several partitions may know the same section.
func (s *sections) add(batch *ledger.Batch) {
	if batch == nil {
		return
	}
	for _, of := range batch.Sections {
		if s.known == nil {
			s.known = map[ledger.Origination]*known{}
		}
		if s.known[of.Origination] == nil {
			s.known[of.Origination] = &known{batch: &ledger.Batch{Count: of.Count, Marks: of.Marks, Last: of.Last, Missing: of.Missing}}
		}
	}
}

// at returns what is known of a section, or nil.
func (s *sections) at(of bus.Settings, partition int) *known {
	return s.known[ledger.Origination{Epoch: of.Epoch, Partitions: of.Partitions, Partition: partition}]
}

// takeRequest takes the input's next line, and reports whether it was taken before.
func (s *sections) takeRequest(text []byte, request line.Line) (bool, error) {
	if len(s.known) == 0 {
		return false, nil
	}
	for _, of := range s.earlier {
		if section := s.at(of, request.Partition(of.Partitions)); section != nil {
			if taken, err := section.take(text); taken || err != nil {
				return taken, err
			}
		}
	}
	return false, nil
}

// takeModel is takeRequest for a model, which went to each partition: for each current partition it reports whether all earlier
// partitions of its keys have it.
func (s *sections) takeModel(text []byte) ([]bool, error) {
	var has []bool // for the partitions of one number
	for at, of := range s.earlier {
		now := make([]bool, of.Partitions)
		for partition := range now {
			if at > 0 && hasEach(has, s.earlier[at-1], of, partition) {
				now[partition] = true
			} else if section := s.at(of, partition); section != nil {
				taken, err := section.take(text)
				if err != nil {
					return nil, err
				}
				now[partition] = taken
			}
		}
		has = now
	}
	each := make([]bool, s.newest.Partitions)
	for partition := range each {
		each[partition] = len(s.earlier) > 0 && hasEach(has, s.earlier[len(s.earlier)-1], s.newest, partition)
	}
	return each, nil
}

// hasEach reports whether each earlier partition of this one's keys has it.
func hasEach(has []bool, before, after bus.Settings, partition int) bool {
	for _, source := range bus.Sources(before, after, partition) {
		if !has[source] {
			return false
		}
	}
	return true
}

// end notes that the input has ended.
func (s *sections) end() error {
	for _, section := range s.known {
		if err := section.end(); err != nil {
			return err
		}
	}
	return nil
}
