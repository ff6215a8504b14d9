package bus

import "gateway/rabbit/ledger"

// Repaired returns the state of a partition with a lost log, after a gap after its last answer. Of the log since the last
// snapshot only the answers are known: a model in it is lost, and an open batch can't be sent again.
func Repaired(h *History, gap ledger.Gap) *ledger.Ledger {
	for _, record := range h.Records {
		h.Ledger.SettleLost(record.Client, record.Outcome)
	}
	h.Ledger.Part = false
	h.Ledger.Skip(gap.Place())
	h.Ledger.Senders.BreakOff()
	return h.Ledger
}
