package sender

import (
	"errors"
	"fmt"
	"testing"

	"gateway/rabbit/bus"
	"gateway/rabbit/ledger"
	"gateway/rabbit/line"
)

// inputLines returns requests with keys of all partitions, and models among them.
func inputLines(t *testing.T, count int) (texts [][]byte, parsed []line.Line) {
	t.Helper()
	for number := 0; number < count; number++ {
		text := fmt.Sprintf(`{"key":"k%d","service":"s","inputs":{},"id":%d}`, number%13, number)
		if number%5 == 0 {
			text = fmt.Sprintf(`{"model":{"number":%d}}`, number)
		}
		read, err := line.Look([]byte(text))
		if err != nil {
			t.Fatal(err)
		}
		texts, parsed = append(texts, []byte(text)), append(parsed, read)
	}
	return texts, parsed
}

// sendTo lets partitions take the lines that sections leave, up to most each, as the lanes do, and returns their ledgers.
func sendTo(t *testing.T, s *sections, ledgers []*ledger.Ledger, most int64, texts [][]byte, parsed []line.Line) (sent int) {
	t.Helper()
	from := ledger.Origin{Kind: ledger.Lines, Sender: "a", Named: true, Batch: "x"}
	numbers := make([]int64, len(ledgers))
	give := func(partition int, at int) {
		if numbers[partition] < most {
			if ledgers[partition].Senders.Take(from, numbers[partition], texts[at], parsed[at].IsModel()).Verdict == ledger.Taken {
				sent++
			}
		}
		numbers[partition]++
	}
	for at := range texts {
		if parsed[at].IsModel() {
			has, err := s.takeModel(texts[at])
			if err != nil {
				t.Fatal(err)
			}
			for partition := range ledgers {
				if !has[partition] {
					give(partition, at)
				}
			}
			continue
		}
		if taken, err := s.takeRequest(texts[at], parsed[at]); err != nil {
			t.Fatal(err)
		} else if !taken {
			give(parsed[at].Partition(len(ledgers)), at)
		}
	}
	return sent
}

// A batch that is interrupted under several numbers of partitions has each request once at the end, and each model in every
// partition that needs it; and other lines are refused.
func TestSectionsOverSeveralChanges(t *testing.T) {
	const count = 200
	texts, parsed := inputLines(t, count)
	counts := []int{2, 3, 4, 1, 4}
	for _, most := range []int64{0, 1, 7, 20} {
		var all []bus.Settings
		var ledgers []*ledger.Ledger
		requests := 0
		for epoch, partitions := range counts {
			now := bus.Settings{Partitions: partitions, Epoch: int64(epoch)}
			next := make([]*ledger.Ledger, partitions)
			s := &sections{earlier: all, newest: now}
			for partition := range next {
				if next[partition] = ledger.New(0); epoch > 0 {
					next[partition] = merged(all[epoch-1], now, partition, ledgers)
				}
				s.add(next[partition].Senders.Find("a").Batch("x"))
			}
			upto := most
			if epoch == len(counts)-1 {
				upto = count
			}
			sendTo(t, s, next, upto, texts, parsed)
			if err := s.end(); err != nil {
				t.Errorf("%d lines each, epoch %d: %v", most, epoch, err)
			}
			for _, l := range next {
				batch := l.Senders.Find("a").Batch("x")
				if batch != nil {
					requests += int(batch.Count - batch.Models)
				}
			}
			all, ledgers = append(all, now), next
		}
		if requests != count-count/5 {
			t.Errorf("%d lines each: %d requests are taken", most, requests)
		}
	}
	wrong := &sections{earlier: []bus.Settings{{Partitions: 1}}, newest: bus.Settings{Partitions: 2, Epoch: 1}}
	l := ledger.New(0)
	sendTo(t, &sections{newest: bus.Settings{Partitions: 1}}, []*ledger.Ledger{l}, 8, texts, parsed)
	wrong.add(merged(wrong.earlier[0], wrong.newest, 0, []*ledger.Ledger{l}).Senders.Find("a").Batch("x"))
	if _, err := wrong.takeRequest(texts[1], parsed[1]); !errors.Is(err, errOther) {
		t.Error(err)
	}
	if err := wrong.end(); !errors.Is(err, errOther) {
		t.Error(err)
	}
}

// merged returns the ledger with which a partition begins.
func merged(before, after bus.Settings, partition int, ledgers []*ledger.Ledger) *ledger.Ledger {
	var sources []ledger.Source
	for _, number := range bus.Sources(before, after, partition) {
		origin := ledger.Origination{Epoch: before.Epoch, Partitions: before.Partitions, Partition: number}
		sources = append(sources, ledger.Source{Origination: origin, Ledger: ledgers[number]})
	}
	return ledger.Merge(sources, 0)
}
