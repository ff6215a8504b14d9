package sender

import (
	"errors"
	"fmt"
	"sync"

	"gateway/rabbit/bus"
	"gateway/rabbit/ledger"
	"gateway/rabbit/line"
)

// atOnce is how many partitions are asked at a time.
const atOnce = 8

// open is how many messages of each are in flight.
var open = bus.OpenOf(atOnce)

// A claimed is a partition with this process's claim in its log.
type claimed struct {
	offset int64         // of the claim
	batch  *ledger.Batch // what the partition has of the batch, or nil
	fenced bool          // whether a newer process claimed the name here before
}

// eachPartition does the work for every partition, atOnce at a time.
func eachPartition(partitions, atOnce int, work func(partition int) error) error {
	faults := make([]error, partitions)
	var asked sync.WaitGroup
	turns := make(chan struct{}, atOnce)
	for partition := range faults {
		turns <- struct{}{}
		asked.Add(1)
		go func(partition int) {
			defer asked.Done()
			faults[partition] = work(partition)
			<-turns
		}(partition)
	}
	asked.Wait()
	for partition, fault := range faults {
		if fault != nil {
			return fmt.Errorf("partition %d: %w", partition, fault)
		}
	}
	return nil
}

// claimPartition claims the name in a partition's log, and finds out what the partition took of the batch: no line of an older
// process counts after the claim.
func claimPartition(link bus.Link, settings bus.Settings, partition int, as ledger.Origin) (claimed, error) {
	publisher, err := link.Appender()
	if err != nil {
		return claimed{}, err
	}
	at := bus.Partition{Of: settings, Number: partition}
	h, err := bus.LookAtHistory(bus.HistoryOptions{Link: link, Partition: at, Open: open})
	if err == nil {
		err = takesLines(h, settings)
	}
	if err != nil {
		return claimed{}, err
	}
	token, err := bus.NewMark()
	if err != nil {
		return claimed{}, err
	}
	as.Kind, as.Number = ledger.Claim, 0
	headers := bus.OriginHeaders(as)
	headers[bus.TokenHeader] = token
	if err := publisher.Append(linesRoute(settings, partition), headers, nil); err != nil {
		return claimed{}, err
	}
	if err := publisher.Settle(); err != nil {
		return claimed{}, err
	}
	found := claimed{}
	if found.offset, err = readOn(link, at, token, h.Ledger); err != nil {
		return claimed{}, err
	}
	sender := h.Ledger.Senders.Find(as.Sender)
	found.batch, found.fenced = sender.Batch(as.Batch), sender != nil && sender.Epoch > as.Epoch
	return found, publisher.Close()
}

// errUnbegun means that a later partition doesn't know yet what was sent before.
var errUnbegun = errors.New("it has not begun: partitions from which its keys come are not answered up to the change")

// takesLines returns why a partition takes no lines now.
func takesLines(h *bus.History, settings bus.Settings) error {
	switch {
	case h.Closed != (bus.Settings{}):
		return &bus.Final{Reason: &bus.Rescaled{To: h.Closed}}
	case settings.Epoch > 0 && !h.HasSnapshot:
		return errUnbegun
	}
	return nil
}

// linesRoute returns the route of requests, claims and ends of batches.
func linesRoute(settings bus.Settings, partition int) bus.Route {
	return settings.Route(bus.RequestsExchange, bus.TopicLines, partition)
}

// readOn takes the lines after the ledger's place, up to the claim with the token, and returns the claim's offset.
func readOn(link bus.Link, at bus.Partition, token string, l *ledger.Ledger) (int64, error) {
	stream, err := readLog(link, at.Queue(bus.Lines), l)
	if err != nil {
		return 0, err
	}
	for {
		message, err := stream.Next()
		if err != nil {
			return 0, err
		}
		if to, is := bus.ReadClose(message, at.Of); is {
			return 0, &bus.Final{Reason: &bus.Rescaled{To: to}}
		}
		bus.TakeMessage(message, l)
		if message.Headers[bus.TokenHeader] == token {
			return message.Offset, stream.Close()
		}
	}
}

// readLog reads a log from the ledger's place on.
func readLog(link bus.Link, lines string, l *ledger.Ledger) (bus.Reader, error) {
	var from bus.From
	if l.Place.Offset >= 0 {
		from = bus.FromOffset(l.Place.Offset)
	}
	return link.Read(bus.Reading{Stream: lines, From: from, Window: open})
}

// isModel reports whether a line is a model.
func isModel(raw []byte) bool {
	read, err := line.Look(raw)
	return err == nil && read.IsModel()
}
