package bus

import (
	"bytes"

	"gateway/rabbit/ledger"
	"gateway/rabbit/line"
)

// TakeMessage takes a log message as its partition does, except for the answers: the ledger then knows what each sender sent.
func TakeMessage(message Message, l *ledger.Ledger) {
	from, err := ReadOrigin(message)
	if err != nil {
		return
	}
	if from.Kind != ledger.Lines {
		if l.Place.Before(ledger.Place{Offset: message.Offset}) {
			l.Senders.Control(from)
		}
		return
	}
	for index, raw := range bytes.Split(message.Body, []byte("\n")) {
		if l.Place.Before(ledger.Place{Offset: message.Offset, Index: int64(index)}) {
			read, err := line.Look(raw)
			isModel := err == nil && read.IsModel() && from.MayHaveModels
			l.Senders.Take(from, from.Number+int64(index), raw, isModel)
		}
	}
}
