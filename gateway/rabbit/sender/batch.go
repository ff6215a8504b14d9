package sender

import (
	"errors"
	"fmt"

	"gateway/rabbit/ledger"
)

// A known is what a partition took of a batch in earlier runs. The input begins with those lines, and they are not sent again.
// The zero value is an unknown batch.
type known struct {
	batch  *ledger.Batch
	count  int64 // lines of the input so far
	digest ledger.Digest
}

// errOther means that an id was used for another input.
var errOther = errors.New("it was sent with other lines: each batch needs an id of its own")

// errLost means that lines of an earlier run were confirmed, and are lost nevertheless.
func errLost(lines int64) error {
	return fmt.Errorf("the broker has lost %d of its lines: send it again as another batch", lines)
}

// take takes the input's next line for the partition, and reports whether it was taken before.
func (k *known) take(text []byte) (repeated bool, err error) {
	if k.batch == nil {
		return false, nil
	}
	if k.batch.Missing > 0 {
		return false, errLost(k.batch.Missing)
	}
	if k.count == k.batch.Count {
		if k.batch.Ended {
			return false, errOther
		}
		return false, nil
	}
	k.count++
	k.digest = k.digest.With(text)
	if mark, is := k.batch.Mark(k.count); is && mark != k.digest {
		return false, errOther
	}
	return true, nil
}

// end notes that the input has ended.
func (k *known) end() error {
	if k.batch != nil && k.count < k.batch.Count {
		return errOther
	}
	return nil
}
