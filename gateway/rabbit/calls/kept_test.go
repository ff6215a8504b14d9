package calls

import (
	"fmt"
	"testing"
	"time"

	"gateway/engine"
)

// Calls with many short answers take no more memory than allowed, and the oldest are dropped first.
func TestKeptBytes(t *testing.T) {
	k := kept{most: 64 << 20, byCall: map[string]*Kept{}}
	for number := 0; number < 200; number++ {
		k.add("k", name{Call: fmt.Sprint(number), Of: mostRequests}, engine.Outcome{Value: []byte("1")}, time.Now())
	}
	if most := k.most / (overhead * mostRequests); len(k.order) > most+1 || len(k.order) < most-1 || len(k.byCall) != len(k.order) {
		t.Errorf("%d calls are kept", len(k.order))
	}
	if k.find("0") != nil || k.find("199") == nil || k.find("199").IsWhole() {
		t.Error("the oldest is kept, or the newest isn't")
	}
	k.forget(time.Now().Add(time.Hour))
	if k.bytes != 0 || len(k.byCall) != 0 {
		t.Errorf("%d bytes are left", k.bytes)
	}
}
