package near_test

import (
	"testing"

	"gateway/near"
)

func TestTo(t *testing.T) {
	names := []string{"Net Price", "Gross Price", "age", "Zone"}
	for name, due := range map[string]string{
		"Net Prise": "Net Price", "net_price": "Net Price", "NetPrice": "Net Price", "aeg": "", "agee": "age", "zone": "Zone",
		"Nothing": "", "": "", "Gros Prize": "Gross Price",
	} {
		if got := near.To(name, names); got != due {
			t.Errorf("near to %q is %q, due %q", name, got, due)
		}
	}
	if got := near.To("x", nil); got != "" {
		t.Errorf("of no names came %q", got)
	}
}
