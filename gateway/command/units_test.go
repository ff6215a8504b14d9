package command

import (
	"testing"
	"time"

	"github.com/spf13/pflag"
)

// The journal's sizes and times are read as in the help, and written back the same.
func TestUnits(t *testing.T) {
	for _, it := range []struct {
		value pflag.Value
		text  string
		due   string
	}{
		{new(size), "50GiB", "50GiB"},
		{new(size), "4MiB", "4MiB"},
		{new(size), "1024", "1KiB"},
		{new(size), "0", "0"},
		{new(size), "2147483648GiB", "2147483648GiB"},
		{new(size), "2147483649GiB", ""},
		{new(size), "-1", ""},
		{new(size), "50GB", ""},
		{new(size), "", ""},
		{new(days), "400d", "400d"},
		{new(days), "48h", "2d"},
		{new(days), "36h", "36h0m0s"},
		{new(days), "0", "0"},
		{new(days), "36500d", "36500d"},
		{new(days), "36501d", ""},
		{new(days), "-1d", ""},
		{new(days), "1.5d", ""},
		{new(days), "400", ""},
		{new(days), "", ""},
	} {
		if err := it.value.Set(it.text); (err != nil) != (it.due == "") {
			t.Errorf("%s %q: %v", it.value.Type(), it.text, err)
		} else if err == nil && it.value.String() != it.due {
			t.Errorf("%s %q is %s, and %s is due", it.value.Type(), it.text, it.value, it.due)
		}
	}
	var keep days
	if err := keep.Set("400d"); err != nil || time.Duration(keep) != 400*24*time.Hour {
		t.Errorf("400d is %v (%v)", time.Duration(keep), err)
	}
	var limit size
	if err := limit.Set("50GiB"); err != nil || int64(limit) != 50<<30 {
		t.Errorf("50GiB is %d (%v)", int64(limit), err)
	}
}
