package profile_test

import (
	"fmt"
	"strings"
	"testing"

	"gateway/dmn"
	"gateway/profile"
)

// TestSettled reads one decision with what a file says about inputs in other decisions.
func TestSettled(t *testing.T) {
	file := definitions(input("a", "date and time"), input("n", "number"), input("t", "days and time duration"), decision("x", "", literal("a > @\"2026-01-01T00:00:00Z\""), "a"),
		decision("y", "", literal("n * 0.5 + t.seconds"), "n", "t"), decision("z", "", literal("t > duration(\"PT0.125S\")"), "t"))
	read, err := dmn.Read("test.dmn", strings.NewReader(file))
	if err != nil {
		t.Fatal(err)
	}
	found := profile.Settled([]*dmn.File{read}, profile.Options{})
	if fmt.Sprint(found.Offsets) != "[a]" || found.Decimals == nil || fmt.Sprint(found.Decimals.Named) != "map[a:3 n:2 t:3]" {
		t.Errorf("found is %v, %v", found.Offsets, found.Decimals)
	}
}
