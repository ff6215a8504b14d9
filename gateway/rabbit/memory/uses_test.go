package memory_test

import (
	"go/parser"
	"go/token"
	"path/filepath"
	"strconv"
	"strings"
	"testing"
)

// Senders, owners and receivers use only the bus, and one package uses the client library.
func TestWhoUsesWhat(t *testing.T) {
	files, err := filepath.Glob("../*/*.go")
	if err != nil || len(files) == 0 {
		t.Fatal(files, err)
	}
	for _, file := range files {
		read, err := parser.ParseFile(token.NewFileSet(), file, nil, parser.ImportsOnly)
		if err != nil {
			t.Fatal(err)
		}
		folder, isTest := filepath.Base(filepath.Dir(file)), strings.HasSuffix(file, "_test.go")
		for _, of := range read.Imports {
			path, err := strconv.Unquote(of.Path.Value)
			if err != nil {
				t.Fatal(err)
			}
			if strings.Contains(path, "amqp091") && folder != "broker" || path == "gateway/rabbit/broker" && !isTest {
				t.Errorf("%s imports %s", file, path)
			}
		}
	}
}
