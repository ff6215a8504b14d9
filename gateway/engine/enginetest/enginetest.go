// Package enginetest gives tests the engine of the repository, and one that waits at some requests until a test lets it
// go on.
package enginetest

import (
	"fmt"
	"os"
	"path/filepath"
	"testing"
)

// pathVariable is engine.PathVariable. The tests of package engine use this package, so it can't import that.
const pathVariable = "DESK_ENGINE"

// Main runs the tests of a package with the engine of dist/, unless the environment names another, and ends the process.
func Main(m *testing.M) {
	if path := os.Getenv(variable); path != "" {
		os.Exit(run(path))
	}
	if os.Getenv(pathVariable) == "" {
		path, err := find()
		if err != nil {
			fmt.Fprintln(os.Stderr, err)
			os.Exit(1)
		}
		os.Setenv(pathVariable, path)
	}
	os.Exit(m.Run())
}

// find looks for dist/desk in the folders above the package's.
func find() (string, error) {
	folder, err := os.Getwd()
	if err != nil {
		return "", fmt.Errorf("finding the engine of the repository: %w", err)
	}
	for ; folder != filepath.Dir(folder); folder = filepath.Dir(folder) {
		path := filepath.Join(folder, "dist", "desk")
		if _, err := os.Stat(path); err == nil {
			return path, nil
		}
	}
	return "", fmt.Errorf("no folder above has dist/desk: set %s", pathVariable)
}
