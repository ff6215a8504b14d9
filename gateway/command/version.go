package command

import (
	"crypto/sha256"
	"encoding/hex"
	"fmt"
	"io"
	"os"
	"strings"

	"github.com/spf13/cobra"

	"gateway/engine"
)

// Set by the linker: the program's version, and the SHA-256 of its engine.
var (
	version   = "0.0.0"
	engineSum = ""
)

// writeVersion writes this program's version, and its engine's: version, logic and sources.
func writeVersion(c *cobra.Command) error {
	fmt.Fprintf(c.OutOrStdout(), "desk %s\n", version)
	path, err := engine.Path()
	if err != nil {
		return err
	}
	said, status, err := engine.Once(c.Context(), nil, "--version")
	switch {
	case err != nil:
		return err
	case status != statusDone || !strings.HasPrefix(string(said), "desk "):
		return fmt.Errorf("%w: %s does not report a version", engine.ErrNoEngine, path)
	}
	fmt.Fprintf(c.OutOrStdout(), "engine %sengine's file %s\n", strings.TrimPrefix(string(said), "desk "), path)
	for _, note := range engineNotes(path) {
		fmt.Fprintf(c.ErrOrStderr(), "desk: %s\n", note)
	}
	return nil
}

// engineNotes notes if the engine is not the one that this program was built with.
func engineNotes(path string) []string {
	sum, err := sumOf(path)
	switch {
	case engineSum == "":
		return nil
	case err != nil:
		return []string{fmt.Sprintf("the engine's SHA-256 is not known: %v", err)}
	case sum != engineSum:
		return []string{fmt.Sprintf("the engine %s is another one than this program was built with: its SHA-256 is %s, not %s",
			path, sum, engineSum)}
	}
	return nil
}

// sumOf returns the SHA-256 of a file in hexadecimal.
func sumOf(path string) (string, error) {
	file, err := os.Open(path)
	if err != nil {
		return "", err
	}
	defer file.Close()
	sum := sha256.New()
	if _, err := io.Copy(sum, file); err != nil {
		return "", err
	}
	return hex.EncodeToString(sum.Sum(nil)), nil
}
