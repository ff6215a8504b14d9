package enginetest

import (
	"bufio"
	"fmt"
	"os"
	"os/exec"
	"path/filepath"
	"regexp"
	"testing"
	"time"
)

// variable has the path of the engine if the test's program runs in its place.
const variable = "DESK_TEST_WAITING"

// Waiting returns the path of a program that is the engine at path, but waits at each request with an input Until.
func Waiting(t *testing.T, path string) string {
	t.Helper()
	path, err := filepath.Abs(path)
	if err != nil {
		t.Fatal(err)
	}
	t.Setenv(variable, path)
	own, err := os.Executable()
	if err != nil {
		t.Fatal(err)
	}
	return own
}

// Until returns an input at which the engine waits until the file exists.
func Until(file string) string { return fmt.Sprintf(`"until":"%s"`, file) }

// input finds what Until writes.
var input = regexp.MustCompile(`"until":"([^"]*)"`)

// maximumLine is longer than any line that the engine takes.
const maximumLine = 2 << 20

// run runs the engine with this program's arguments, passes its input on, and returns its status.
func run(path string) int {
	command := exec.Command(path, os.Args[1:]...)
	command.Stdout, command.Stderr = os.Stdout, os.Stderr
	to, err := command.StdinPipe()
	if err == nil {
		err = command.Start()
	}
	if err != nil {
		fmt.Fprintln(os.Stderr, err)
		return 2
	}
	lines := bufio.NewScanner(os.Stdin)
	lines.Buffer(nil, maximumLine)
	for lines.Scan() {
		if file := input.FindSubmatch(lines.Bytes()); file != nil {
			waitFor(string(file[1]))
		}
		fmt.Fprintf(to, "%s\n", lines.Bytes())
	}
	to.Close()
	if err := command.Wait(); err != nil {
		return 1
	}
	return 0
}

func waitFor(file string) {
	for {
		if _, err := os.Stat(file); err == nil {
			return
		}
		time.Sleep(time.Millisecond)
	}
}
