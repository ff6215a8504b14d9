package engine

import (
	"errors"
	"fmt"
	"io"
	"os"
	"os/exec"
	"strconv"
	"strings"
	"sync"
	"syscall"

	"golang.org/x/sys/unix"
)

// oomScore makes the kernel end an engine before the program that can restart it.
const oomScore = "500"

// A process is a running engine.
type process struct {
	command *exec.Cmd
	in      io.WriteCloser
	out     io.ReadCloser
	said    *firstBytes
}

// begin starts the engine with these arguments, in a process group of its own, so that it doesn't get our signals.
// Memory limits its address space, in bytes; 0 is no limit.
func begin(path string, memory uint64, words ...string) (*process, error) {
	p := &process{command: exec.Command(path, words...), said: &firstBytes{}}
	p.command.SysProcAttr = &syscall.SysProcAttr{Setpgid: true}
	p.command.Stderr = p.said
	var err error
	if p.in, err = p.command.StdinPipe(); err != nil {
		return nil, fmt.Errorf("starting the engine: %w", err)
	}
	if p.out, err = p.command.StdoutPipe(); err != nil {
		return nil, fmt.Errorf("starting the engine: %w", err)
	}
	if err = p.command.Start(); err != nil {
		return nil, NotStarted(path, err)
	}
	if err = Bound(p.command.Process.Pid, memory); err != nil {
		p.kill()
		_ = p.wait()
		return nil, fmt.Errorf("starting the engine: %w", err)
	}
	return p, nil
}

// Bound sets the limits of an engine that has read nothing yet: if memory is short it is the first to end, and its
// address space has at most that many bytes, unless that is 0.
func Bound(pid int, memory uint64) error {
	// Without /proc, the kernel's choice will do.
	_ = os.WriteFile("/proc/"+strconv.Itoa(pid)+"/oom_score_adj", []byte(oomScore), 0o644)
	if memory == 0 {
		return nil
	}
	limit := unix.Rlimit{Cur: memory, Max: memory}
	if err := unix.Prlimit(pid, unix.RLIMIT_AS, &limit, nil); err != nil {
		return fmt.Errorf("limiting its memory: %w", err)
	}
	return nil
}

// pipeSize is how many bytes may wait between an engine and this program under load.
const pipeSize = 1 << 20

// widen lets more bytes wait, so that the two wake each other less often. If the kernel doesn't allow it, less will do.
func (p *process) widen() {
	for _, end := range []any{p.in, p.out} {
		file, is := end.(syscall.Conn)
		if !is {
			continue
		}
		if raw, err := file.SyscallConn(); err == nil {
			_ = raw.Control(func(descriptor uintptr) {
				_, _ = unix.FcntlInt(descriptor, unix.F_SETPIPE_SZ, pipeSize)
			})
		}
	}
}

func (p *process) kill() {
	_ = p.command.Process.Kill()
}

// wasKilled reports whether a process ended by SIGKILL.
func wasKilled(err error) bool {
	var exit *exec.ExitError
	if !errors.As(err, &exit) {
		return false
	}
	status, is := exit.Sys().(syscall.WaitStatus)
	return is && status.Signaled() && status.Signal() == syscall.SIGKILL
}

// wait waits for its end, and returns an error if it ended badly.
func (p *process) wait() error {
	err := p.command.Wait()
	if err == nil {
		return nil
	}
	if said := p.said.String(); said != "" {
		return fmt.Errorf("%w: %s", err, said)
	}
	return err
}

// firstBytes keeps the first bytes written to it.
type firstBytes struct {
	mu   sync.Mutex
	text []byte
}

func (f *firstBytes) Write(text []byte) (int, error) {
	f.mu.Lock()
	defer f.mu.Unlock()
	if room := 512 - len(f.text); room > 0 {
		if len(text) < room {
			room = len(text)
		}
		f.text = append(f.text, text[:room]...)
	}
	return len(text), nil
}

func (f *firstBytes) String() string {
	f.mu.Lock()
	defer f.mu.Unlock()
	return strings.TrimSpace(string(f.text))
}
