package engine

import "io"

// A Running is an engine that is only used through its lines.
type Running struct{ process *process }

// Begin starts the engine with these arguments. Memory limits its address space, in bytes; 0 is no limit.
func Begin(path string, memory uint64, words ...string) (*Running, error) {
	p, err := begin(path, memory, words...)
	if err != nil {
		return nil, err
	}
	p.widen()
	return &Running{process: p}, nil
}

// In returns its input, and Out its output.
func (r *Running) In() io.WriteCloser { return r.process.in }
func (r *Running) Out() io.Reader     { return r.process.out }

// Kill ends it.
func (r *Running) Kill() { r.process.kill() }

// Wait waits for its end, once its output was read, and returns an error if it ended badly.
func (r *Running) Wait() error { return r.process.wait() }
