package service

import (
	"fmt"
	"net"
	"syscall"
	"time"

	"golang.org/x/net/bpf"
	"golang.org/x/sys/unix"
)

const (
	// handshakePatience is how long a connection may take to be established once it has begun.
	handshakePatience = 250 * time.Millisecond
	// acceptTurns is how many turns of acceptTurn established connections may take to be accepted. A process that has to
	// wait for a processor accepts nothing meanwhile, and counts no turns either.
	acceptTurns = 200
	acceptTurn  = 10 * time.Millisecond
)

// shutOut stops new connections at a socket, and waits until those that have begun are accepted. The kernel resets
// connections that still wait when a socket is closed, though their callers may have sent a request. Meanwhile new
// callers get no answer from the kernel; they try again after a second, and are refused once the socket is closed.
func shutOut(listener net.Listener) error {
	socket, is := listener.(*net.TCPListener)
	if !is {
		return nil
	}
	raw, err := socket.SyscallConn()
	if err != nil {
		return fmt.Errorf("letting no connection begin: %w", err)
	}
	if err := dropBeginnings(raw); err != nil {
		return fmt.Errorf("letting no connection begin: %w", err)
	}
	time.Sleep(handshakePatience)
	for turn := 0; turn < acceptTurns && waiting(raw) > 0; turn++ {
		time.Sleep(acceptTurn)
	}
	return nil
}

// Offsets in a TCP header.
const (
	flagsAt = 13
	flagSYN = 0x02
	flagACK = 0x10
)

// dropBeginnings makes the kernel drop segments that begin a connection: those with SYN and without ACK.
func dropBeginnings(raw syscall.RawConn) error {
	program, err := bpf.Assemble([]bpf.Instruction{
		bpf.LoadAbsolute{Off: flagsAt, Size: 1},
		bpf.ALUOpConstant{Op: bpf.ALUOpAnd, Val: flagSYN | flagACK},
		bpf.JumpIf{Cond: bpf.JumpEqual, Val: flagSYN, SkipTrue: 1},
		bpf.RetConstant{Val: 1 << 18},
		bpf.RetConstant{Val: 0},
	})
	if err != nil {
		return err
	}
	filter := make([]unix.SockFilter, len(program))
	for at, step := range program {
		filter[at] = unix.SockFilter{Code: step.Op, Jt: step.Jt, Jf: step.Jf, K: step.K}
	}
	var failed error
	err = raw.Control(func(descriptor uintptr) {
		failed = unix.SetsockoptSockFprog(int(descriptor), unix.SOL_SOCKET, unix.SO_ATTACH_FILTER,
			&unix.SockFprog{Len: uint16(len(filter)), Filter: &filter[0]})
	})
	if err == nil {
		err = failed
	}
	return err
}

// waiting returns how many connections wait to be accepted.
func waiting(raw syscall.RawConn) int {
	count := 0
	_ = raw.Control(func(descriptor uintptr) {
		// For a listening socket this is the number of connections in its queue.
		if info, err := unix.GetsockoptTCPInfo(int(descriptor), unix.IPPROTO_TCP, unix.TCP_INFO); err == nil {
			count = int(info.Unacked)
		}
	})
	return count
}
