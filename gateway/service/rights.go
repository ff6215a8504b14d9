package service

import (
	"bufio"
	"crypto/sha256"
	"encoding/hex"
	"fmt"
	"net"
	"net/http"
	"net/netip"
	"os"
	"strings"

	"gateway/lines"
)

// A caller is the sender of a request.
type caller struct {
	// client is the name under which its requests keep their order; empty if they keep none.
	client string
	// token is the name of its token, named its X-Client header. Each may be empty.
	token, named string
	// owner is the owner of its slow requests: its token's name, or its address.
	owner string
	// mayCall, mayPut and mayRead are the rights to ask services, to put models, and to read recorded requests.
	mayCall, mayPut, mayRead bool
}

// name returns the caller's name for people.
func (c *caller) name() string {
	if c.token == "" {
		return "this machine, without a token"
	}
	return c.token
}

// A token is one line of the file of tokens.
type token struct {
	name string
	// mayCall, mayPut and mayRead are rights. isOrdered means that requests without X-Client keep their order.
	mayCall, mayPut, mayRead, isOrdered bool
}

// tokens has each token by the SHA-256 of what is sent.
type tokens map[[sha256.Size]byte]token

// readTokens reads a file of tokens: lines of a name, its rights and the SHA-256 of the token in hexadecimal. It skips
// empty lines and those that begin with #.
func readTokens(path string) (tokens, error) {
	file, err := os.Open(path)
	if err != nil {
		return nil, fmt.Errorf("reading the tokens: %w", err)
	}
	defer file.Close()
	all := tokens{}
	scanner := bufio.NewScanner(file)
	for number := 1; scanner.Scan(); number++ {
		text := strings.TrimSpace(scanner.Text())
		if text == "" || strings.HasPrefix(text, "#") {
			continue
		}
		if err := all.add(text); err != nil {
			return nil, fmt.Errorf("reading the tokens: %s, line %d: %w", path, number, err)
		}
	}
	if err := scanner.Err(); err != nil {
		return nil, fmt.Errorf("reading the tokens: %w", err)
	}
	if len(all) == 0 {
		return nil, fmt.Errorf("reading the tokens: %s has none, so nobody could call", path)
	}
	return all, nil
}

func (t tokens) add(text string) error {
	words := strings.Fields(text)
	if len(words) != 3 {
		return fmt.Errorf("it has not the form NAME RIGHT[,RIGHT..] SHA256")
	}
	it := token{name: words[0]}
	if !lines.IsText(it.name, maxClient) {
		return fmt.Errorf("a name is a text of 1 to %d bytes", maxClient)
	}
	for _, right := range strings.Split(words[1], ",") {
		switch right {
		case "call":
			it.mayCall = true
		case "put":
			it.mayPut = true
		case "read":
			it.mayRead = true
		case "ordered":
			it.isOrdered = true
		case "spread":
			// Earlier versions kept the order of a token's requests unless it was there.
		default:
			return fmt.Errorf("%q is no right; there are call, put, read and ordered", right)
		}
	}
	sum, err := hex.DecodeString(words[2])
	if err != nil || len(sum) != sha256.Size {
		return fmt.Errorf("the last word is no SHA-256 of 64 hexadecimal digits")
	}
	key := *(*[sha256.Size]byte)(sum)
	if _, is := t[key]; is {
		return fmt.Errorf("the token stands twice")
	}
	t[key] = it
	return nil
}

// maxClient is the most bytes of a client's name.
const maxClient = 64

// caller finds who sends a request, and refuses a POST from callers without the right to call.
func (s *Service) caller(r *http.Request) (caller, *problem) {
	who, p := s.known(r)
	if p == nil && r.Method == http.MethodPost && !who.mayCall {
		return caller{}, problemRight.with("the token " + who.token + " may not call")
	}
	return who, p
}

// reader finds who asks for recorded requests, and refuses callers without the right to read them.
func (s *Service) reader(r *http.Request) (caller, *problem) {
	who, p := s.known(r)
	if p == nil && !who.mayRead {
		return who, problemRight.with("recorded requests need a token with the right read")
	}
	return who, p
}

// known finds who sends a request, and its rights.
func (s *Service) known(r *http.Request) (caller, *problem) {
	named := ""
	if values := r.Header["X-Client"]; len(values) > 0 {
		named = values[0]
		if len(values) > 1 || !lines.IsText(named, maxClient) {
			return caller{}, problemHeader.with("X-Client is one text of 1 to 64 bytes in UTF-8")
		}
	}
	all := s.tokens.Load()
	if all == nil {
		isOwn := isLocal(r)
		return caller{client: named, named: named, owner: hostOf(r.RemoteAddr), mayCall: true, mayPut: isOwn, mayRead: isOwn}, nil
	}
	scheme, sent, _ := strings.Cut(r.Header.Get("Authorization"), " ")
	it, is := (*all)[sha256.Sum256([]byte(strings.TrimSpace(sent)))]
	if !is || !strings.EqualFold(scheme, "Bearer") {
		s.refusedToken(r)
		return caller{}, problemToken.with("")
	}
	who := caller{token: it.name, owner: it.name, named: named, mayCall: it.mayCall, mayPut: it.mayPut, mayRead: it.mayRead}
	switch {
	case named != "":
		who.client = it.name + " " + named
	case it.isOrdered:
		who.client = it.name
	}
	return who, nil
}

// hostOf returns an address without its port.
func hostOf(address string) string {
	if at := strings.LastIndexByte(address, ':'); at > 0 {
		return address[:at]
	}
	return address
}

// isLocal reports whether a request comes from this machine, directly and to its address. Through a proxy, or to
// another name of the host (as from a browser that was lured here), it may come from anywhere.
func isLocal(r *http.Request) bool {
	for _, name := range []string{"Forwarded", "X-Forwarded-For", "X-Real-Ip", "Via"} {
		if len(r.Header[name]) > 0 {
			return false
		}
	}
	if isUnix(r) {
		return true
	}
	from, err := netip.ParseAddrPort(r.RemoteAddr)
	if err != nil || !from.Addr().Unmap().IsLoopback() {
		return false
	}
	return isLoopbackHost(r)
}

// isUnix reports whether a request comes through a unix socket.
func isUnix(r *http.Request) bool {
	address, is := r.Context().Value(http.LocalAddrContextKey).(net.Addr)
	return is && address.Network() == "unix"
}

// isLoopbackHost reports whether a request addresses this machine by its own address, or as localhost.
func isLoopbackHost(r *http.Request) bool {
	host, _, err := net.SplitHostPort(r.Host)
	if err != nil {
		host = r.Host
	}
	if strings.EqualFold(host, "localhost") {
		return true
	}
	to, err := netip.ParseAddr(strings.Trim(host, "[]"))
	return err == nil && to.Unmap().IsLoopback()
}
