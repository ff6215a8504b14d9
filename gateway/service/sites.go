package service

import (
	"net"
	"net/http"
	"net/url"
	"strings"
)

// siteProblem refuses what pages of other sites send through a browser: requests that would do something, and, if only
// this machine may call and needs no token, those under a name that was made to point here. It is nil for others.
func (s *Service) siteProblem(r *http.Request) *problem {
	if s.isPrivate && s.tokens.Load() == nil && !isUnix(r) && !isLoopbackHost(r) {
		return problemHost.with("it is called " + r.Host + " here, and not by a loopback address or localhost")
	}
	if r.Method != http.MethodGet && r.Method != http.MethodHead && isCrossSite(r) {
		return problemSite.with("")
	}
	return nil
}

// isPrivate reports whether only this machine reaches a listener.
func isPrivate(listener net.Listener) bool {
	at, is := listener.Addr().(*net.TCPAddr)
	return is && at.IP.IsLoopback()
}

// isCrossSite reports whether a browser sends a request for a page of another site.
func isCrossSite(r *http.Request) bool {
	if site := r.Header.Get("Sec-Fetch-Site"); site != "" {
		return site != "same-origin" && site != "none"
	}
	origin := r.Header.Get("Origin")
	if origin == "" {
		return false
	}
	from, err := url.Parse(origin)
	return err != nil || !strings.EqualFold(from.Host, r.Host)
}
