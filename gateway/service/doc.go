// Package service puts HTTP before a pool of engines. It decides nothing: it checks that engines would accept a
// request, sends them its line, and returns the answer.
//
// docs/HTTP.md has each path, header and error.
package service
