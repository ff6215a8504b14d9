// Package record reads the journal's cases for people: to find, show, export and decide them again.
package record
