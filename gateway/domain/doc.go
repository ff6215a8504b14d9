// Package domain says which values a declared domain has: those that satisfy its unary tests, which have constants alone. A value is as the
// engine has it, and lies in a domain exactly if the engine says so.
package domain
