// Package journal records answers on disk, in files that `desk explain` can read.
//
// A journal is a folder with files of lines. An entry is what is recorded at once: the request's line, if there is one, and a
// line about it:
//
//	{"model":M}
//	{"n":1,"begins":true,..,"before":"SUM","chain":"SUM","close":true}
//	{"client":"ID","inputs":{..},"service":"s"}
//	{"n":2,..,"chain":"SUM","close":true}
//
// A file begins with a model, under which all its requests were answered, so they can be repeated from the file alone. Lines
// that end with "close":true are not the engine's.
//
// The entries of all files are numbered in the order of writing, and chained: an entry's chain is the SHA-256 of the chain
// before it, as 32 bytes, and of the entry's text up to the comma before "chain". So one sum stands for everything written
// before, and a changed, cut or missing line is found. Whoever can write the files can write another chain: Options.Ended is
// called with each file's last sum, to be kept elsewhere.
//
// Entries are on disk when Append or Record returns: they are written and synced in groups. A file only changes at its end.
// What a fault leaves there in part is cut off, at once or when the journal is next opened. If others delete, replace or cut a
// file of an open journal, the journal ends: nothing more is recorded.
package journal
