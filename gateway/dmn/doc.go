// Package dmn reads a .dmn file as written: its XML, and the elements of DMN 1.1 to 1.5 by namespace.
//
// It knows which elements may be where, and where each begins. It gives texts no meaning: package feel parses them, and package
// profile decides what is translated.
//
// Read reports a file that is not XML or not DMN with one Fault. Unknown parts of a DMN file become Faults of the File, so that
// one run reports them all.
package dmn
