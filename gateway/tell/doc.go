// Package tell words what the engine finds: faults of models, refused request lines, findings about decision tables, and
// explanations of answers. The engine reports these as lines of JSON. This package adds line and column, what could be there,
// and what to write instead. It decides nothing: whether a model is valid is up to the engine.
//
// The words depend only on the engine's lines and the bytes of the file. If this package fails, the engine's lines are passed
// through unchanged.
package tell
