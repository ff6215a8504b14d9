// Package engine finds and runs the engine, the program desk.
//
// A Pool has engines, each a process with one worker. Requests go through lanes: client names that are the same in every
// process, as an engine never frees a name. A lane is first in, first out: the engine answers it in the order of its lines, so
// the n-th answer of a lane belongs to its n-th request. A refusal that names no lane is identified by its line number.
//
// Each request carries its model. An engine gets a model when the next request has another one than the last did; requests of
// older models go first. So after Switch every new request has the new model, in all engines.
//
// When an engine ends unexpectedly, another process takes its place, and its unanswered requests are sent again, one at a time
// and each under its model. A request at which that engine ends too is given up.
package engine
