// Package wanzoche lets goroutines wait until path expressions admit what they are about to do.
//
// A declaration says in which order the operations of a resource may run, as `path { query : 3 } , backup end`: up to three queries at
// once, or one backup. Whoever is about to query enters that operation, and leaves it afterwards:
//
//	paths, err := wanzoche.Open(text)
//	..
//	query, err := paths.Op("query")
//	..
//	entry, err := paths.Enter(ctx, query)
//	if err != nil {
//		return err // the context is over, or the paths are closed
//	}
//	defer entry.Leave()
//
// Goroutines that wait hold no thread of the system. They stand in one order, by priority and then by arrival, and a start that stands in
// the way of one who waits is withheld, as Options.Patience says. Whoever enters within an entry says so by its context: Do and WithEntry
// do. Else it may wait for one who waits for that entry to end, for 0.2 seconds at a time.
//
// What is answered comes from a C library whose contracts are proved; the waiting is Go, and is tested.
package wanzoche
