package yarib

// #include <yarib.h>
import "C"

import "net/netip"

// Change is a prefix whose best route has changed: its best route before and after. HasBefore and HasAfter say whether there is one.
type Change struct {
	Prefix              netip.Prefix
	Before, After       Route
	HasBefore, HasAfter bool
}

func changeOf(raw *C.yarib_change) Change {
	change := Change{Prefix: netip.PrefixFrom(address(raw.base), int(raw.len))}
	change.Before, change.HasBefore = routeOf(&raw.before)
	change.After, change.HasAfter = routeOf(&raw.after)
	return change
}

// ApplyChanged executes an Add, a Replace or a Withdraw as Apply does. It returns also the change of the best route to its prefix,
// and false if that is the same; the best routes to all other prefixes are the same. Any other command is refused.
func (table *common) ApplyChanged(command Command) (Reply, Change, bool, error) {
	asked, raw, change := command.numbers(), C.yarib_reply{}, C.yarib_change{}
	if err := table.held.change(func() uint32 { return table.held.applyChanged(&asked, &raw, &change) }); err != nil {
		return Reply{}, Change{}, false, command.failed(err)
	}
	found := changeOf(&change)
	if !found.HasBefore && !found.HasAfter {
		return replyOf(&raw), Change{}, false, nil
	}
	return replyOf(&raw), found, true, nil
}

// PurgeChanges returns which best routes a purge of the feed would change, sorted by base and length.
func (table *common) PurgeChanges(feed uint32) ([]Change, error) {
	total, room := C.size_t(64), []C.yarib_change{}
	for int(total) > len(room) {
		room = make([]C.yarib_change, total)
		if err := table.held.read(func() uint32 { return table.held.purgeChanges(C.uint32_t(feed), room, &total) }); err != nil {
			return nil, about(err, "feed %d", feed)
		}
	}
	changes := make([]Change, total)
	for k := range changes {
		changes[k] = changeOf(&room[k])
	}
	return changes, nil
}

func (one *handle) applyChanged(command *C.yarib_command, reply *C.yarib_reply, change *C.yarib_change) uint32 {
	if one.isConcurrent {
		return uint32(C.yarib_concurrent_apply_changed(one.concurrent(), command, reply, change))
	}
	return uint32(C.yarib_apply_changed(&one.inside, command, reply, change))
}

func (one *handle) purgeChanges(feed C.uint32_t, room []C.yarib_change, total *C.size_t) uint32 {
	if one.isConcurrent {
		return uint32(C.yarib_concurrent_purge_changes(one.concurrent(), feed, 0, &room[0], C.size_t(len(room)), total))
	}
	return uint32(C.yarib_purge_changes(&one.inside, feed, 0, &room[0], C.size_t(len(room)), total))
}
