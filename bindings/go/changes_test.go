package yarib

import (
	"errors"
	"net/netip"
	"testing"
)

// changedBy executes a command, and returns what it changes.
func changedBy(t *testing.T, one *common, command Command) (Reply, []Change) {
	t.Helper()
	if command.Operation == Purge {
		changes, err := one.PurgeChanges(command.Feed)
		must(t, err)
		reply, err := one.Apply(command)
		must(t, err)
		return reply, changes
	}
	reply, change, hasChanged, err := one.ApplyChanged(command)
	must(t, err)
	if !hasChanged {
		same(t, "no change", change, Change{})
		return reply, []Change{}
	}
	return reply, []Change{change}
}

func TestChangesThatAreRefused(t *testing.T) {
	concurrent := concurrentTable(t, 6)
	for _, feed := range []uint32{0, MaxFeed + 1} {
		if _, err := concurrent.PurgeChanges(feed); !errors.Is(err, ErrNumber) {
			t.Fatal(feed, err)
		}
		if _, _, _, err := concurrent.ApplyChanged(Command{Operation: Purge, Feed: 1}); !errors.Is(err, ErrCommand) {
			t.Fatal(err)
		}
	}
}

// A list of changes that is longer than the first room for it.
func TestAPurgeOfManyPrefixes(t *testing.T) {
	one := table(t, 1000, false)
	for k := 0; k < 200; k++ {
		prefix := netip.PrefixFrom(netip.AddrFrom4([4]byte{10, byte(k), 0, 0}), 16)
		_, err := one.Add(1, prefix, 1, Discard)
		must(t, err)
		if k%2 == 0 {
			_, err = one.Add(2, prefix, 0, Discard)
			must(t, err)
		}
	}
	for feed, wanted := range map[uint32]int{1: 100, 2: 100, 3: 0} {
		changes, err := one.PurgeChanges(feed)
		must(t, err)
		same(t, "the number of changes", len(changes), wanted)
	}
}

// A list of counts that is longer than the first room for it.
func TestCountsOfManyNextHops(t *testing.T) {
	one, wanted := table(t, 1000, false), []HopCount{}
	for k := uint32(0); k < 200; k++ {
		_, err := one.Add(1, netip.PrefixFrom(addressOf(k<<16), 16), 1, Via(addressOf(k)))
		must(t, err)
		wanted = append(wanted, HopCount{Via(addressOf(k)), 1})
	}
	found, err := one.HopCounts()
	must(t, err)
	same(t, "the counts", found, wanted)
}
