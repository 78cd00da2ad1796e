package yarib

import (
	"errors"
	"net/netip"
	"runtime"
	"sync"
	"sync/atomic"
	"testing"
	"time"
)

func concurrentTable(t *testing.T, limit uint32) *ConcurrentTable {
	t.Helper()
	made, err := NewConcurrent(limit)
	must(t, err)
	t.Cleanup(func() { must(t, made.Close()) })
	return made
}

func TestASourceOfAConcurrentTable(t *testing.T) {
	one := concurrentTable(t, 5)
	source, err := NewSource(one, 2, 3)
	must(t, err)
	ten := netip.MustParsePrefix("10.0.0.0/8")
	_, err = source.Put(ten, 5, Discard)
	must(t, err)
	found, err := source.Routes()
	must(t, err)
	same(t, "routes", found, []Route{{ten, source.FeedOf(ten), 5, Discard}})
}

const (
	published = 100 // tables
	prefixes  = 64
)

// publish publishes table k: all its next hops are k, and if k is odd, each prefix has a longer one in it.
func publish(t *testing.T, one *ConcurrentTable, k uint32) {
	t.Helper()
	commands := []Command{}
	for j := uint32(0); j < prefixes; j++ {
		wide := Command{Operation: Replace, Feed: 1, Prefix: netip.PrefixFrom(addressOf(j<<24), 8), Hop: Via(addressOf(k))}
		if k == 0 {
			wide.Operation = Add
		}
		narrow := Command{Operation: Withdraw, Feed: 1, Prefix: netip.PrefixFrom(addressOf(j<<24), 16), Hop: Via(addressOf(k))}
		if k%2 == 1 {
			narrow.Operation = Add
		}
		commands = append(commands, wide, narrow)
	}
	outcomes, err := one.ApplyEach(commands)
	must(t, err)
	for j, outcome := range outcomes {
		if outcome.Err != nil || (k > 0 && unchanged(outcome.Reply.Code) != nil) {
			t.Fatal(k, commands[j], outcome)
		}
	}
}

// publishedTable returns the routes of table k, sorted.
func publishedTable(k uint32) []Route {
	routes := []Route{}
	for j := uint32(0); j < prefixes; j++ {
		for length := 8; length <= 8+8*int(k%2); length += 8 {
			routes = append(routes, Route{netip.PrefixFrom(addressOf(j<<24), length), 1, 0, Via(addressOf(k))})
		}
	}
	return routes
}

// numberOfTable returns the number of the table that a route is from.
func numberOfTable(route Route) uint32 {
	router, _ := route.Hop.Router()
	return uint32(numberOf(router))
}

func isSame(one, other []Route) bool {
	if len(one) != len(other) {
		return false
	}
	for k := range one {
		if one[k] != other[k] {
			return false
		}
	}
	return true
}

// waysToRead are calls that read a concurrent table. Each returns what it found, and what it would find in table k.
var waysToRead = []func(one *ConcurrentTable) ([]Route, func(k uint32) []Route, error){
	func(one *ConcurrentTable) ([]Route, func(k uint32) []Route, error) {
		route, _, err := one.LookUp(addressOf(5 << 24))
		return []Route{route}, func(k uint32) []Route { return publishedTable(k)[5+6*(k%2) : 6+6*(k%2)] }, err
	},
	func(one *ConcurrentTable) ([]Route, func(k uint32) []Route, error) {
		asked, found := []uint32{}, []Route{}
		for j := uint32(0); j < prefixes; j++ {
			asked = append(asked, j<<24, j<<24|1<<16)
		}
		answers, err := one.LookUpEach(asked)
		for j := 0; j < answers.Len(); j++ {
			route, _ := answers.At(j)
			found = append(found, route)
		}
		return found, func(k uint32) []Route {
			routes, all := publishedTable(k), []Route{}
			for j := 0; j < len(routes); j++ {
				if k%2 == 0 {
					all = append(all, routes[j], routes[j])
				} else {
					all = append(all, routes[j^1])
				}
			}
			return all
		}, err
	},
	func(one *ConcurrentTable) ([]Route, func(k uint32) []Route, error) {
		found, err := one.Routes()
		return found, publishedTable, err
	},
	func(one *ConcurrentTable) ([]Route, func(k uint32) []Route, error) {
		found, err := one.RoutesFrom(Place{}, 3*prefixes)
		return found, publishedTable, err
	},
	func(one *ConcurrentTable) ([]Route, func(k uint32) []Route, error) {
		found, err := one.Select(Selection{Part: Within, Prefix: netip.PrefixFrom(addressOf(0), 2)})
		return found, publishedTable, err
	},
	func(one *ConcurrentTable) ([]Route, func(k uint32) []Route, error) {
		found, err := one.LookUpAll(addressOf(0))
		return found, func(k uint32) []Route {
			all := publishedTable(k)[:1+k%2]
			if len(all) == 2 {
				all[0], all[1] = all[1], all[0]
			}
			return all
		}, err
	},
}

// Four goroutines read and one publishes tables. Each call returns what one published table holds: the last one that was published
// before the call, or a later one.
func TestGoroutinesReadOnePublishedTable(t *testing.T) {
	for _, isFollowed := range []bool{false, true} {
		one, last, ended := concurrentTable(t, 2*prefixes), uint32(0), make(chan struct{})
		publish(t, one, 0)
		if isFollowed {
			must(t, one.FibAttach())
		}
		var group sync.WaitGroup
		for k := 0; k < 4; k++ {
			group.Add(1)
			go func() {
				defer group.Done()
				readPublished(t, one, &last, ended)
			}()
		}
		for k := uint32(1); k <= published && !t.Failed(); k++ {
			publish(t, one, k)
			atomic.StoreUint32(&last, k)
		}
		close(ended)
		group.Wait()
	}
}

func readPublished(t *testing.T, one *ConcurrentTable, last *uint32, ended chan struct{}) {
	seen := uint32(0)
	for {
		select {
		case <-ended:
			return
		default:
		}
		for way, read := range waysToRead {
			least := atomic.LoadUint32(last)
			found, wanted, err := read(one)
			if err != nil || len(found) == 0 {
				t.Error(way, found, err)
				return
			}
			k := numberOfTable(found[0])
			if k < least || k < seen || k > published || !isSame(found, wanted(k)) {
				t.Errorf("way %d, table %d, at least %d and %d: %v", way, k, least, seen, found)
				return
			}
			seen = k
		}
		if count, err := one.Count(); err != nil || (count != prefixes && count != 2*prefixes) {
			t.Error(count, err)
			return
		}
	}
}

func TestGoroutinesChangeOneConcurrentTable(t *testing.T) {
	one, group := concurrentTable(t, 1000), sync.WaitGroup{}
	for feed := uint32(1); feed <= 4; feed++ {
		group.Add(1)
		go func(feed uint32) {
			defer group.Done()
			for k := uint32(0); k < 500; k++ {
				if _, err := one.Add(feed, netip.PrefixFrom(addressOf(k<<12), 20), k, Discard); err != nil {
					t.Error(err)
					return
				}
			}
		}(feed)
	}
	group.Wait()
	count, err := one.Count()
	must(t, err)
	same(t, "how many routes were added", count, 4*500)
}

// While a change holds the lock, calls that read return, and another change waits.
func TestEveryReaderOfAConcurrentTableGoesOn(t *testing.T) {
	one, ended, changed := concurrentTable(t, 2*prefixes), make(chan error), make(chan error)
	publish(t, one, 0)
	one.held.lock.Lock()
	go func() {
		for _, read := range waysToRead {
			if _, _, err := read(one); err != nil {
				ended <- err
			}
		}
		ended <- nil
	}()
	select {
	case err := <-ended:
		must(t, err)
	case <-time.After(20 * time.Second):
		one.held.lock.Unlock()
		t.Fatal("a call that reads waits")
	}
	go func() {
		_, err := one.Apply(Command{Operation: Dump, Feed: 1})
		changed <- err
	}()
	select {
	case err := <-changed:
		one.held.lock.Unlock()
		t.Fatal("a change doesn't wait", err)
	case <-time.After(50 * time.Millisecond):
	}
	one.held.lock.Unlock()
	must(t, <-changed)
}

func TestEveryReaderSeesThatATableIsClosed(t *testing.T) {
	for round := 0; round < 10; round++ {
		one, group := concurrentTable(t, 2*prefixes), sync.WaitGroup{}
		publish(t, one, 0)
		for k := 0; k < 4; k++ {
			group.Add(1)
			go func() {
				defer group.Done()
				for {
					route, _, err := one.LookUp(addressOf(5 << 24))
					if errors.Is(err, ErrClosed) {
						return
					}
					if err != nil || numberOfTable(route) > 20 {
						t.Error(route, err)
						return
					}
				}
			}()
		}
		for k := uint32(1); k <= 20; k++ {
			publish(t, one, k)
		}
		one.Close()
		one.Close()
		group.Wait()
	}
}

func TestAZeroConcurrentTableIsClosed(t *testing.T) {
	var zero ConcurrentTable
	zero.Close()
	for what, call := range map[string]func() error{
		"count":  func() error { _, err := zero.Count(); return err },
		"apply":  func() error { _, err := zero.Apply(Command{Operation: Dump, Feed: 1}); return err },
		"routes": func() error { _, err := zero.Routes(); return err },
		"follow": func() error { return zero.FibAttach() },
		"is":     func() error { _, err := zero.FibIsAttached(); return err },
		"memory": func() error { _, err := zero.Memory(); return err },
		"page":   func() error { _, err := zero.RoutesFrom(Place{}, 1); return err },
	} {
		if err := call(); !errors.Is(err, ErrClosed) {
			t.Fatal(what, err)
		}
	}
	if _, err := NewConcurrent(0); !errors.Is(err, ErrNumber) {
		t.Fatal(err)
	}
}

func TestConcurrentTablesAreFreed(t *testing.T) {
	before := resident(t)
	for k := 0; k < 8; k++ {
		one, err := NewConcurrent(5)
		must(t, err)
		isFollowed(t, one, false)
		must(t, one.FibAttach())
		isFollowed(t, one, true)
		if k%2 == 0 {
			one.Close()
		}
		one = nil
		runtime.GC()
		time.Sleep(10 * time.Millisecond)
	}
	if grown := resident(t) - before; grown > 5<<26 {
		t.Fatal(grown)
	}
}

// Views that are made during changes that need more blocks and routers each time.
func TestGoroutinesMakeViewsOfOnePublishedTable(t *testing.T) {
	table, err := NewConcurrent(1000000)
	must(t, err)
	defer table.Close()
	change := func(operation Operation, k uint32) {
		commands := []Command{}
		for j := uint32(0); j < 64; j++ {
			commands = append(commands, Command{Operation: operation, Feed: 1, Prefix: netip.PrefixFrom(addressOf(j<<24), 8), Hop: Via(addressOf(k))},
				Command{Operation: Add, Feed: 2, Prefix: netip.PrefixFrom(addressOf(200<<24|(k*64+j)<<8), 32), Hop: Via(addressOf(1000 + k*64 + j))})
		}
		_, err := table.ApplyEach(commands)
		must(t, err)
	}
	change(Add, 0)
	must(t, table.FibAttach())
	asked, ended, readers := []uint32{}, make(chan struct{}), sync.WaitGroup{}
	for j := uint32(0); j < 64; j++ {
		asked = append(asked, j<<24)
	}
	for k := 0; k < 2; k++ {
		readers.Add(1)
		go func() {
			defer readers.Done()
			for {
				select {
				case <-ended:
					return
				default:
				}
				view, err := table.ViewNew()
				if err != nil {
					t.Error(err)
					return
				}
				numbers, hops := make([]uint32, len(asked)), make([]uint32, len(asked))
				if view.LookUpEach(asked, numbers) != nil || table.Hops(asked, 1<<31, 1<<31+1, hops) != nil {
					t.Error("a look-up failed")
				}
				for j := range asked {
					one, _ := view.Hop(numbers[j])
					first, isThere := view.Hop(numbers[0])
					if one != first || !isThere || hops[j] != hops[0] {
						t.Error("answers of two tables", one, first, hops[j], hops[0])
						return
					}
				}
			}
		}()
	}
	for k := uint32(1); k < 12; k++ {
		change(Replace, k)
	}
	close(ended)
	readers.Wait()
}

// A copy has the published routes, and a table replaces another at once. Both have their own limit.
func TestEveryCopyOfAConcurrentTable(t *testing.T) {
	table, err := NewConcurrent(5)
	must(t, err)
	prefix := func(k uint32) netip.Prefix { return netip.PrefixFrom(addressOf(k<<24), 8) }
	for k := uint32(10); k < 12; k++ {
		_, err := table.Add(1, prefix(k), 0, Via(addressOf(k)))
		must(t, err)
	}
	copied, err := table.Copy(2)
	must(t, err)
	_, err = table.Withdraw(1, prefix(11))
	must(t, err)
	routes, err := copied.Routes()
	must(t, err)
	same(t, "routes of a copy", routes, []Route{{prefix(10), 1, 0, Via(addressOf(10))}, {prefix(11), 1, 0, Via(addressOf(11))}})
	if _, err := copied.Add(1, prefix(12), 0, Discard); !errors.Is(err, ErrFull) {
		t.Fatal(err)
	}
	other, err := NewConcurrent(5)
	must(t, err)
	must(t, other.ReplaceAll(copied, 2))
	routes, err = other.Routes()
	must(t, err)
	same(t, "routes of a table that was replaced", len(routes), 2)
	if _, err := other.Add(1, prefix(12), 0, Discard); !errors.Is(err, ErrFull) {
		t.Fatal(err)
	}
	found, err := table.Differences(other, ByHop)
	must(t, err)
	same(t, "how many differences", len(found), 1)
	same(t, "a difference", []any{found[0].First, found[0].HasBefore, found[0].After.Hop}, []any{addressOf(11 << 24), false, Via(addressOf(11))})
	found, err = table.Differences(table, ByRoute)
	must(t, err)
	same(t, "differences of one table", found, []Difference{})
	for what, call := range map[error][]func() error{
		ErrFull: {func() error { _, err := other.Copy(1); return err }, func() error { return other.ReplaceAll(copied, 1) }},
		ErrNumber: {func() error { _, err := other.Copy(0); return err }, func() error { return other.ReplaceAll(copied, MaxLimit+1) },
			func() error { _, err := table.Differences(other, 2); return err }},
		ErrClosed: {func() error { return other.ReplaceAll(&Table{}, 1) }, func() error { return (&ConcurrentTable{}).ReplaceAll(copied, 1) },
			func() error { _, err := (&ConcurrentTable{}).Copy(1); return err },
			func() error { _, err := table.Differences(&ConcurrentTable{}, ByHop); return err }},
	} {
		for _, one := range call {
			if err := one(); !errors.Is(err, what) {
				t.Fatal(what, err)
			}
		}
	}
	// The limit is none that is out of range.
	same(t, "a table that is replaced with too low a limit", other.ReplaceAll(copied, 1), ErrFull)
	var readers sync.WaitGroup
	readers.Add(1)
	must(t, other.FibAttach())
	ended := make(chan struct{})
	go func() {
		defer readers.Done()
		for {
			select {
			case <-ended:
				return
			default:
			}
			if one, found, err := other.LookUp(addressOf(10 << 24)); err != nil || !found || one.Hop != Via(addressOf(10)) {
				t.Error(one, found, err)
				return
			}
		}
	}()
	for k := 0; k < 5; k++ {
		must(t, other.ReplaceAll(copied, 2))
	}
	close(ended)
	readers.Wait()
	isFollowed(t, other, true)
	copied.Close()
	if err := other.ReplaceAll(copied, 2); !errors.Is(err, ErrClosed) {
		t.Fatal(err)
	}
}
