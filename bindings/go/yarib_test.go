package yarib

import (
	"errors"
	"net/netip"
	"sync"
	"testing"
)

func addressOf(number uint32) netip.Addr {
	return netip.AddrFrom4([4]byte{byte(number >> 24), byte(number >> 16), byte(number >> 8), byte(number)})
}

func TestErrorsLeaveAllAsItWas(t *testing.T) {
	for _, limit := range []uint32{0, 1000001} {
		if _, err := New(limit); !errors.Is(err, ErrNumber) {
			t.Fatal(err)
		}
	}
	table, _ := New(5)
	ten := netip.MustParsePrefix("10.0.0.0/8")
	for _, faulty := range []struct {
		command Command
		err     error
	}{
		{Command{Operation: Add, Feed: MaxFeed + 1, Prefix: ten}, ErrNumber},
		{Command{Operation: Add, Feed: 1, Prefix: netip.MustParsePrefix("::/0")}, ErrCommand},
		{Command{Operation: Add, Feed: 1}, ErrCommand},
		{Command{Operation: Add, Feed: 1, Prefix: netip.MustParsePrefix("10.0.0.1/8")}, ErrCommand},
		{Command{Operation: Add, Feed: 1, Prefix: ten, Hop: Via(netip.MustParseAddr("::1"))}, ErrCommand},
		{Command{Operation: Lookup, Feed: 1, Address: netip.MustParseAddr("::1")}, ErrCommand},
		{Command{Operation: 9, Feed: 1}, ErrCommand},
	} {
		if _, err := table.Apply(faulty.command); !errors.Is(err, faulty.err) {
			t.Fatal(faulty, err)
		}
	}
	if _, err := table.Journal(); !errors.Is(err, ErrKind) {
		t.Fatal(err)
	}
	for text, wanted := range map[string]error{"10.0.0.0": ErrText, "10.0.0.0/33": ErrLength, "10.0.0.1/8": ErrBits, "": ErrText} {
		if _, err := ParsePrefix(text); !errors.Is(err, wanted) {
			t.Fatal(text, err)
		}
	}
	if prefix, err := ParsePrefix("10.0.0.0/8"); err != nil || prefix != ten {
		t.Fatal(prefix, err)
	}
	if outcomes, err := table.ApplyEach(nil); err != nil || len(outcomes) != 0 {
		t.Fatal(outcomes, err)
	}
	if count, err := table.Count(); err != nil || count != 0 {
		t.Fatal(count, err)
	}
	table.Close()
	if _, err := table.Count(); !errors.Is(err, ErrClosed) {
		t.Fatal(err)
	}
	journaled, _ := NewJournaled(5)
	if err := journaled.Reserve(-1); !errors.Is(err, ErrMemory) {
		t.Fatal(err)
	}
	if err := journaled.FibAttach(); !errors.Is(err, ErrKind) {
		t.Fatal(err)
	}
}

func TestGoroutinesLookUpAtOnce(t *testing.T) {
	table, _ := New(1000)
	for k := uint32(0); k < 256; k++ {
		if _, err := table.Add(1, netip.PrefixFrom(addressOf(k<<24), 8), k, Discard); err != nil {
			t.Fatal(err)
		}
	}
	first, err := table.FibNew()
	if err != nil {
		t.Fatal(err)
	}
	if bytes, err := first.Memory(); err != nil || bytes < 1<<26 {
		t.Fatal(bytes, err)
	}
	if _, err := table.Apply(Command{Operation: Purge, Feed: 1}); err != nil {
		t.Fatal(err)
	}
	asked := make([]uint32, 100000)
	for k := range asked {
		asked[k] = uint32(k%256)<<24 | uint32(k)
	}
	var group sync.WaitGroup
	for k := 0; k < 8; k++ {
		one, err := first.Clone()
		if err != nil {
			t.Fatal(err)
		}
		group.Add(1)
		go func() {
			defer group.Done()
			answers, err := one.LookUpEach(asked)
			for k := range asked {
				if route, found := answers.At(k); err != nil || !found || route.Pref != uint32(k%256) {
					t.Error(k, route, err)
					return
				}
			}
		}()
	}
	first.Close()
	group.Wait()
}

// Four goroutines look up and one changes, on one table: the next hop goes up with each change.
func TestGoroutinesMeetOnOneTable(t *testing.T) {
	const changes = 1000
	eight, address := netip.MustParsePrefix("10.0.0.0/8"), netip.MustParseAddr("10.1.2.3")
	for _, isFollowed := range []bool{false, true} {
		table, _ := New(10)
		other, _ := New(10)
		if _, err := table.Add(1, eight, 0, Via(addressOf(0))); err != nil {
			t.Fatal(err)
		}
		if isFollowed {
			if err := table.FibAttach(); err != nil {
				t.Fatal(err)
			}
		}
		ended := make(chan struct{})
		var group sync.WaitGroup
		for k := 0; k < 4; k++ {
			group.Add(1)
			go func() {
				defer group.Done()
				readOneTable(t, table, other, address, ended)
			}()
		}
		for k := uint32(1); k <= changes; k++ {
			reply, err := table.Apply(Command{Operation: Replace, Feed: 1, Prefix: eight, Hop: Via(addressOf(k))})
			if err != nil || reply.Code != Replaced {
				t.Error(reply, err)
				break
			}
		}
		close(ended)
		group.Wait()
		if route, found, err := table.LookUp(address); err != nil || !found || route.Hop != Via(addressOf(changes)) {
			t.Fatal(route, found, err)
		}
	}
}

// readOneTable queries in each way until the end. No next hop is before one that was seen.
func readOneTable(t *testing.T, table, other *Table, address netip.Addr, ended chan struct{}) {
	last := addressOf(0)
	for {
		select {
		case <-ended:
			return
		default:
		}
		route, _, failedOne := table.LookUp(address)
		answers, failedEach := table.LookUpEach([]uint32{0x0a010203, 0x0b000000})
		all, failedAll := table.LookUpAll(address)
		listed, failedList := table.Routes()
		page, failedPage := table.RoutesFrom(Place{Prefix: netip.MustParsePrefix("0.0.0.0/0")}, 5)
		found, failedDifference := other.Differences(table, ByHop)
		count, failedCount := table.Count()
		for _, err := range []error{failedOne, failedEach, failedAll, failedList, failedPage, failedDifference, failedCount} {
			if err != nil {
				t.Error(err)
				return
			}
		}
		if count != 1 || len(all) != 1 || len(listed) != 1 || len(page) != 1 || len(found) != 1 {
			t.Error(count, all, listed, page, found)
			return
		}
		each, _ := answers.At(0)
		for _, one := range []Route{route, each, all[0], listed[0], page[0], found[0].After} {
			router, isThere := one.Hop.Router()
			if !isThere || router.Less(last) {
				t.Error(one, last)
				return
			}
			last = router
		}
	}
}

func TestRefusalsOfTheSystemAreErrorsOfTheirOwn(t *testing.T) {
	for status, expected := range map[uint32]error{0: nil, 11: ErrBusy, 14: ErrBarrier, 15: ErrForked, 2: ErrNumber} {
		if err := failed(status); err != expected {
			t.Errorf("status %d is %v", status, err)
		}
		if err := about(failed(status), "%d", 5); status > 2 && err != expected {
			t.Errorf("status %d is %v", status, err)
		}
	}
}
