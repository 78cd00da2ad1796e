package yarib

import (
	"bytes"
	"encoding/hex"
	"errors"
	"fmt"
	"io"
	"math"
	"net/netip"
	"os"
	"runtime"
	"sort"
	"strconv"
	"strings"
	"testing"
	"testing/iotest"
	"time"
)

// same compares every field of every element.
func same(t *testing.T, what string, found, wanted any) {
	t.Helper()
	if one, other := fmt.Sprintf("%#v", found), fmt.Sprintf("%#v", wanted); one != other {
		t.Fatalf("%s:\n%.400s\nand not\n%.400s", what, one, other)
	}
}

// plainly returns the contents of an error, to be compared by same.
func plainly(err error) any {
	if failure, isCommand := err.(*CommandError); isCommand {
		return *failure
	}
	return err
}

type result struct {
	reply Reply
	err   any
}

func resultsOf(outcomes []Outcome) []result {
	found := []result{}
	for _, one := range outcomes {
		found = append(found, result{one.Reply, plainly(one.Err)})
	}
	return found
}

func must(t *testing.T, err error) {
	t.Helper()
	if err != nil {
		t.Fatal(err)
	}
}

func table(t *testing.T, limit uint32, isJournaled bool) *Table {
	t.Helper()
	create := New
	if isJournaled {
		create = NewJournaled
	}
	made, err := create(limit)
	must(t, err)
	t.Cleanup(func() { must(t, made.Close()) })
	return made
}

// written returns a command as a journal lists it: without the fields that its operation doesn't use.
func written(command Command) Command {
	one := Command{Operation: command.Operation, Feed: command.Feed}
	switch command.Operation {
	case Add, Replace:
		one.Prefix, one.Pref, one.Hop = command.Prefix, command.Pref, command.Hop
	case Withdraw:
		one.Prefix = command.Prefix
	case Lookup:
		one.Address = command.Address
	}
	return one
}

func numberOf(asked netip.Addr) uint64 {
	octets := asked.As4()
	return uint64(octets[0])<<24 | uint64(octets[1])<<16 | uint64(octets[2])<<8 | uint64(octets[3])
}

func compareView(t *testing.T, view *View, asked, wanted []uint32) {
	t.Helper()
	numbers := make([]uint32, len(asked))
	must(t, view.LookUpEach(asked, numbers))
	for k := range asked {
		number, err := view.LookUp(addressOf(asked[k]))
		must(t, err)
		same(t, "a number", number, numbers[k])
		hop, isThere := view.Hop(number)
		switch wanted[k] {
		case 1<<31 + 1:
			same(t, "no route", []any{number, isThere}, []any{uint32(NumberNoRoute), false})
		case 1<<31 + 2:
			same(t, "a discard", []any{number, hop, isThere}, []any{uint32(NumberDiscard), Discard, true})
		default:
			same(t, "a router", []any{number >= FirstRouter, hop, isThere}, []any{true, Via(addressOf(wanted[k])), true})
		}
	}
	if err := view.LookUpEach(asked, make([]uint32, len(asked)+1)); !errors.Is(err, ErrSize) {
		t.Fatal(err)
	}
}

func TestEveryViewStaysAsItWasMade(t *testing.T) {
	asked, wanted := []uint32{0x0a000001, 0x0a010001, 0x0b000000}, []uint32{0xc0000201, 1<<31 + 2, 1<<31 + 1}
	plain, err := New(99)
	must(t, err)
	concurrent, err := NewConcurrent(99)
	must(t, err)
	views := []*View{}
	for _, one := range []*common{&plain.common, &concurrent.common} {
		_, err := one.ApplyEach([]Command{
			{Operation: Add, Feed: 1, Prefix: netip.MustParsePrefix("10.0.0.0/8"), Hop: Via(addressOf(0xc0000201))},
			{Operation: Add, Feed: 1, Prefix: netip.MustParsePrefix("10.1.0.0/16"), Hop: Discard},
		})
		must(t, err)
		if _, err := one.ViewNew(); !errors.Is(err, ErrKind) {
			t.Fatal(err)
		}
		must(t, one.FibAttach())
		view, err := one.ViewNew()
		must(t, err)
		views = append(views, view)
	}
	fib, err := plain.FibNew()
	must(t, err)
	view, err := fib.ViewNew()
	must(t, err)
	hops := make([]uint32, 3)
	must(t, fib.Hops(asked, 1<<31+1, 1<<31+2, hops))
	same(t, "hops", hops, wanted)
	fib.Close()
	for _, one := range []*common{&plain.common, &concurrent.common} {
		_, err := one.Apply(Command{Operation: Purge, Feed: 1})
		must(t, err)
		one.Close()
	}
	plain, concurrent, fib = nil, nil, nil
	runtime.GC()
	for _, one := range append(views, view) {
		compareView(t, one, asked, wanted)
		same(t, "its size", one.Memory() >= 1<<26+12, true)
		_, isThere := one.Hop(uint32(len(one.routers)))
		same(t, "a number of another view", isThere, false)
		if _, err := one.LookUp(netip.MustParseAddr("::1")); !errors.Is(err, ErrCommand) {
			t.Fatal(err)
		}
	}
	zero := View{}
	number, err := zero.LookUp(addressOf(5))
	must(t, err)
	same(t, "the zero view", []any{number, zero.LookUpEach([]uint32{1}, hops[:1]), hops[0], zero.Memory()}, []any{uint32(0), nil, uint32(0), 0})
}

func TestListsAtPageBoundaries(t *testing.T) {
	for _, border := range []int{64, 256, 4096} {
		for size := border - 1; size <= border+1; size++ {
			one, routes, entries, asked := table(t, 1000000, true), []Route{}, []Entry{}, []uint32{}
			for k := 0; k < size; k++ {
				base := uint32(10<<24 + 4*k)
				route := Route{netip.PrefixFrom(addressOf(base), 30), uint32(1 + k%3), uint32(k), Via(addressOf(uint32(k)))}
				reply, err := one.Add(route.Feed, route.Prefix, route.Pref, route.Hop)
				must(t, err)
				routes, asked = append(routes, route), append(asked, base+3)
				entries = append(entries, Entry{Command{Operation: Add, Feed: route.Feed, Prefix: route.Prefix, Pref: route.Pref, Hop: route.Hop}, reply})
			}
			found, err := one.Routes()
			must(t, err)
			same(t, "routes", found, routes)
			walked := []Route{}
			must(t, one.Walk(Place{Prefix: netip.MustParsePrefix("0.0.0.0/0")}, func(route Route) bool {
				walked = append(walked, route)
				return true
			}))
			same(t, "routes walked", walked, routes)
			for _, stop := range []int{1, size / 2, size - 1, size} {
				count := 0
				must(t, one.Walk(Place{}, func(route Route) bool {
					same(t, "a route walked", route, routes[count])
					count++
					return count < stop
				}))
				same(t, "where a walk ends", count, stop)
			}
			for _, most := range []int{size - 1, size, size + 1, math.MaxInt} {
				page, err := one.RoutesFrom(Place{}, most)
				must(t, err)
				if most > size {
					most = size
				}
				same(t, "a page", page, routes[:most])
			}
			listed, err := one.Journal()
			must(t, err)
			same(t, "entries", listed, entries)
			answers, err := one.LookUpEach(asked)
			must(t, err)
			for k := range routes {
				route, isThere := answers.At(k)
				same(t, "an answer", []any{route, isThere, answers.Len()}, []any{routes[k], true, size})
			}
		}
	}
}

func TestAllMatchesAtPageBoundaries(t *testing.T) {
	one, wanted := table(t, 99, false), []Route{}
	asked := netip.MustParseAddr("10.0.0.0")
	for length := 0; length <= 4; length++ {
		for feed := uint32(1); feed <= MaxFeed; feed++ {
			route := Route{netip.PrefixFrom(asked, length).Masked(), feed, feed % 7, Discard}
			_, err := one.Add(feed, route.Prefix, route.Pref, route.Hop)
			must(t, err)
			if wanted = append(wanted, route); len(wanted)%64 < 2 || len(wanted)%64 == 63 {
				sort.Slice(wanted, func(i, j int) bool { return isBetter(wanted[i], wanted[j]) })
				all, err := one.LookUpAll(asked)
				must(t, err)
				same(t, "all matches", all, wanted)
			}
		}
	}
}

func isBetter(one, other Route) bool {
	if one.Prefix.Bits() != other.Prefix.Bits() {
		return one.Prefix.Bits() > other.Prefix.Bits()
	}
	if one.Pref != other.Pref {
		return one.Pref < other.Pref
	}
	return one.Feed < other.Feed
}

func TestWhatIsRefused(t *testing.T) {
	one, ten := table(t, 1, false), netip.MustParsePrefix("10.0.0.0/8")
	mapped := netip.MustParsePrefix("::ffff:10.0.0.0/104")
	for what, call := range map[string]func() error{
		"a mapped prefix added": func() error { _, err := one.Add(1, mapped, 0, Discard); return err },
		"a short mapped prefix": func() error { _, err := one.Add(1, netip.MustParsePrefix("::ffff:0.0.0.0/8"), 0, Discard); return err },
		"a mapped prefix selected": func() error {
			_, err := one.Select(Selection{Part: Within, Prefix: mapped})
			return err
		},
		"a mapped place":         func() error { _, err := one.RoutesFrom(Place{Prefix: mapped}, 1); return err },
		"a router of no address": func() error { _, err := one.Add(1, ten, 0, Via(netip.Addr{})); return err },
		"a router of IPv6":       func() error { _, err := one.Add(1, ten, 0, Via(netip.MustParseAddr("::1"))); return err },
		"an address of IPv6":     func() error { _, _, err := one.LookUp(netip.MustParseAddr("::1")); return err },
		"no address":             func() error { _, err := one.LookUpAll(netip.Addr{}); return err },
	} {
		if err := call(); !errors.Is(err, ErrCommand) {
			t.Fatal(what, err)
		}
	}
	commands := []Command{{Operation: Add, Feed: 1, Prefix: mapped}, {Operation: Dump, Feed: 1}, {Operation: 9, Feed: 1}}
	outcomes, err := one.ApplyEach(commands)
	must(t, err)
	same(t, "outcomes", resultsOf(outcomes), []result{{err: CommandError{commands[0], ErrCommand}},
		{reply: Reply{Code: Dumped}}, {err: CommandError{commands[2], ErrCommand}}})
	via := Via(netip.MustParseAddr("::ffff:192.0.2.1"))
	same(t, "a mapped router", via, Via(netip.MustParseAddr("192.0.2.1")))
	_, err = one.Put(1, ten, 5, via)
	must(t, err)
	for what, call := range map[error]func() (Reply, error){
		ErrFull:    func() (Reply, error) { return one.Add(1, netip.MustParsePrefix("11.0.0.0/8"), 0, Discard) },
		ErrExists:  func() (Reply, error) { return one.Add(1, ten, 0, Discard) },
		ErrMissing: func() (Reply, error) { return one.Withdraw(2, ten) },
	} {
		if _, err := call(); !errors.Is(err, what) {
			t.Fatal(what, err)
		}
	}
	if _, err := one.Put(1, netip.MustParsePrefix("11.0.0.0/8"), 0, Discard); !errors.Is(err, ErrFull) {
		t.Fatal(err)
	}
	reply, err := one.Put(1, ten, 6, Discard)
	must(t, err)
	found, err := one.Routes()
	must(t, err)
	same(t, "what put left", []any{reply.Code, found}, []any{Replaced, []Route{{ten, 1, 6, Discard}}})
	same(t, "words", fmt.Sprint(Add, Purge, Operation(9), Added, NotFound, Purged, Code(0), Discard), "add purge Operation(9) added no route purged Code(0) discard")
	same(t, "more words", fmt.Sprint(All, Within, Covering, Exact, Part(4), ByHop, ByRoute, By(2)), "all within covering exact Part(4) by hop by route By(2)")
}

func TestWhatIsRefusedIsNamed(t *testing.T) {
	one, ten := table(t, 1, false), netip.MustParsePrefix("10.0.0.0/8")
	_, err := one.Add(1, ten, 7, Discard)
	must(t, err)
	far := Via(netip.MustParseAddr("::1"))
	refused := func(command Command) func() error {
		return func() error { _, err := one.Apply(command); return err }
	}
	selected := func(asked Selection) func() error {
		return func() error { _, err := one.Select(asked); return err }
	}
	parsed := func(text string) func() error {
		return func() error { _, err := ParsePrefix(text); return err }
	}
	for _, faulty := range []struct {
		call   func() error
		reason error
		text   string
	}{
		{func() error { _, err := New(0); return err }, ErrNumber, "yarib: a limit or a feed is out of range: limit 0, not 1 to 1000000"},
		{func() error { _, err := one.Add(1, ten, 5, Discard); return err }, ErrExists, "yarib: feed 1: add 10.0.0.0/8 5 discard: the feed has a route to this prefix"},
		{func() error {
			_, err := one.Add(1, netip.MustParsePrefix("0.0.0.0/0"), 5, Via(addressOf(1)))
			return err
		}, ErrFull, "yarib: feed 1: add 0.0.0.0/0 5 0.0.0.1: the feed is at its limit"},
		{func() error { _, err := one.Withdraw(2, ten); return err }, ErrMissing, "yarib: feed 2: withdraw 10.0.0.0/8: the feed has no route to this prefix"},
		{func() error { _, err := one.Replace(2, ten, 3, Discard); return err }, ErrMissing, "yarib: feed 2: replace 10.0.0.0/8 3 discard: the feed has no route to this prefix"},
		{refused(Command{Operation: Purge, Feed: MaxFeed + 1}), ErrNumber, fmt.Sprintf("yarib: feed %d: purge: the feed isn't 1 to %d", MaxFeed+1, MaxFeed)},
		{refused(Command{Operation: 9, Feed: 1}), ErrCommand, "yarib: feed 1: Operation(9): the operation is unknown"},
		{refused(Command{Operation: Lookup, Feed: 1, Address: netip.MustParseAddr("::1")}), ErrCommand, "yarib: feed 1: lookup ::1: the address isn't IPv4"},
		{refused(Command{Operation: Withdraw, Feed: 1, Prefix: netip.MustParsePrefix("::/0")}), ErrCommand, "yarib: feed 1: withdraw ::/0: the prefix isn't IPv4"},
		{refused(Command{Operation: Add, Feed: 1, Prefix: netip.MustParsePrefix("10.0.0.1/8")}), ErrCommand, "yarib: feed 1: add 10.0.0.1/8 0 discard: a bit past the prefix's length is set"},
		{refused(Command{Operation: Add, Feed: 1, Prefix: ten, Hop: Via(netip.MustParseAddr("::1"))}), ErrCommand, "yarib: feed 1: add 10.0.0.0/8 0 ::1: the next hop isn't IPv4"},
		{func() error { _, _, err := one.LookUp(netip.MustParseAddr("::1")); return err }, ErrCommand, "yarib: a prefix or an address isn't IPv4: ::1"},
		{func() error { _, err := one.LookUpAll(netip.MustParseAddr("::1")); return err }, ErrCommand, "yarib: a prefix or an address isn't IPv4: ::1"},
		{selected(Selection{Feed: MaxFeed + 1}), ErrNumber, fmt.Sprintf("yarib: a limit or a feed is out of range: all invalid Prefix of feed %d", MaxFeed+1)},
		{selected(Selection{Part: Exact, Prefix: netip.MustParsePrefix("::/0")}), ErrCommand, "yarib: a prefix or an address isn't IPv4: ::/0"},
		{selected(Selection{Hop: &far}), ErrCommand, "yarib: a prefix or an address isn't IPv4: ::1"},
		{func() error {
			_, err := one.RoutesFrom(Place{Prefix: netip.MustParsePrefix("10.0.0.1/8")}, 1)
			return err
		}, ErrBits, "yarib: a bit past the length is set: 10.0.0.1/8"},
		{func() error { _, err := one.RoutesFrom(Place{}, -1); return err }, ErrNumber, "yarib: a limit or a feed is out of range: -1 routes"},
		{func() error { _, err := one.Differences(table(t, 1, false), 2); return err }, ErrNumber, "yarib: a limit or a feed is out of range: By(2)"},
		{parsed("10.0.0.0"), ErrText, "yarib: the text isn't a prefix: \"10.0.0.0\""},
		{parsed("10.0.0.1/8"), ErrBits, "yarib: a bit past the length is set: \"10.0.0.1/8\""},
		{func() error { _, err := one.Journal(); return err }, ErrKind, "yarib: the table doesn't support this call"},
		{func() error { return one.Save(io.Discard, 0) }, ErrNumber, fmt.Sprintf("yarib: a limit or a feed is out of range: feed 0, not 1 to %d", MaxFeed)},
		{func() error { _, err := NewSource(one, MaxFeed, 2); return err }, ErrNumber, fmt.Sprintf("yarib: a limit or a feed is out of range: 2 feeds from feed %d on, of %d", MaxFeed, MaxFeed)},
	} {
		err := faulty.call()
		if !errors.Is(err, faulty.reason) {
			t.Fatal(err)
		}
		same(t, "a text", err.Error(), faulty.text)
	}
}

// lineOf returns a route as a line of a feed file.
func lineOf(route Route) string {
	return "add " + route.Prefix.String() + " " + strconv.Itoa(int(route.Pref)) + " " + route.Hop.String() + "\n"
}

func TestEveryFaultyLineIsNamed(t *testing.T) {
	reasons := map[string]error{"-": nil, "line": ErrLine, "bits": ErrBits, "length": ErrLength, "exists": ErrExists, "full": ErrFull}
	for _, line := range sections(t, "files")[0].lines {
		text, err := hex.DecodeString(line.call[1][1:])
		must(t, err)
		one, wanted, number := table(t, 2, false), int(numberIn(line.answer[0])), int(numberIn(line.answer[1]))
		count, err := one.Load(bytes.NewReader(text), 3)
		held, also := one.Count()
		must(t, also)
		same(t, string(text), []int{count, held}, []int{wanted, wanted})
		var failure *LineError
		if number == 0 {
			must(t, err)
		} else if !errors.As(err, &failure) || failure.Line != number || !errors.Is(err, reasons[line.answer[2]]) {
			t.Fatalf("%q: %v", text, err)
		}
	}
	good := "add 10.0.0.0/8 1 192.0.2.1\n"
	// What can't be read whole changes nothing.
	one, broken := table(t, 2, false), errors.New("broken")
	if count, err := one.Load(io.MultiReader(strings.NewReader(good), iotest.ErrReader(broken)), 1); count != 0 || !errors.Is(err, broken) {
		t.Fatal(count, err)
	}
	held, err := one.Count()
	must(t, err)
	same(t, "routes of a broken file", held, 0)
	if err := one.Save(failing{broken}, 1); !errors.Is(err, broken) {
		t.Fatal(err)
	}
	_, err = one.Load(strings.NewReader("add 11.0.0.0/8 x 192.0.2.1\n"), 1)
	same(t, "a text", err.Error(), "yarib: line 1: not an add line of a feed file: \"add 11.0.0.0/8 x 192.0.2.1\"")
	_, err = one.Load(strings.NewReader(good+strings.Repeat("#", 9999)), 1)
	same(t, "a long text", err.Error(), "yarib: line 2: not an add line of a feed file: \""+strings.Repeat("#", 129)+"\"")
	for _, feed := range []uint32{0, MaxFeed + 1} {
		_, err = one.Load(strings.NewReader(""), feed)
		same(t, "a feed", []any{errors.Is(err, ErrNumber), err.Error()},
			[]any{true, fmt.Sprintf("yarib: a limit or a feed is out of range: feed %d, not 1 to %d", feed, MaxFeed)})
	}
}

// failing is a writer that only returns an error.
type failing struct{ err error }

func (one failing) Write([]byte) (int, error) { return 0, one.err }

// The feeds of these prefixes are the same in each language's package.
func TestWhereEveryPrefixOfASourceIs(t *testing.T) {
	source, err := NewSource(table(t, 1, false), 1, MaxFeed)
	must(t, err)
	found := []uint32{}
	for _, text := range []string{"0.0.0.0/0", "10.0.0.0/8", "10.1.0.0/16", "192.0.2.0/24", "255.255.255.255/32", "128.0.0.0/1"} {
		found = append(found, source.FeedOf(netip.MustParsePrefix(text)))
	}
	same(t, "feeds", found, []uint32{1, 11, 38, 2, 11, 8})
	same(t, "no feed", source.FeedOf(netip.Prefix{}), uint32(1))
	for _, faulty := range [][2]uint32{{0, 1}, {1, 0}, {1, MaxFeed + 1}, {MaxFeed + 1, 1}, {MaxFeed, 2}, {2, 1<<32 - 1}} {
		if _, err := NewSource(table(t, 1, false), faulty[0], faulty[1]); !errors.Is(err, ErrNumber) {
			t.Fatal(faulty, err)
		}
	}
	for _, right := range [][2]uint32{{1, MaxFeed}, {MaxFeed, 1}, {MaxFeed - 1, 2}} {
		_, err := NewSource(table(t, 1, false), right[0], right[1])
		must(t, err)
	}
}

func TestAZeroTableIsClosed(t *testing.T) {
	var zero Table
	var fib Fib
	zero.Close()
	fib.Close()
	other := table(t, 5, false)
	same(t, "no answers", Answers{}.Len(), 0)
	for what, call := range map[string]func() error{
		"count":   func() error { _, err := zero.Count(); return err },
		"apply":   func() error { _, err := zero.Apply(Command{Operation: Dump, Feed: 1}); return err },
		"routes":  func() error { _, err := zero.Routes(); return err },
		"journal": func() error { _, err := zero.Journal(); return err },
		"follow":  func() error { return zero.FibAttach() },
		"is":      func() error { _, err := zero.FibIsAttached(); return err },
		"forward": func() error { _, err := zero.FibNew(); return err },
		"old":     func() error { _, err := zero.Differences(other, ByHop); return err },
		"new":     func() error { _, err := other.Differences(&zero, ByHop); return err },
		"both":    func() error { _, err := zero.Differences(&zero, ByHop); return err },
		"view":    func() error { _, err := zero.ViewNew(); return err },
		"hops":    func() error { return zero.Hops([]uint32{1}, 0, 1, []uint32{0}) },
		"fib's":   func() error { _, err := fib.ViewNew(); return err },
		"fib hop": func() error { return fib.Hops([]uint32{1}, 0, 1, []uint32{0}) },
		"look up": func() error { _, _, err := fib.LookUp(netip.MustParseAddr("10.0.0.1")); return err },
		"share":   func() error { _, err := fib.Clone(); return err },
		"each":    func() error { _, err := zero.LookUpEach([]uint32{1}); return err },
		"page":    func() error { _, err := zero.RoutesFrom(Place{}, 1); return err },
		"walk":    func() error { return zero.Walk(Place{}, func(Route) bool { return true }) },
		"save":    func() error { return zero.Save(io.Discard, 1) },
		"load":    func() error { _, err := zero.Load(strings.NewReader("add 0.0.0.0/0 1 0.0.0.0\n"), 1); return err },
		"deal":    func() error { _, err := Source{}.Withdraw(netip.MustParsePrefix("0.0.0.0/0")); return err },
		"purge":   func() error { _, err := Source{}.Purge(); return err },
		"listed":  func() error { _, err := Source{}.Routes(); return err },
	} {
		if err := call(); !errors.Is(err, ErrClosed) {
			t.Fatal(what, err)
		}
	}
}

// resident returns the process's resident memory in bytes.
func resident(t *testing.T) int {
	t.Helper()
	text, err := os.ReadFile("/proc/self/statm")
	must(t, err)
	pages, err := strconv.Atoi(strings.Fields(string(text))[1])
	must(t, err)
	return pages * os.Getpagesize()
}

// isFollowed tests whether a forwarding table is attached.
func isFollowed(t *testing.T, table interface{ FibIsAttached() (bool, error) }, wanted bool) {
	t.Helper()
	found, err := table.FibIsAttached()
	must(t, err)
	same(t, "it is followed", found, wanted)
}

func TestMemoryIsFreed(t *testing.T) {
	before := resident(t)
	for k := 0; k < 12; k++ {
		one, err := New(5)
		must(t, err)
		isFollowed(t, one, false)
		must(t, one.FibAttach())
		isFollowed(t, one, true)
		bytes, err := one.Memory()
		must(t, err)
		if bytes < 1<<26 {
			t.Fatal(bytes)
		}
		if k%2 == 0 {
			one.Close()
		}
		one = nil
		runtime.GC()
		time.Sleep(10 * time.Millisecond)
	}
	if grown := resident(t) - before; grown > 4<<26 {
		t.Fatal(grown)
	}
}

func TestVersions(t *testing.T) {
	same(t, "a version", strings.Count(Version(), "."), 2)
	same(t, "a build", strings.HasPrefix(Build(), "sources "), true)
}
