// Package yarib provides IPv4 routing tables with proved answers.
//
// Feeds are 1 to MaxFeed. The lowest preference number is preferred; between equal preferences, the lowest feed. After an error the
// table is unchanged, except after an error of Load. Goroutines may share a Table and a Fib: calls that only read run at the
// same time, and a change waits until no other call runs. Close frees memory at once; otherwise the garbage collector does.
package yarib

// #include <stdlib.h>
// #include <yarib.h>
import "C"

import (
	"errors"
	"fmt"
	"net/netip"
	"runtime"
	"strings"
	"unsafe"
)

// Version returns the version of the library, such as "0.3.0".
func Version() string { return C.GoString(C.yarib_version()) }

// Build returns what the library was made of: the sum of the proved sources, the logic that proves them, and the sum of the C files.
func Build() string { return C.GoString(C.yarib_build()) }

// The reasons why a call did nothing. A call's error may name the value that is wrong: test it with errors.Is.
var (
	ErrClosed  = errors.New("yarib: the table is closed")
	ErrNumber  = errors.New("yarib: a limit or a feed is out of range")
	ErrCommand = errors.New("yarib: a prefix or an address isn't IPv4")
	ErrMemory  = errors.New("yarib: out of memory")
	ErrSize    = errors.New("yarib: two lists differ in length")
	ErrText    = errors.New("yarib: the text isn't a prefix")
	ErrLength  = errors.New("yarib: the length is over 32")
	ErrBits    = errors.New("yarib: a bit past the length is set")
	ErrKind    = errors.New("yarib: the table doesn't support this call")
	ErrExists  = errors.New("yarib: the feed has a route to this prefix")
	ErrFull    = errors.New("yarib: the feed is at its limit")
	ErrMissing = errors.New("yarib: the feed has no route to this prefix")
	ErrBusy    = errors.New("yarib: another call uses the table")
	ErrLine    = errors.New("yarib: not an add line of a feed file")
	ErrBarrier = errors.New("yarib: the kernel refuses membarrier, which a change needs once other threads have read")
	ErrForked  = errors.New("yarib: a thread of the parent process was changing the table at the fork")
)

func failed(status uint32) error {
	switch status {
	case C.YARIB_DONE:
		return nil
	case C.YARIB_NOTHING:
		return ErrClosed
	case C.YARIB_BAD_COMMAND:
		return ErrCommand
	case C.YARIB_NO_MEMORY:
		return ErrMemory
	case C.YARIB_BAD_SIZE:
		return ErrSize
	case C.YARIB_BAD_TEXT:
		return ErrText
	case C.YARIB_BAD_LENGTH:
		return ErrLength
	case C.YARIB_BAD_BITS:
		return ErrBits
	case C.YARIB_WRONG_KIND:
		return ErrKind
	case C.YARIB_BUSY:
		return ErrBusy
	case C.YARIB_NO_BARRIER:
		return ErrBarrier
	case C.YARIB_FORKED:
		return ErrForked
	case C.YARIB_NOT_ADDED:
		return ErrFull
	}
	return ErrNumber
}

// about adds the value that is wrong to an error, unless the error doesn't depend on a value.
func about(err error, format string, values ...any) error {
	switch err {
	case nil, ErrClosed, ErrMemory, ErrKind, ErrBusy, ErrBarrier, ErrForked:
		return err
	}
	return fmt.Errorf("%w: "+format, append([]any{err}, values...)...)
}

// CommandError is the error of a command that changed nothing. Its text names what is wrong.
type CommandError struct {
	Command Command
	Err     error // the reason, such as ErrFull
}

func (failure *CommandError) Error() string {
	reason := strings.TrimPrefix(failure.Err.Error(), "yarib: ")
	if failure.Err == ErrNumber || failure.Err == ErrCommand {
		reason = failure.Command.fault()
	}
	return fmt.Sprintf("yarib: %v: %s", failure.Command, reason)
}

// Unwrap returns the reason.
func (failure *CommandError) Unwrap() error {
	return failure.Err
}

// failed returns the error of a command for a reason, and nil for the reason nil.
func (command Command) failed(err error) error {
	if err == nil {
		return nil
	}
	return &CommandError{command, err}
}

// fault describes what is wrong with a command that was refused, in the order of the library's tests.
func (command Command) fault() string {
	_, _, isPrefix := numbersOf(command.Prefix)
	router, isVia := command.Hop.Router()
	switch {
	case command.Feed < 1 || command.Feed > MaxFeed:
		return fmt.Sprintf("the feed isn't 1 to %d", MaxFeed)
	case command.Operation < Add || command.Operation > Purge:
		return "the operation is unknown"
	case command.Operation == Lookup:
		return "the address isn't IPv4"
	case !isPrefix:
		return "the prefix isn't IPv4"
	case command.Prefix != command.Prefix.Masked():
		return "a bit past the prefix's length is set"
	case isVia && !router.Is4():
		return "the next hop isn't IPv4"
	}
	return "the command is invalid"
}

// The limits of a table: the largest feed, the largest number of routes of a feed, and the largest prefix length.
const (
	MaxFeed   = C.YARIB_MAX_FEED
	MaxLimit  = C.YARIB_MAX_LIMIT
	MaxLength = C.YARIB_MAX_PREFIX_LENGTH
)

// Hop is the next hop of a route: the router with this address or, for the zero Hop, none.
type Hop struct {
	via   netip.Addr
	isVia bool
}

// Discard is the next hop of packets that are discarded.
var Discard = Hop{}

// Via is the next hop to the router with this IPv4 address. A command with an address that isn't IPv4 is ErrCommand.
func Via(router netip.Addr) Hop {
	return Hop{router.Unmap(), true}
}

// Router returns the address of the router, if there is one.
func (hop Hop) Router() (netip.Addr, bool) {
	return hop.via, hop.isVia
}

func (hop Hop) String() string {
	if !hop.isVia {
		return "discard"
	}
	return hop.via.String()
}

// numbers returns the kind and the router of a next hop for C, unless the router's address isn't IPv4.
func (hop Hop) numbers() (C.uint8_t, C.uint32_t, bool) {
	if !hop.isVia {
		return C.YARIB_DISCARD, 0, true
	}
	via, isRight := number(hop.via)
	return C.YARIB_VIA, via, isRight
}

// Route is one feed's route to a prefix.
type Route struct {
	Prefix netip.Prefix
	Feed   uint32
	Pref   uint32
	Hop    Hop
}

func (route Route) String() string {
	return fmt.Sprintf("%v feed %d pref %d via %v", route.Prefix, route.Feed, route.Pref, route.Hop)
}

// number returns the number of an IPv4 address, also of one that is mapped into IPv6.
func number(address netip.Addr) (C.uint32_t, bool) {
	address = address.Unmap()
	if !address.Is4() {
		return 0, false
	}
	octets := address.As4()
	return C.uint32_t(octets[0])<<24 | C.uint32_t(octets[1])<<16 | C.uint32_t(octets[2])<<8 | C.uint32_t(octets[3]), true
}

// numbersOf returns base and length of an IPv4 prefix. A prefix of mapped addresses isn't IPv4.
func numbersOf(prefix netip.Prefix) (C.uint32_t, C.uint8_t, bool) {
	if !prefix.IsValid() || !prefix.Addr().Is4() {
		return 0, 255, false
	}
	base, isRight := number(prefix.Addr())
	return base, C.uint8_t(prefix.Bits()), isRight
}

func address(number C.uint32_t) netip.Addr {
	return netip.AddrFrom4([4]byte{byte(number >> 24), byte(number >> 16), byte(number >> 8), byte(number)})
}

func routeOf(raw *C.yarib_route) (Route, bool) {
	if raw.hop == C.YARIB_NO_ROUTE {
		return Route{}, false
	}
	hop := Discard
	if raw.hop == C.YARIB_VIA {
		hop = Via(address(raw.via))
	}
	return Route{netip.PrefixFrom(address(raw.base), int(raw.len)), uint32(raw.feed), uint32(raw.pref), hop}, true
}

func routesOf(raw []C.yarib_route) []Route {
	routes := make([]Route, 0, len(raw))
	for k := range raw {
		if route, found := routeOf(&raw[k]); found {
			routes = append(routes, route)
		}
	}
	return routes
}

// Operation is the kind of a command.
type Operation uint32

// The operations.
const (
	Add      Operation = C.YARIB_ADD      // put the route in, unless the feed has one to the prefix or as many as its limit allows
	Replace  Operation = C.YARIB_REPLACE  // give the feed's route to the prefix another preference and next hop
	Withdraw Operation = C.YARIB_WITHDRAW // take the feed's route to the prefix out
	Lookup   Operation = C.YARIB_LOOKUP   // ask for the best route of the longest prefix that covers Address
	Dump     Operation = C.YARIB_DUMP     // ask how many routes there are
	Purge    Operation = C.YARIB_PURGE    // take all of the feed's routes out
)

// Command is a command of a feed. Fields that its operation doesn't use aren't read.
type Command struct {
	Operation Operation
	Feed      uint32
	Prefix    netip.Prefix
	Address   netip.Addr
	Pref      uint32
	Hop       Hop
}

// String returns the feed and the command as a line of a feed file.
func (command Command) String() string {
	line := fmt.Sprintf("feed %d: %v", command.Feed, command.Operation)
	switch command.Operation {
	case Add, Replace:
		return fmt.Sprintf("%s %v %d %v", line, command.Prefix, command.Pref, command.Hop)
	case Withdraw:
		return fmt.Sprintf("%s %v", line, command.Prefix)
	case Lookup:
		return fmt.Sprintf("%s %v", line, command.Address)
	}
	return line
}

// numbers returns the command for C. A prefix or hop that isn't IPv4 becomes an invalid length or hop.
func (command Command) numbers() C.yarib_command {
	raw := C.yarib_command{operation: C.uint32_t(command.Operation), feed: C.uint32_t(command.Feed), pref: C.uint32_t(command.Pref)}
	if command.Operation == Lookup {
		base, isRight := number(command.Address)
		if !isRight {
			raw.operation = 0
		}
		raw.base = base
		return raw
	}
	raw.base, raw.len, _ = numbersOf(command.Prefix)
	hop, via, isRight := command.Hop.numbers()
	raw.hop, raw.via = hop, via
	if !isRight {
		raw.hop = 255
	}
	return raw
}

// Code is the kind of a reply.
type Code uint32

// The codes.
const (
	Added     Code = C.YARIB_ADDED
	Exists    Code = C.YARIB_EXISTS // nothing changed
	Full      Code = C.YARIB_FULL   // nothing changed
	Replaced  Code = C.YARIB_REPLACED
	Withdrawn Code = C.YARIB_WITHDRAWN
	Missing   Code = C.YARIB_MISSING // nothing changed
	Found     Code = C.YARIB_FOUND
	NotFound  Code = C.YARIB_NOT_FOUND
	Dumped    Code = C.YARIB_DUMPED
	Purged    Code = C.YARIB_PURGED
)

var operations = [...]string{"", "add", "replace", "withdraw", "lookup", "dump", "purge"}

func (operation Operation) String() string {
	if operation < Add || operation > Purge {
		return fmt.Sprintf("Operation(%d)", uint32(operation))
	}
	return operations[operation]
}

var codes = [...]string{"", "added", "exists", "full", "replaced", "withdrawn", "missing", "found", "no route", "dumped", "purged"}

func (code Code) String() string {
	if code < Added || code > Purged {
		return fmt.Sprintf("Code(%d)", uint32(code))
	}
	return codes[code]
}

// Reply is the reply to a command. Count is set for Dumped and Purged, Route for Found.
type Reply struct {
	Code  Code
	Count uint32
	Route Route
}

// Outcome is the reply to one of several commands, or the error of a command without a reply.
type Outcome struct {
	Reply Reply
	Err   error
}

func replyOf(raw *C.yarib_reply) Reply {
	route, _ := routeOf(&raw.route)
	return Reply{Code(raw.code), uint32(raw.count), route}
}

// Part selects the prefixes of routes.
type Part uint32

// The parts.
const (
	All      Part = C.YARIB_ALL      // any
	Within   Part = C.YARIB_WITHIN   // the prefix and the longer ones in it
	Covering Part = C.YARIB_COVERING // the prefix and the shorter ones that it lies in
	Exact    Part = C.YARIB_EXACT    // the prefix alone
)

var parts = [...]string{"all", "within", "covering", "exact"}

func (part Part) String() string {
	if part > Exact {
		return fmt.Sprintf("Part(%d)", uint32(part))
	}
	return parts[part]
}

// Selection selects routes: their prefixes, their feed (0 for all feeds), their next hop (nil for all next hops) and, with OnlyBest,
// only the best route of each prefix: with a feed or a next hop, only those best routes that belong to the feed and use the next hop.
type Selection struct {
	Part     Part
	Prefix   netip.Prefix
	Feed     uint32
	Hop      *Hop
	OnlyBest bool
}

// common has the calls of a Table and a ConcurrentTable.
type common struct {
	held *handle
}

// AnyTable is a *Table or a *ConcurrentTable.
type AnyTable interface {
	shared() common
}

func (table *common) shared() common {
	return *table
}

// Table is a routing table, created by New or NewJournaled. Each call of the zero Table returns ErrClosed.
type Table struct {
	common
}

// ConcurrentTable is a routing table, created by NewConcurrent, that goroutines read during its changes. A call that reads never
// waits, and returns what one published table holds: the table before a change or after it. ApplyEach publishes its commands at once.
// A change waits for other changes, and for calls that began to read before the previous change. RoutesFrom and each page of Walk read
// the table that is published then. It takes twice the memory of a Table. Each call of the zero ConcurrentTable returns ErrClosed.
type ConcurrentTable struct {
	common
}

func made(limit uint32, create func(held *handle, limit C.uint32_t) uint32) (common, error) {
	table := common{newHandle()}
	if err := table.held.change(func() uint32 { return create(table.held, C.uint32_t(limit)) }); err != nil {
		return common{}, about(err, "limit %d, not 1 to %d", limit, MaxLimit)
	}
	return table, nil
}

// New returns an empty table for up to limit routes of each feed, 1 to 1,000,000. It keeps no journal,
// and has fewer than two nodes for each route, however long it is used.
func New(limit uint32) (*Table, error) {
	return newTable(limit, C.YARIB_PLAIN)
}

// NewJournaled returns an empty table with a journal that keeps every answered command, 56 bytes each.
func NewJournaled(limit uint32) (*Table, error) {
	return newTable(limit, C.YARIB_JOURNALED)
}

func newTable(limit uint32, kind C.uint32_t) (*Table, error) {
	table, err := made(limit, func(held *handle, limit C.uint32_t) uint32 {
		return uint32(C.yarib_new(&held.inside, limit, kind))
	})
	if err != nil {
		return nil, err
	}
	return &Table{table}, nil
}

// NewConcurrent returns an empty table for up to limit routes of each feed, 1 to 1,000,000.
func NewConcurrent(limit uint32) (*ConcurrentTable, error) {
	table, err := made(limit, func(held *handle, limit C.uint32_t) uint32 {
		held.isConcurrent = true
		return uint32(C.yarib_concurrent_new(held.concurrent(), limit))
	})
	if err != nil {
		return nil, err
	}
	return &ConcurrentTable{table}, nil
}

// Close frees the table's memory. Closing twice is harmless. If it can't be freed (ErrBusy, ErrBarrier, ErrForked) it stays as it was.
func (table *common) Close() error {
	return table.held.free()
}

// Apply executes a command and returns its reply. A command that is refused is a CommandError.
func (table *common) Apply(command Command) (Reply, error) {
	asked, raw := command.numbers(), C.yarib_reply{}
	if err := table.held.change(func() uint32 { return table.held.apply(&asked, &raw) }); err != nil {
		return Reply{}, command.failed(err)
	}
	return replyOf(&raw), nil
}

// ApplyEach executes the commands in order. A command that fails doesn't stop the others.
func (table *common) ApplyEach(commands []Command) ([]Outcome, error) {
	// One more, so that there is a first one.
	asked, replies := make([]C.yarib_command, len(commands)+1), make([]C.yarib_reply, len(commands)+1)
	for k, command := range commands {
		asked[k] = command.numbers()
	}
	size := C.size_t(len(commands))
	if err := table.held.change(func() uint32 { return table.held.applyEach(&asked[0], &replies[0], size) }); err != nil {
		return nil, err
	}
	outcomes := make([]Outcome, len(commands))
	for k := range outcomes {
		if replies[k].code == C.YARIB_UNANSWERED {
			outcomes[k].Err = commands[k].failed(failed(uint32(replies[k].count)))
		} else {
			outcomes[k].Reply = replyOf(&replies[k])
		}
	}
	return outcomes, nil
}

// unchanged returns the error of a reply that says that nothing changed, and nil for other replies.
func unchanged(code Code) error {
	switch code {
	case Exists:
		return ErrExists
	case Full:
		return ErrFull
	case Missing:
		return ErrMissing
	}
	return nil
}

// done executes a command. A reply that says that nothing changed is an error too.
func (table *common) done(command Command) (Reply, error) {
	reply, err := table.Apply(command)
	if err != nil {
		return reply, err
	}
	return reply, command.failed(unchanged(reply.Code))
}

// Add adds a route. It returns ErrExists or ErrFull if nothing changed.
func (table *common) Add(feed uint32, prefix netip.Prefix, pref uint32, hop Hop) (Reply, error) {
	return table.done(Command{Operation: Add, Feed: feed, Prefix: prefix, Pref: pref, Hop: hop})
}

// Replace changes preference and next hop of the feed's route. It returns ErrMissing if the feed has no route to the prefix.
func (table *common) Replace(feed uint32, prefix netip.Prefix, pref uint32, hop Hop) (Reply, error) {
	return table.done(Command{Operation: Replace, Feed: feed, Prefix: prefix, Pref: pref, Hop: hop})
}

// Put adds a route, or changes the feed's route to this prefix. It returns ErrFull if nothing changed.
func (table *common) Put(feed uint32, prefix netip.Prefix, pref uint32, hop Hop) (Reply, error) {
	for {
		reply, err := table.Add(feed, prefix, pref, hop)
		if !errors.Is(err, ErrExists) {
			return reply, err
		}
		// Another goroutine may withdraw the route between the two commands.
		if reply, err = table.Replace(feed, prefix, pref, hop); !errors.Is(err, ErrMissing) {
			return reply, err
		}
	}
}

// Withdraw removes the feed's route. It returns ErrMissing if the feed has no route to the prefix.
func (table *common) Withdraw(feed uint32, prefix netip.Prefix) (Reply, error) {
	return table.done(Command{Operation: Withdraw, Feed: feed, Prefix: prefix})
}

// LookUpPrefix returns the best route of the longest prefix that contains this prefix, if there is one.
func (table *common) LookUpPrefix(prefix netip.Prefix) (Route, bool, error) {
	found, err := table.Select(Selection{Part: Covering, Prefix: prefix, OnlyBest: true})
	if err != nil || len(found) == 0 {
		return Route{}, false, err
	}
	return found[len(found)-1], true, nil
}

// Walk visits the routes in the order of Routes from a position on, page by page, until visit returns false. The table may change
// meanwhile, also by visit: a route is visited if it exists when its page is read, and never twice.
func (table *common) Walk(from Place, visit func(Route) bool) error {
	for {
		page, err := table.RoutesFrom(from, pageSize)
		if err != nil {
			return err
		}
		for _, route := range page {
			if !visit(route) {
				return nil
			}
		}
		if len(page) < pageSize {
			return nil
		}
		from = page[pageSize-1].Behind()
	}
}

// pageSize is the number of routes that Walk reads at once.
const pageSize = 256

func lookUp(held *handle, asked netip.Addr) (Route, bool, error) {
	base, isRight := number(asked)
	if !isRight {
		return Route{}, false, about(ErrCommand, "%v", asked)
	}
	raw := C.yarib_route{}
	if err := held.read(func() uint32 { return held.lookUpOne(base, &raw) }); err != nil {
		return Route{}, false, err
	}
	route, found := routeOf(&raw)
	return route, found, nil
}

// Answers has the answers to several look-ups, in order.
type Answers struct {
	raw []C.yarib_route
}

// Len returns the number of answers.
func (answers Answers) Len() int {
	return len(answers.raw)
}

// At returns the answer at an index: a route, if there is one.
func (answers Answers) At(k int) (Route, bool) {
	return routeOf(&answers.raw[k])
}

func lookUpEach(held *handle, addresses []uint32) (Answers, error) {
	// One more, so that there is a first one.
	raw, size := make([]C.yarib_route, len(addresses)+1), C.size_t(len(addresses))
	first := new(C.uint32_t)
	if len(addresses) > 0 {
		first = (*C.uint32_t)(&addresses[0])
	}
	if err := held.read(func() uint32 { return held.lookUp(first, &raw[0], size) }); err != nil {
		return Answers{}, err
	}
	return Answers{raw[:len(addresses)]}, nil
}

// LookUp returns the best route of the longest prefix that covers the address, if there is one.
func (table *common) LookUp(address netip.Addr) (Route, bool, error) {
	return lookUp(table.held, address)
}

// LookUpEach looks up all these addresses, in host byte order, in less time than one call each.
func (table *common) LookUpEach(addresses []uint32) (Answers, error) {
	return lookUpEach(table.held, addresses)
}

// LookUpAll returns all routes whose prefix covers the address, the best first.
func (table *common) LookUpAll(address netip.Addr) ([]Route, error) {
	base, isRight := number(address)
	if !isRight {
		return nil, about(ErrCommand, "%v", address)
	}
	return table.held.whole(func(room []C.yarib_route, total *C.size_t) uint32 {
		return table.held.lookUpAll(base, room, total)
	})
}

// Select returns the selected routes, sorted by base, length, preference and feed.
func (table *common) Select(asked Selection) ([]Route, error) {
	raw := C.yarib_selection{part: C.uint32_t(asked.Part), feed: C.uint32_t(asked.Feed)}
	if asked.OnlyBest {
		raw.only_best = 1
	}
	if asked.Part != All {
		base, length, isRight := numbersOf(asked.Prefix)
		if !isRight {
			return nil, about(ErrCommand, "%v", asked.Prefix)
		}
		raw.base, raw.len = base, length
	}
	hop, via, isRight := C.uint8_t(0), C.uint32_t(0), true
	if asked.Hop != nil {
		hop, via, isRight = asked.Hop.numbers()
	}
	if !isRight {
		return nil, about(ErrCommand, "%v", asked.Hop)
	}
	found, err := table.held.whole(func(room []C.yarib_route, total *C.size_t) uint32 {
		return table.held.chosen(&raw, C.uint32_t(hop), via, room, total)
	})
	return found, about(err, "%v %v of feed %d", asked.Part, asked.Prefix, asked.Feed)
}

// Routes returns all routes, sorted by base, length, preference and feed.
func (table *common) Routes() ([]Route, error) {
	return table.Select(Selection{Part: All})
}

// HopCount is the number of best routes that use a next hop.
type HopCount struct {
	Hop    Hop
	Routes uint32
}

// HopCounts returns how many best routes use each next hop: first Discard, then the routers by their addresses. A next hop that no best
// route uses is left out.
func (table *common) HopCounts() ([]HopCount, error) {
	total, room := C.size_t(64), []C.yarib_hop_count{}
	for int(total) > len(room) {
		room = make([]C.yarib_hop_count, total)
		if err := table.held.read(func() uint32 { return table.held.hopCounts(room, &total) }); err != nil {
			return nil, err
		}
	}
	counts := make([]HopCount, total)
	for k := range counts {
		counts[k] = HopCount{Discard, uint32(room[k].routes)}
		if room[k].hop == C.YARIB_VIA {
			counts[k].Hop = Via(address(room[k].via))
		}
	}
	return counts, nil
}

// Place is a position in the order of a table's routes; there need not be such a route. Preference and feed 0 are before all
// routes to the prefix. The zero Place is before all routes.
type Place struct {
	Prefix netip.Prefix
	Pref   uint32
	Feed   uint32
}

// Behind returns the position after a route: the next page begins there.
func (route Route) Behind() Place {
	return Place{Prefix: route.Prefix, Pref: route.Pref, Feed: route.Feed + 1}
}

// RoutesFrom returns up to the given number of routes, sorted by base, length, preference and feed, from a position on. It
// allocates memory only for them.
func (table *common) RoutesFrom(from Place, most int) ([]Route, error) {
	base, length, isRight := numbersOf(from.Prefix)
	if from == (Place{}) {
		base, length, isRight = 0, 0, true
	}
	if !isRight {
		return nil, about(ErrCommand, "%v", from.Prefix)
	}
	if most < 0 {
		return nil, about(ErrNumber, "%d routes", most)
	}
	raw := C.yarib_route{base: base, len: length, pref: C.uint32_t(from.Pref), feed: C.uint32_t(from.Feed)}
	page, err := table.held.page(&raw, C.size_t(most))
	if err != nil {
		return nil, about(err, "%v", from.Prefix)
	}
	return routesOf(page), nil
}

// Count returns the number of routes.
func (table *common) Count() (int, error) {
	total := C.size_t(0)
	err := table.held.read(func() uint32 { return table.held.count(&total) })
	return int(total), err
}

// Reserve reserves capacity for this many journal entries, if there is a journal.
func (table *Table) Reserve(entries int) error {
	return table.held.change(func() uint32 { return uint32(C.yarib_reserve(&table.held.inside, C.size_t(entries))) })
}

// Entry is an entry of the journal.
type Entry struct {
	Command Command
	Reply   Reply
}

func entryOf(raw *C.yarib_entry) Entry {
	command := Command{Operation: Operation(raw.command.operation), Feed: uint32(raw.command.feed)}
	switch command.Operation {
	case Add, Replace, Withdraw:
		command.Prefix = netip.PrefixFrom(address(raw.command.base), int(raw.command.len))
		command.Pref = uint32(raw.command.pref)
		if raw.command.hop == C.YARIB_VIA {
			command.Hop = Via(address(raw.command.via))
		}
	case Lookup:
		command.Address = address(raw.command.base)
	}
	return Entry{command, replyOf(&raw.reply)}
}

// Journal returns the journal of a table that keeps one, and ErrKind otherwise.
func (table *Table) Journal() ([]Entry, error) {
	total, room := C.size_t(64), []C.yarib_entry{}
	for int(total) > len(room) {
		room = make([]C.yarib_entry, total)
		if err := table.held.read(func() uint32 {
			return uint32(C.yarib_journal(&table.held.inside, 0, &room[0], C.size_t(len(room)), &total))
		}); err != nil {
			return nil, err
		}
	}
	entries := make([]Entry, total)
	for k := range entries {
		entries[k] = entryOf(&room[k])
	}
	return entries, nil
}

// By says how the answers of two tables are compared.
type By uint32

// The ways.
const (
	ByHop   By = 0 // by where packets go: the answers have a hop alone
	ByRoute By = 1 // by the whole route
)

func (by By) String() string {
	switch by {
	case ByHop:
		return "by hop"
	case ByRoute:
		return "by route"
	}
	return fmt.Sprintf("By(%d)", uint32(by))
}

// Difference is a range of addresses that two tables answer differently. Each answer says whether there is a route.
type Difference struct {
	First, Last         netip.Addr
	Before, After       Route
	HasBefore, HasAfter bool
}

// firstDifference locks the handle that was made first before the other, so that no two calls wait for each other.
func firstDifference(older, newer *handle, by By, from uint64, raw *C.yarib_difference) uint32 {
	if older == nil || newer == nil {
		return C.YARIB_NOTHING
	}
	way, start := C.uint32_t(by), C.uint32_t(from)
	if older.isConcurrent {
		defer runtime.KeepAlive(older)
		defer runtime.KeepAlive(newer)
		return uint32(C.yarib_concurrent_first_difference(older.concurrent(), newer.concurrent(), way, start, raw))
	}
	first, second := older, newer
	if second.number < first.number {
		first, second = second, first
	}
	first.lock.RLock()
	defer first.lock.RUnlock()
	second.lock.RLock()
	defer second.lock.RUnlock()
	return uint32(C.yarib_first_difference(&older.inside, &newer.inside, way, start, raw))
}

// Differences returns the ranges of addresses that this table and a newer one answer differently, in order.
func (table *Table) Differences(newer *Table, by By) ([]Difference, error) {
	return differences(table.held, newer.held, by)
}

// Differences returns the ranges of addresses that this table and a newer one answer differently, as WalkDifferences visits them.
func (table *ConcurrentTable) Differences(newer *ConcurrentTable, by By) ([]Difference, error) {
	return differences(table.held, newer.held, by)
}

// WalkDifferences visits the ranges of Differences until visit returns false. The tables may change meanwhile: each range is that of
// the moment when it is found.
func (table *Table) WalkDifferences(newer *Table, by By, visit func(Difference) bool) error {
	return walkDifferences(table.held, newer.held, by, visit)
}

// WalkDifferences visits the ranges of Differences until visit returns false. Each range is that of the tables that are published when
// it is found: to compare tables that change, Copy them before.
func (table *ConcurrentTable) WalkDifferences(newer *ConcurrentTable, by By, visit func(Difference) bool) error {
	return walkDifferences(table.held, newer.held, by, visit)
}

func differences(older, newer *handle, by By) ([]Difference, error) {
	found := []Difference{}
	err := walkDifferences(older, newer, by, func(one Difference) bool {
		found = append(found, one)
		return true
	})
	if err != nil {
		return nil, err
	}
	return found, nil
}

func walkDifferences(older, newer *handle, by By, visit func(Difference) bool) error {
	raw := C.yarib_difference{}
	if older != nil && older == newer {
		return nil
	}
	for from := uint64(0); from < 1<<32; from = uint64(raw.last) + 1 {
		status := firstDifference(older, newer, by, from, &raw)
		if status == C.YARIB_NONE_LEFT {
			break
		}
		if err := failed(status); err != nil {
			return about(err, "%v", by)
		}
		one := Difference{First: address(raw.first), Last: address(raw.last)}
		one.Before, one.HasBefore = routeOf(&raw.before)
		one.After, one.HasAfter = routeOf(&raw.after)
		if !visit(one) {
			return nil
		}
	}
	return nil
}

// Copy returns a Table with the published routes, for up to limit routes of each feed. It returns ErrFull if a feed has more.
func (table *ConcurrentTable) Copy(limit uint32) (*Table, error) {
	copied, err := New(limit)
	if err != nil {
		return nil, err
	}
	if err := table.held.read(func() uint32 {
		return uint32(C.yarib_concurrent_copy(table.held.concurrent(), C.uint32_t(limit), &copied.held.inside))
	}); err != nil {
		return nil, err
	}
	return copied, nil
}

// ReplaceAll publishes the routes of a Table at once, which was loaded aside, for up to limit routes of each feed: each call that reads
// finds those before, or the new ones. It returns ErrFull if a feed has more.
func (table *ConcurrentTable) ReplaceAll(other *Table, limit uint32) error {
	err := table.held.change(func() uint32 {
		if other.held == nil {
			return C.YARIB_NOTHING
		}
		other.held.lock.RLock()
		defer other.held.lock.RUnlock()
		return uint32(C.yarib_concurrent_replace(table.held.concurrent(), C.uint32_t(limit), &other.held.inside))
	})
	if err == ErrNumber {
		return about(err, "limit %d, not 1 to %d", limit, MaxLimit)
	}
	return err
}

// FibAttach attaches a forwarding table of 64 MiB or more, if none is attached. From then on every command updates it, and look-ups use
// it. If a command finds no memory for the update, the forwarding table is freed until this is called again. It returns ErrKind if
// the table keeps a journal.
func (table *common) FibAttach() error {
	return table.held.change(table.held.fibAttach)
}

// FibIsAttached returns true if a forwarding table is attached, which look-ups use. After FibAttach this is false only once a change found
// no memory to update it. A ConcurrentTable answers for the published one of its two tables.
func (table *common) FibIsAttached() (bool, error) {
	attached := C.uint32_t(0)
	err := table.held.read(func() uint32 { return table.held.fibIsAttached(&attached) })
	return attached == 1, err
}

func memory(held *handle) (int, error) {
	bytes := C.size_t(0)
	err := held.read(func() uint32 { return held.memory(&bytes) })
	return int(bytes), err
}

// Memory returns an estimate of the table's size in bytes, including an attached forwarding table.
func (table *common) Memory() (int, error) {
	return memory(table.held)
}

// Fib is a forwarding table. It has a table's answers at the time when it was created: 64 MiB or more, for look-ups with two or three
// memory reads.
type Fib struct {
	held *handle
}

// FibNew returns a forwarding table with the current answers of this table.
func (table *Table) FibNew() (*Fib, error) {
	fib := &Fib{newHandle()}
	if err := table.held.read(func() uint32 {
		return uint32(C.yarib_fib_new(&table.held.inside, &fib.held.inside))
	}); err != nil {
		return nil, err
	}
	return fib, nil
}

// Clone returns another handle to it, for another goroutine. The memory is freed with the last handle.
func (fib *Fib) Clone() (*Fib, error) {
	other := &Fib{newHandle()}
	if err := fib.held.read(func() uint32 {
		return uint32(C.yarib_fib_clone(&fib.held.inside, &other.held.inside))
	}); err != nil {
		return nil, err
	}
	return other, nil
}

// Close frees the handle's memory. Closing twice is harmless. If it can't be freed (ErrBusy, ErrBarrier, ErrForked) it stays as it was.
func (fib *Fib) Close() error {
	return fib.held.free()
}

// LookUp returns the best route of the longest prefix that covers the address, if there is one.
func (fib *Fib) LookUp(address netip.Addr) (Route, bool, error) {
	return lookUp(fib.held, address)
}

// LookUpEach looks up all these addresses, in host byte order.
func (fib *Fib) LookUpEach(addresses []uint32) (Answers, error) {
	return lookUpEach(fib.held, addresses)
}

// Memory returns its size in bytes, counted once for all its handles.
func (fib *Fib) Memory() (int, error) {
	return memory(fib.held)
}

// Source is a source of more routes than a feed may have, in consecutive feeds of a table. Each prefix belongs to exactly one of the
// feeds, so the table's answers are those of a single feed without its limit, but for the feed's number. ErrFull is returned as soon
// as the feed of the prefix is at its limit: usually about 1,990,000 routes fit into two feeds of MaxLimit. The methods of the zero Source
// return ErrClosed.
type Source struct {
	table        common
	first, feeds uint32
}

// NewSource returns a source in this many feeds of a table, from the first one on. No other caller may change these feeds.
func NewSource(table AnyTable, first, feeds uint32) (Source, error) {
	if first < 1 || feeds < 1 || first > MaxFeed || feeds > MaxFeed+1-first {
		return Source{}, about(ErrNumber, "%d feeds from feed %d on, of %d", feeds, first, MaxFeed)
	}
	return Source{table.shared(), first, feeds}, nil
}

// FeedOf returns the feed that a prefix belongs to, and the source's first feed if the prefix isn't IPv4.
func (source Source) FeedOf(prefix netip.Prefix) uint32 {
	base, length, isRight := numbersOf(prefix)
	if !isRight {
		return source.first
	}
	mixed := (uint32(base) + uint32(length)) * 2654435769
	return source.first + uint32(uint64(mixed)*uint64(source.feeds)>>32)
}

// Add adds a route. It returns ErrExists or ErrFull if nothing changed.
func (source Source) Add(prefix netip.Prefix, pref uint32, hop Hop) (Reply, error) {
	return source.table.Add(source.FeedOf(prefix), prefix, pref, hop)
}

// Replace changes preference and next hop of the source's route. It returns ErrMissing if the source has no route to the prefix.
func (source Source) Replace(prefix netip.Prefix, pref uint32, hop Hop) (Reply, error) {
	return source.table.Replace(source.FeedOf(prefix), prefix, pref, hop)
}

// Put adds a route, or changes the source's route to this prefix. It returns ErrFull if nothing changed.
func (source Source) Put(prefix netip.Prefix, pref uint32, hop Hop) (Reply, error) {
	return source.table.Put(source.FeedOf(prefix), prefix, pref, hop)
}

// Withdraw removes the source's route. It returns ErrMissing if the source has no route to the prefix.
func (source Source) Withdraw(prefix netip.Prefix) (Reply, error) {
	return source.table.Withdraw(source.FeedOf(prefix), prefix)
}

// Purge removes all routes of the source and returns their number.
func (source Source) Purge() (int, error) {
	count := 0
	if source.feeds == 0 {
		return 0, ErrClosed
	}
	for feed := source.first; feed < source.first+source.feeds; feed++ {
		reply, err := source.table.Apply(Command{Operation: Purge, Feed: feed})
		if err != nil {
			return count, err
		}
		count += int(reply.Count)
	}
	return count, nil
}

// Routes returns the routes of the source, sorted by base and length.
func (source Source) Routes() ([]Route, error) {
	if source.feeds == 0 {
		return nil, ErrClosed
	}
	routes := []Route{}
	err := source.table.Walk(Place{}, func(route Route) bool {
		if source.first <= route.Feed && route.Feed < source.first+source.feeds {
			routes = append(routes, route)
		}
		return true
	})
	if err != nil {
		return nil, err
	}
	return routes, nil
}

// ParsePrefix parses a prefix such as 10.0.0.0/8, without leading zeros and without a bit set past the length.
func ParsePrefix(text string) (netip.Prefix, error) {
	bytes, read := C.CString(text), C.yarib_prefix{}
	defer C.free(unsafe.Pointer(bytes))
	if err := failed(uint32(C.yarib_prefix_parse(bytes, C.size_t(len(text)), &read))); err != nil {
		return netip.Prefix{}, about(err, "%q", text)
	}
	return netip.PrefixFrom(address(read.base), int(read.len)), nil
}
