package yarib

/*
#include <yarib.h>

// Go passes no struct with pointers to memory of its own, so these calls make it.

static yarib_view view_of(uint32_t *entries, size_t entry_count, uint32_t *blocks, size_t block_count, uint32_t *routers,
		size_t router_count) {
	yarib_view view = {entries, entry_count, blocks, block_count, routers, router_count};
	return view;
}

static uint32_t view_sizes(const void *table, int is_concurrent, size_t *blocks, size_t *routers) {
	return is_concurrent ? yarib_concurrent_view_sizes(table, blocks, routers) : yarib_view_sizes(table, blocks, routers);
}

static uint32_t view_write(const void *table, int is_concurrent, uint32_t *entries, uint32_t *blocks, size_t block_count,
		uint32_t *routers, size_t router_count, size_t *used) {
	yarib_view view = view_of(entries, YARIB_VIEW_ENTRIES, blocks, block_count, routers, router_count);
	uint32_t status = is_concurrent ? yarib_concurrent_view_write(table, &view) : yarib_view_write(table, &view);
	*used = view.router_count;
	return status;
}

static uint32_t view_look_up(uint32_t *entries, size_t entry_count, uint32_t *blocks, size_t block_count, uint32_t *routers, size_t router_count,
		uint32_t address) {
	const yarib_view view = view_of(entries, entry_count, blocks, block_count, routers, router_count);
	return yarib_view_look_up(&view, address);
}

static uint32_t view_look_up_each(uint32_t *entries, size_t entry_count, uint32_t *blocks, size_t block_count, uint32_t *routers,
		size_t router_count, const uint32_t *addresses, size_t size, uint32_t *numbers, size_t room) {
	const yarib_view view = view_of(entries, entry_count, blocks, block_count, routers, router_count);
	return yarib_view_look_up_each(&view, addresses, size, numbers, room);
}
*/
import "C"

import (
	"net/netip"
	"unsafe"
)

// The numbers that look-ups in a view return. FirstRouter or a higher number is that of a router.
const (
	NumberNoRoute = C.YARIB_NUMBER_NO_ROUTE // no prefix covers the address
	NumberDiscard = C.YARIB_NUMBER_DISCARD  // packets are discarded
	FirstRouter   = C.YARIB_FIRST_ROUTER
)

// View has the next hops of a table as numbers, as they were when the view was created: changes, Close and the end of the table don't
// change it. It owns its memory, 64 MiB or more, which the garbage collector frees. Its look-ups are the fastest, and take no lock:
// any number of goroutines may use it. The zero View has no route.
type View struct {
	entries, blocks, routers []uint32
}

// ViewNew returns a view of the current answers. It returns ErrKind if no forwarding table is attached (FibAttach).
func (table *common) ViewNew() (*View, error) {
	return newView(table.held)
}

// ViewNew returns a view of its answers.
func (fib *Fib) ViewNew() (*View, error) {
	return newView(fib.held)
}

func newView(held *handle) (*View, error) {
	view := &View{entries: make([]uint32, C.YARIB_VIEW_ENTRIES)}
	for {
		status := uint32(C.YARIB_DONE)
		err := held.read(func() uint32 {
			status = held.writeView(view)
			return status
		})
		// Another goroutine may change a concurrent table between two calls.
		if err == nil {
			return view, nil
		}
		if status != C.YARIB_BAD_SIZE {
			return nil, err
		}
	}
}

// LookUp returns the number of the address's next hop, and ErrCommand if the address isn't IPv4.
func (view *View) LookUp(asked netip.Addr) (uint32, error) {
	base, isRight := number(asked)
	if !isRight {
		return NumberNoRoute, about(ErrCommand, "%v", asked)
	}
	return uint32(C.view_look_up(array(view.entries), C.size_t(len(view.entries)), array(view.blocks), C.size_t(len(view.blocks)),
		array(view.routers), C.size_t(len(view.routers)), base)), nil
}

// LookUpEach writes the number of each address's next hop; the addresses are in host byte order. It returns ErrSize if the lists differ
// in length.
func (view *View) LookUpEach(addresses, numbers []uint32) error {
	return failed(uint32(C.view_look_up_each(array(view.entries), C.size_t(len(view.entries)), array(view.blocks),
		C.size_t(len(view.blocks)), array(view.routers), C.size_t(len(view.routers)), array(addresses), C.size_t(len(addresses)), array(numbers), C.size_t(len(numbers)))))
}

// Hop returns the next hop that has a number, if there is one: not for NumberNoRoute, nor for a number of another view.
func (view *View) Hop(number uint32) (Hop, bool) {
	switch {
	case number == NumberDiscard:
		return Discard, true
	case number < FirstRouter || number >= uint32(len(view.routers)):
		return Hop{}, false
	}
	return Via(address(C.uint32_t(view.routers[number]))), true
}

// Memory returns its size in bytes.
func (view *View) Memory() int {
	return 4 * (len(view.entries) + len(view.blocks) + len(view.routers))
}

// array returns where a list is for C. It may be empty.
func array(list []uint32) *C.uint32_t {
	if len(list) == 0 {
		return new(C.uint32_t)
	}
	return (*C.uint32_t)(&list[0])
}

// kind returns 1 for a concurrent table, and 0 for others.
func (one *handle) kind() C.int {
	if one.isConcurrent {
		return 1
	}
	return 0
}

func (one *handle) writeView(view *View) uint32 {
	blocks, routers := C.size_t(0), C.size_t(0)
	if status := C.view_sizes(unsafe.Pointer(&one.inside), one.kind(), &blocks, &routers); status != C.YARIB_DONE {
		return uint32(status)
	}
	view.blocks, view.routers = make([]uint32, blocks), make([]uint32, routers)
	status := C.view_write(unsafe.Pointer(&one.inside), one.kind(), array(view.entries), array(view.blocks), blocks, array(view.routers),
		routers, &routers)
	view.routers = view.routers[:routers]
	return uint32(status)
}

// Hops writes the router for each address, both as numbers in host byte order: discard if packets are discarded, and noRoute if no
// prefix covers the address. Choose two numbers that no route has as its router. It returns ErrSize if the lists differ in length.
func (table *common) Hops(addresses []uint32, noRoute, discard uint32, hops []uint32) error {
	return hopsOf(table.held, addresses, noRoute, discard, hops)
}

// Hops writes the router for each address, as Table.Hops does. For many addresses this is faster than LookUpEach.
func (fib *Fib) Hops(addresses []uint32, noRoute, discard uint32, hops []uint32) error {
	return hopsOf(fib.held, addresses, noRoute, discard, hops)
}

func hopsOf(held *handle, addresses []uint32, noRoute, discard uint32, hops []uint32) error {
	return held.read(func() uint32 {
		return held.hops(array(addresses), C.size_t(len(addresses)), C.uint32_t(noRoute), C.uint32_t(discard), array(hops), C.size_t(len(hops)))
	})
}
