package yarib

// #include <yarib.h>
import "C"

import (
	"runtime"
	"sync"
	"sync/atomic"
	"unsafe"
)

// handle is a handle of the C library, also one of a concurrent table. It is never copied. A change holds its lock, and so does each
// call that reads a table, so the library never finds the handle busy. Calls that read a concurrent table don't need the lock.
type handle struct {
	inside       C.yarib
	lock         sync.RWMutex
	number       uint64
	isConcurrent bool
}

// handles is the number of handles made.
var handles uint64

func newHandle() *handle {
	one := &handle{number: atomic.AddUint64(&handles, 1)}
	runtime.SetFinalizer(one, (*handle).free)
	return one
}

// concurrent returns the handle as one of a concurrent table: both are one pointer.
func (one *handle) concurrent() *C.yarib_concurrent {
	return (*C.yarib_concurrent)(unsafe.Pointer(&one.inside))
}

func (one *handle) free() error {
	if one == nil {
		return nil
	}
	one.lock.Lock()
	defer one.lock.Unlock()
	if one.isConcurrent {
		return failed(uint32(C.yarib_concurrent_free(one.concurrent())))
	}
	return failed(uint32(C.yarib_free(&one.inside)))
}

// change makes a call that changes the handle, once no other is under way.
func (one *handle) change(call func() uint32) error {
	if one == nil {
		return ErrClosed
	}
	one.lock.Lock()
	defer one.lock.Unlock()
	return failed(call())
}

// read makes a call that only reads the handle.
func (one *handle) read(call func() uint32) error {
	if one == nil {
		return ErrClosed
	}
	if one.isConcurrent {
		defer runtime.KeepAlive(one)
		return failed(call())
	}
	one.lock.RLock()
	defer one.lock.RUnlock()
	return failed(call())
}

// whole returns a whole list. The call reports its length; if the list is longer than expected, it is called again.
func (one *handle) whole(call func(room []C.yarib_route, total *C.size_t) uint32) ([]Route, error) {
	total, room := C.size_t(64), []C.yarib_route{}
	for int(total) > len(room) {
		room = make([]C.yarib_route, total)
		if err := one.read(func() uint32 { return call(room, &total) }); err != nil {
			return nil, err
		}
	}
	return routesOf(room[:total]), nil
}

// page returns at most this many routes from a place on, and allocates memory only for them.
func (one *handle) page(from *C.yarib_route, most C.size_t) ([]C.yarib_route, error) {
	for {
		room, size, used := []C.yarib_route{}, C.size_t(0), C.size_t(0)
		if err := one.read(func() uint32 {
			if status := one.count(&size); status != C.YARIB_DONE {
				return status
			}
			if size++; most < size {
				size = most
			}
			room = make([]C.yarib_route, size+1)
			return one.routesFrom(from, room[:size], &used)
		}); err != nil {
			return nil, err
		}
		// A concurrent table may have more routes now than when they were counted.
		if used < size || size == most {
			return room[:used], nil
		}
	}
}

// Each of the following makes the call of the library that its name says, by the kind of the handle, and returns its status.

func (one *handle) apply(command *C.yarib_command, reply *C.yarib_reply) uint32 {
	if one.isConcurrent {
		return uint32(C.yarib_concurrent_apply(one.concurrent(), command, reply))
	}
	return uint32(C.yarib_apply(&one.inside, command, reply))
}

func (one *handle) applyEach(commands *C.yarib_command, replies *C.yarib_reply, size C.size_t) uint32 {
	if one.isConcurrent {
		return uint32(C.yarib_concurrent_apply_each(one.concurrent(), commands, size, replies, size))
	}
	return uint32(C.yarib_apply_each(&one.inside, commands, size, replies, size))
}

func (one *handle) fibAttach() uint32 {
	if one.isConcurrent {
		return uint32(C.yarib_concurrent_fib_attach(one.concurrent()))
	}
	return uint32(C.yarib_fib_attach(&one.inside))
}

func (one *handle) lookUpOne(address C.uint32_t, answer *C.yarib_route) uint32 {
	if one.isConcurrent {
		return uint32(C.yarib_concurrent_look_up_one(one.concurrent(), address, answer))
	}
	return uint32(C.yarib_look_up_one(&one.inside, address, answer))
}

func (one *handle) lookUp(addresses *C.uint32_t, answers *C.yarib_route, size C.size_t) uint32 {
	if one.isConcurrent {
		return uint32(C.yarib_concurrent_look_up(one.concurrent(), addresses, size, answers, size))
	}
	return uint32(C.yarib_look_up(&one.inside, addresses, size, answers, size))
}

func (one *handle) hops(addresses *C.uint32_t, size C.size_t, noRoute, discard C.uint32_t, hops *C.uint32_t, room C.size_t) uint32 {
	if one.isConcurrent {
		return uint32(C.yarib_concurrent_hops(one.concurrent(), addresses, size, noRoute, discard, hops, room))
	}
	return uint32(C.yarib_hops(&one.inside, addresses, size, noRoute, discard, hops, room))
}

func (one *handle) lookUpAll(address C.uint32_t, room []C.yarib_route, total *C.size_t) uint32 {
	if one.isConcurrent {
		return uint32(C.yarib_concurrent_look_up_all(one.concurrent(), address, 0, &room[0], C.size_t(len(room)), total))
	}
	return uint32(C.yarib_look_up_all(&one.inside, address, 0, &room[0], C.size_t(len(room)), total))
}

func (one *handle) chosen(asked *C.yarib_selection, hop, via C.uint32_t, room []C.yarib_route, total *C.size_t) uint32 {
	if one.isConcurrent {
		return uint32(C.yarib_concurrent_select_by_hop(one.concurrent(), asked, hop, via, 0, &room[0], C.size_t(len(room)), total))
	}
	return uint32(C.yarib_select_by_hop(&one.inside, asked, hop, via, 0, &room[0], C.size_t(len(room)), total))
}

func (one *handle) hopCounts(room []C.yarib_hop_count, total *C.size_t) uint32 {
	if one.isConcurrent {
		return uint32(C.yarib_concurrent_hop_counts(one.concurrent(), 0, &room[0], C.size_t(len(room)), total))
	}
	return uint32(C.yarib_hop_counts(&one.inside, 0, &room[0], C.size_t(len(room)), total))
}

// The room has space for one element more than its length, so that there is a first one.
func (one *handle) routesFrom(from *C.yarib_route, room []C.yarib_route, used *C.size_t) uint32 {
	first := &room[:1][0]
	if one.isConcurrent {
		return uint32(C.yarib_concurrent_routes_from(one.concurrent(), from, first, C.size_t(len(room)), used))
	}
	return uint32(C.yarib_routes_from(&one.inside, from, first, C.size_t(len(room)), used))
}

func (one *handle) count(total *C.size_t) uint32 {
	if one.isConcurrent {
		return uint32(C.yarib_concurrent_count(one.concurrent(), total))
	}
	return uint32(C.yarib_count(&one.inside, total))
}

func (one *handle) fibIsAttached(attached *C.uint32_t) uint32 {
	if one.isConcurrent {
		return uint32(C.yarib_concurrent_fib_is_attached(one.concurrent(), attached))
	}
	return uint32(C.yarib_fib_is_attached(&one.inside, attached))
}

func (one *handle) memory(bytes *C.size_t) uint32 {
	if one.isConcurrent {
		return uint32(C.yarib_concurrent_memory(one.concurrent(), bytes))
	}
	return uint32(C.yarib_memory(&one.inside, bytes))
}
