//go:build !yarib_pkgconfig

package yarib

// This links the library that bindings/build leaves next to this directory.

// #cgo CFLAGS: -I${SRCDIR}/../c
// #cgo LDFLAGS: ${SRCDIR}/../out/libyarib.a
import "C"
