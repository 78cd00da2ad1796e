//go:build yarib_pkgconfig

package yarib

// This links the installed library, also if this package is vendored: pkg-config finds it.

// #cgo pkg-config: yarib
import "C"
