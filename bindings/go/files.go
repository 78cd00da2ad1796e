package yarib

/*
#define _POSIX_C_SOURCE 200809L
#include <stdio.h>
#include <stdlib.h>
#include <yarib.h>

// The streams of both calls are in memory, so neither waits for a file.

static uint32_t save(const void *table, int is_concurrent, uint32_t feed, char **text, size_t *size) {
	FILE *stream = open_memstream(text, size);
	if (!stream) return YARIB_NO_MEMORY;
	uint32_t status = is_concurrent ? yarib_concurrent_save(table, feed, stream) : yarib_save(table, feed, stream);
	// A stream in memory refuses only for want of it.
	int is_whole = fclose(stream) == 0 && status != YARIB_BAD_FILE;
	return is_whole ? status : YARIB_NO_MEMORY;
}

static uint32_t load(void *table, int is_concurrent, uint32_t feed, const char *text, size_t size, yarib_loaded *loaded) {
	FILE *stream = fmemopen((void *)text, size, "r");
	if (!stream) return YARIB_NO_MEMORY;
	uint32_t status = is_concurrent ? yarib_concurrent_load(table, feed, stream, loaded) : yarib_load(table, feed, stream, loaded);
	fclose(stream);
	return status;
}
*/
import "C"

import (
	"bytes"
	"fmt"
	"io"
	"strings"
	"unsafe"
)

// maxLine is the largest number of bytes of a line of a feed file, without its end.
const maxLine = 128

// LineError is the error of a line of a feed file that Load can't add.
type LineError struct {
	Line int    // from 1
	Text string // up to 129 bytes of the line
	Err  error  // the reason: ErrLine, ErrLength, ErrBits, ErrExists or ErrFull
}

func (failure *LineError) Error() string {
	return fmt.Sprintf("yarib: line %d: %s: %q", failure.Line, strings.TrimPrefix(failure.Err.Error(), "yarib: "), failure.Text)
}

// Unwrap returns the reason.
func (failure *LineError) Unwrap() error {
	return failure.Err
}

// Save writes the feed's routes as a feed file of version 2, which Load and the program read. A ConcurrentTable writes those of one
// published table. No lock is held while the file is written.
func (table *common) Save(to io.Writer, feed uint32) error {
	var text *C.char
	var size C.size_t
	err := table.held.read(func() uint32 { return table.held.save(C.uint32_t(feed), &text, &size) })
	defer C.free(unsafe.Pointer(text))
	if err != nil {
		return about(err, "feed %d, not 1 to %d", feed, MaxFeed)
	}
	_, err = to.Write(unsafe.Slice((*byte)(unsafe.Pointer(text)), int(size)))
	return err
}

// Load adds the routes of a feed file that consists of add lines, and returns their number. A LineError has the first line that
// can't be added; the routes of the lines before it stay. The file is read whole before: if it can't be read, nothing has changed. Then
// its routes are added by one change of a Table, while other calls wait. A ConcurrentTable is published once, at the end.
func (table *common) Load(from io.Reader, feed uint32) (int, error) {
	text, err := io.ReadAll(from)
	if err != nil {
		return 0, err
	}
	// One byte more, so that there is a first one.
	first, loaded, status := &append(text, 0)[0], C.yarib_loaded{}, uint32(C.YARIB_DONE)
	err = table.held.change(func() uint32 {
		status = table.held.load(C.uint32_t(feed), (*C.char)(unsafe.Pointer(first)), C.size_t(len(text)), &loaded)
		return status
	})
	switch status {
	case C.YARIB_BAD_NUMBER:
		err = about(err, "feed %d, not 1 to %d", feed, MaxFeed)
	case C.YARIB_BAD_TEXT:
		err = lineError(text, int(loaded.line), ErrLine)
	case C.YARIB_BAD_LENGTH, C.YARIB_BAD_BITS:
		err = lineError(text, int(loaded.line), err)
	case C.YARIB_NOT_ADDED:
		err = lineError(text, int(loaded.line), unchanged(Code(loaded.code)))
	}
	return int(loaded.routes), err
}

// lineError returns the error of a line of this text.
func lineError(text []byte, number int, reason error) error {
	line := bytes.SplitN(text, []byte("\n"), number+1)[number-1]
	if len(line) > maxLine {
		line = line[:maxLine+1]
	}
	return &LineError{number, string(line), reason}
}

func (one *handle) save(feed C.uint32_t, text **C.char, size *C.size_t) uint32 {
	return uint32(C.save(unsafe.Pointer(&one.inside), one.kind(), feed, text, size))
}

func (one *handle) load(feed C.uint32_t, text *C.char, size C.size_t, loaded *C.yarib_loaded) uint32 {
	return uint32(C.load(unsafe.Pointer(&one.inside), one.kind(), feed, text, size, loaded))
}
