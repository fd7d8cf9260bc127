// The one function of the depot trip store for C and C++ programs.
#ifndef DEPOT_H
#define DEPOT_H

#include <stddef.h>
#include <stdint.h>

// What depot_run answers where the text does not fit into `out`.
#define DEPOT_DOES_NOT_FIT 1000036

// A script with more bytes than this is a fault (number 38).
#define DEPOT_MOST_SCRIPT 32768

// Every listing fits into this many bytes: 512 lines of at most 64 bytes.
#define DEPOT_MOST_OUT 32768

#ifdef __cplusplus
extern "C" {
#endif

// Runs the script on a new store and writes the listing, or the line of the first fault, at the start of `out`.
//
// It returns how many bytes it wrote; the bytes of `out` past them stay as they were. Where the text does not fit, it
// returns DEPOT_DOES_NOT_FIT and `out` stays as it was. The text depends on the bytes of the script alone. It has no
// zero byte at its end.
//
// No memory is allocated and nothing is kept from one call to the next, so threads may call it at once, each with its
// own `out`. It needs stack: hosts/c/stack.c measures how much.
//
// The caller owes this: `script` points to `script_len` bytes that can be read and `out` to `out_len` bytes that can be
// written, also where a length is 0; neither is a null pointer; they do not overlap; and nobody else writes to them
// during the call.
size_t depot_run(const uint8_t *script, size_t script_len, uint8_t *out, size_t out_len);

#ifdef __cplusplus
}
#endif

#endif
