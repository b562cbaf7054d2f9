/* The output of a script, made in the thread that calls. What the function promises is proved (crates/olap_core/src/lib.rt); that
   this header fits it is tested alone. */
#ifndef OLAP_CORE_H
#define OLAP_CORE_H

#include <stddef.h>
#include <stdint.h>

#ifdef __cplusplus
extern "C" {
#endif

enum olap_form { OLAP_CLASSIC = 0, OLAP_CSV = 1, OLAP_JSON = 2, OLAP_TABLE = 3 };

enum olap_status {
    OLAP_WRITTEN = 0,      /* the output is in front of `out`, and its length in `length` */
    OLAP_NO_ROOM = 1,      /* `length` is how long the output is: come again with so much room */
    OLAP_BAD_FORM = 2,     /* no form has this number */
    OLAP_BAD_ROWS = 3,     /* `rows` is not 1 to OLAP_MOST_ROWS */
    OLAP_BAD_LENGTHS = 4,  /* the lengths are not those of parts that are all of `parts` */
    OLAP_OUT_OF_MEMORY = 5
};

#define OLAP_MOST_ROWS UINT64_C(4294967296)

/* Writes the output of `script` to the front of `out`, which has room for `out_size` bytes, and its length to `length`. The CSV
   texts that its `load` lines name lie one after another in `parts`, and `lengths` are their lengths. The draft may have `rows`
   rows. Where the answer is not OLAP_WRITTEN, `out` stays as it is, and `length` too but for OLAP_NO_ROOM.

   No pointer is NULL, also where there are no bytes; `out` and `length` overlap nothing else. Memory comes from malloc, and all of
   it is given back before this returns. Several threads may call at once, but no signal handler, and no child that was forked from
   a process with threads. */
uint32_t olap_output(uint32_t form, uint64_t rows,
                     const uint8_t *script, size_t script_length,
                     const uint8_t *parts, size_t parts_length,
                     const size_t *lengths, size_t part_count,
                     uint8_t *out, size_t out_size,
                     size_t *length);

#ifdef __cplusplus
}
#endif

#endif
