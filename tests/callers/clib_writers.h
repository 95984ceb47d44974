/* What the tests of the writers share: a slice, and a call into each room. */
#ifndef TCPCLKIT_CLIB_WRITERS_H
#define TCPCLKIT_CLIB_WRITERS_H

#include "clib.h"

/* Where a call writes. The rest of the bytes is marked. */
extern struct writing {
  uint8_t bytes[3300];
  size_t room;
  struct tcpclkit_written written;
} writing;

/* The last arguments of a call that writes. */
#define ROOM writing.bytes, writing.room, &writing.written

/* Checks a call with these bytes to write: it wrote all of them, or nothing if there is no room. */
void has_written(uint32_t status, const void *wanted, size_t size);

/* Makes a call that has these bytes to write, into each room up to one byte more than they need. */
#define WRITES(call, wanted, size)                                       \
  do {                                                                   \
    for (writing.room = 0; writing.room <= (size) + 1; writing.room++) { \
      memset(writing.bytes, MARK, sizeof writing.bytes);                 \
      memset(&writing.written, MARK, sizeof writing.written);            \
      has_written(call, wanted, size);                                   \
    }                                                                    \
  } while (0)

#endif
