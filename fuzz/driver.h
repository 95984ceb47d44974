/* What the driver lends to the calls of the library, and how it counts and compares answers. */
#ifndef TCPCLKIT_DRIVER_H
#define TCPCLKIT_DRIVER_H

#include <stdio.h>
#include <stdlib.h>
#include <string.h>
#include <sys/mman.h>
#include <unistd.h>

#include <tcpclkit.h>

/* The slices that are lent at the same time, and the most bytes of each. */
enum { INPUT, FIRST, SECOND, THIRD, MEMORY, SLICES };
#define MOST ((size_t)1 << 20)
/* The greatest length of an extension list. */
#define LIST_MOST 65536
/* Bytes before a slice that no call may change, and what they are. */
#define BEFORE 64
#define MARK 0x5a

#define CHECK(holds) check(holds, __func__, __LINE__)
#define SAME(one, other) CHECK(memcmp(&(one), &(other), sizeof(one)) == 0)
/* Two answers with one status are the same. Nothing is written after these two statuses. */
#define SAME_ANSWER(status, one, other)                                      \
  do {                                                                       \
    if ((status) != TCPCLKIT_RANGE && (status) != TCPCLKIT_END)              \
      SAME(one, other);                                                      \
  } while (0)

static uint8_t *ends[SLICES];

#define COUNTERS 8192
__attribute__((section("__libfuzzer_extra_counters"))) static uint8_t counters[COUNTERS];

static void check(int holds, const char *function, int line) {
  if (holds)
    return;
  fprintf(stderr, "%s: line %d does not hold\n", function, line);
  abort();
}

/* Counts an answer: what was asked, a status or a kind, a code, and the size of a number. */
static void count(unsigned question, uint64_t status, uint64_t code, uint64_t number) {
  unsigned bits = 0;
  while (number >> bits && bits < 63)
    bits++;
  counters[(question * 1021 + status * 509 + code * 67 + bits) % COUNTERS] = 1;
}

/* -- slices */

static void make_slices(void) {
  size_t page = (size_t)sysconf(_SC_PAGESIZE), size = MOST + BEFORE + page;
  int which;
  size -= size % page;
  for (which = 0; which < SLICES; which++) {
    uint8_t *start = mmap(NULL, size + page, PROT_READ | PROT_WRITE,
                          MAP_PRIVATE | MAP_ANONYMOUS, -1, 0);
    CHECK(start != MAP_FAILED);
    CHECK(mprotect(start + size, page, PROT_NONE) == 0);
    ends[which] = start + size;
  }
}

/* A slice whose bytes are all `fill`. */
static uint8_t *lend(int which, size_t length, int fill) {
  CHECK(length <= MOST);
  memset(ends[which] - length - BEFORE, MARK, BEFORE);
  memset(ends[which] - length, fill, length);
  return ends[which] - length;
}

static void give_back(int which, size_t length) {
  const uint8_t *before = ends[which] - length - BEFORE;
  CHECK(before[0] == MARK && memcmp(before, before + 1, BEFORE - 1) == 0);
}

static size_t least(size_t one, size_t other) { return one < other ? one : other; }

/* The bytes of a slice after those that were written are as they were lent. */
static void keeps_rest(const uint8_t *slice, size_t length, uint64_t written, int fill) {
  const uint8_t *rest = slice + least(written, length);
  size_t left = length - least(written, length);
  if (left > 0)
    CHECK(rest[0] == fill && memcmp(rest, rest + 1, left - 1) == 0);
}

#endif
