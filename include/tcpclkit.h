/*
 * tcpclkit: bundles of the Bundle Protocol 7 (RFC 9171) and recorded sessions of TCPCLv4 (RFC 9174,
 * without TLS), read and written by functions that are proved to do what their definitions say.
 *
 *     struct tcpclkit_verdict verdict;
 *     uint32_t status = tcpclkit_judge_bundle(bytes, length, &verdict);
 *     if (status == TCPCLKIT_OK)
 *       use(bytes + verdict.payload_offset, verdict.payload_seen);
 *     else if (status == TCPCLKIT_TRUNCATED)
 *       read_more();
 *     else
 *       refuse(verdict.fault.code, verdict.fault.offset);
 *
 * What is proved. Each function `tcpclkit_NAME` but tcpclkit_abi is inline: it tests pointers and
 * lengths, and calls `tcpclkit_raw_NAME` of the library. There is no raw function for
 * tcpclkit_write_total, for default options, and for what these functions share. There is no inline
 * one for the size and the alignment of a scan. The paragraph "Proved" in a comment says what the
 * contract of the raw function says. The words in `backticks` there are definitions of the folders
 * `specs/` of the source, which docs/DEFINITIONS.md explains. Each raw function returns, whatever
 * the bytes and the numbers are, and reads and writes only what it was lent. Those that take a scan
 * require one in its memory, or room to start one. The inline functions are tested, and not proved.
 *
 * What the caller owes. Each pointer is valid for the length that follows it, and each pointer to a
 * struct is valid and aligned. Nobody changes what is lent while the call runs, not even from
 * another thread or from a signal handler. The library cannot see whether this holds. What a
 * function writes overlaps nothing else that it is lent, be it a slice, a struct, a scan or
 * options: otherwise an inline function answers TCPCLKIT_RANGE. Then it writes nothing, but sets
 * `*taken`, a block of a scan, a check value and a struct tcpclkit_written to 0 where they overlap
 * nothing. A null pointer with a length of 0 is an empty slice. For a null pointer with another
 * length, or in place of a struct, the answer is TCPCLKIT_NULL, and for a length above PTRDIFF_MAX
 * it is TCPCLKIT_RANGE. A caller from another language calls the raw functions. For these no
 * pointer may be null, also where a length is 0, no length may be above PTRDIFF_MAX, and nothing
 * that is written may overlap anything else.
 *
 * Threads. The library keeps no state. Every function may be called from any thread at any time,
 * as long as nothing that one call writes is used by another call at that time. A signal handler,
 * and the forked child of a process with threads, may call all functions but tcpclkit_pack and
 * tcpclkit_pack_more.
 *
 * Memory. Only tcpclkit_pack and tcpclkit_pack_more take memory: each calls malloc and free of the
 * C library for one block. In tests, 120 KiB of stack were enough for a whole tool, and 20 KiB for
 * any other function. An alternate stack for signal handlers often has 8 KiB (SIGSTKSZ), which is
 * too little. The code is for x86-64-v2: it uses SSE 4.2, and no AVX.
 *
 * Slices. A function writes into a slice from its first byte on. The bytes after that stay.
 *
 * Fields. Each field of each struct is a uint64_t, so there is no padding. A field that the
 * comments do not name for a kind of message is 0. After TCPCLKIT_TRUNCATED and TCPCLKIT_FAULT of
 * the call that reads a contact header, a message or an item, so is each of its fields but `fault`.
 */
#ifndef TCPCLKIT_H
#define TCPCLKIT_H

#include <stddef.h>
#include <stdint.h>

#ifdef __cplusplus
extern "C" {
#endif

/* The version of this interface. It is another number as soon as a name, a number, a field or a
 * parameter of this header changes its meaning. */
#define TCPCLKIT_ABI 4u

/* The TCPCLKIT_ABI of the header that the library was built with. */
uint32_t tcpclkit_abi(void);

/* -- statuses ---------------------------------------------------------------------------------- */

/* What every other function returns. */
enum {
  /* The answer is whole. */
  TCPCLKIT_OK = 0,
  /* Nothing is left: the bytes, or the list of items, end at the offset. For tcpclkit_judge_block:
   * no block's data or check value goes on. Nothing was written, but a block of a scan is all 0. */
  TCPCLKIT_END = 1,
  /* The bytes end inside the bundle, the contact header or the head of the message. More bytes may
   * complete it, so a caller that gets more asks again. */
  TCPCLKIT_TRUNCATED = 2,
  /* The same, as the status of a scan: all was taken, and the bundle goes on. */
  TCPCLKIT_GOING_ON = 2,
  /* The head of the segment is whole, and the bytes end inside its data, so that the segment can be
   * handed on as it comes. For a recording that ends there, this is the fault
   * TCPCLKIT_WIRE_TRUNCATED. */
  TCPCLKIT_DATA_TRUNCATED = 3,
  /* A fault, which stays one whatever bytes follow. */
  TCPCLKIT_FAULT = 4,
  /* A slice that was lent is too small. What was written into it is a prefix of the answer. A
   * writer of messages or of bundles, and tcpclkit_read_eid_text, write nothing into it, and say
   * which room is enough. */
  TCPCLKIT_TOO_SMALL = 5,
  /* A number is out of its range, such as an offset past the end, or a text is no endpoint ID, or
   * what is lent overlaps, or the memory has no scan or no check. Nothing was written, but these
   * are all 0: `*taken`, a block of a scan, a check value and a struct tcpclkit_written, and also a
   * check of no kind, and the endpoint ID of a text that is none. */
  TCPCLKIT_RANGE = 6,
  /* A pointer is null that may not be. Nothing was written, except as above. */
  TCPCLKIT_NULL = 7,
  /* tcpclkit_pack or tcpclkit_pack_more wrote nothing. Tests show that it was refused memory. No
   * proof says so. */
  TCPCLKIT_MEMORY = 8,
  /* The scan has ended, with a good bundle or a fault, and took none of these bytes. */
  TCPCLKIT_SCAN_ENDED = 9
};

/* -- faults ------------------------------------------------------------------------------------ */

/*
 * The code of a fault, whose rule is in docs/FORMATS.md. `number` is of struct tcpclkit_fault.
 */
enum {
  TCPCLKIT_NO_FAULT = 0,
  /* of a recording */
  TCPCLKIT_WIRE_TRUNCATED = 1,
  TCPCLKIT_WIRE_BAD_MAGIC = 2,
  TCPCLKIT_WIRE_BAD_VERSION = 3,      /* number: the version, below 256 */
  TCPCLKIT_WIRE_UNKNOWN_TYPE = 4,     /* number: the type byte, below 256 */
  TCPCLKIT_WIRE_NODE_ID_TOO_LONG = 5, /* number: the length, below 65,536 */
  TCPCLKIT_WIRE_LIST_TOO_LONG = 6,    /* number: the length, below 4,294,967,296 */
  TCPCLKIT_WIRE_TOO_MANY_ITEMS = 7,
  TCPCLKIT_WIRE_ITEMS_OVERRUN = 8,
  /* of the order of messages */
  TCPCLKIT_ORDER_SECOND_SESS_INIT = 51,
  TCPCLKIT_ORDER_SEGMENT_BEFORE_SESS_INIT = 52,
  TCPCLKIT_ORDER_NO_SUCH_OPEN_TRANSFER = 53,
  TCPCLKIT_ORDER_START_REPEATS_OPEN_ID = 54,
  TCPCLKIT_ORDER_START_AFTER_SESS_TERM = 55,
  /* of a bundle: 100, and the number of the fault in docs/FORMATS.md */
  TCPCLKIT_BUNDLE_CUT = 101,
  TCPCLKIT_BUNDLE_TRAILING = 102,
  TCPCLKIT_BUNDLE_NOT_A_BUNDLE = 103,
  TCPCLKIT_BUNDLE_BAD_HEAD = 104,
  TCPCLKIT_BUNDLE_WRONG_KIND = 105,
  TCPCLKIT_BUNDLE_BAD_COUNT = 106,
  TCPCLKIT_BUNDLE_BAD_VERSION = 107,
  TCPCLKIT_BUNDLE_BAD_CHECK_TYPE = 108,
  TCPCLKIT_BUNDLE_BAD_SCHEME = 109,
  TCPCLKIT_BUNDLE_BAD_SPECIFIC_PART = 110,
  TCPCLKIT_BUNDLE_EID_TOO_LONG = 111,
  TCPCLKIT_BUNDLE_BAD_CHECK_LENGTH = 112,
  TCPCLKIT_BUNDLE_CHECK_DIFFERS = 113,
  TCPCLKIT_BUNDLE_BAD_BLOCK_NUMBER = 114,
  TCPCLKIT_BUNDLE_REPEATED_BLOCK_NUMBER = 115,
  TCPCLKIT_BUNDLE_TOO_MANY_BLOCKS = 116,
  TCPCLKIT_BUNDLE_NO_PAYLOAD_LAST = 117
};

/* Why bytes are refused: all 0 but after TCPCLKIT_TRUNCATED, TCPCLKIT_DATA_TRUNCATED and
 * TCPCLKIT_FAULT. */
struct tcpclkit_fault {
  uint64_t code;   /* one of those above */
  uint64_t number; /* the number that the code is about, or 0 */
  uint64_t offset; /* of a bundle: where the fault is; of a recording: where its message begins */
};

/* -- pointers and lengths ---------------------------------------------------------------------- */

/* A slice or a struct that is lent to a call. */
struct tcpclkit_lent {
  const void *start;
  size_t length;
};

/* Whether two of them have a byte in common. One that is null or too long counts as empty. */
static inline int tcpclkit_overlap(const struct tcpclkit_lent *one,
                                   const struct tcpclkit_lent *other) {
  uintptr_t a = (uintptr_t)one->start, b = (uintptr_t)other->start;
  if (a == 0 || one->length - 1 >= PTRDIFF_MAX) return 0;
  if (b == 0 || other->length - 1 >= PTRDIFF_MAX) return 0;
  return a < b ? b - a < one->length : a - b < other->length;
}

/* Whether one of them is apart from all others. */
static inline int tcpclkit_is_apart(const struct tcpclkit_lent *lent, size_t count, size_t one) {
  size_t other;
  for (other = 0; other < count; other++)
    if (other != one && tcpclkit_overlap(lent + one, lent + other)) return 0;
  return 1;
}

/* TCPCLKIT_OK if a call that writes the first ones of these may be lent them. */
static inline uint32_t tcpclkit_lent_status(const struct tcpclkit_lent *lent, size_t count,
                                            size_t written) {
  size_t at;
  for (at = 0; at < count; at++) {
    if (lent[at].length > PTRDIFF_MAX) return TCPCLKIT_RANGE;
    if (lent[at].start == NULL && lent[at].length > 0) return TCPCLKIT_NULL;
  }
  for (at = 0; at < written; at++)
    if (!tcpclkit_is_apart(lent, count, at)) return TCPCLKIT_RANGE;
  return TCPCLKIT_OK;
}

/* The pointer, or one that is not null for an empty slice. */
static inline uint8_t *tcpclkit_start(const uint8_t *start) {
  static uint8_t nothing;
  return start != NULL ? (uint8_t *)(uintptr_t)start : &nothing;
}

/* -- bundles ----------------------------------------------------------------------------------- */

/* The verdict on bytes as one bundle, and where its payload is. */
struct tcpclkit_verdict {
  struct tcpclkit_fault fault;
  uint64_t has_payload;    /* 1 once the head of the payload was accepted, also of a bad bundle */
  uint64_t payload_offset; /* where the payload's first byte is */
  uint64_t payload_seen;   /* how many of the payload's bytes are there */
};

/* The kinds of endpoint IDs (RFC 9171 section 4.2.5.1). 0 is no endpoint ID. */
enum {
  TCPCLKIT_EID_DTN_NONE = 1, /* dtn:none */
  TCPCLKIT_EID_DTN = 2,      /* dtn: and a name of `name_length` bytes */
  TCPCLKIT_EID_IPN = 3,      /* ipn: with `node` and `service` */
  TCPCLKIT_EID_IPN3 = 4      /* ipn: with `allocator`, `node` and `service` */
};

/* The greatest length of the name of a dtn endpoint ID: room for that much holds every name. */
#define TCPCLKIT_EID_LIMIT 1024u

struct tcpclkit_eid {
  uint64_t kind;
  uint64_t allocator;
  uint64_t node;
  uint64_t service;
  uint64_t name_length;
};

/*
 * The fields of a bundle. Those of the primary block are numbered in their order (RFC 9171 section
 * 4.3.1): 1 is the version, and 3 the type of the check value. Those up to the number
 * `primary_fields` were accepted. They come before the first fault, and each field after them is 0.
 * The check value has no number. It may be wrong where all fields were accepted.
 */
struct tcpclkit_bundle {
  struct tcpclkit_verdict verdict;
  uint64_t primary_fields;  /* 0 to 8, or of a fragment 0 to 10 */
  uint64_t primary_whole;   /* 1 if the whole primary block was accepted, its check value too */
  uint64_t flags;           /* field 2 */
  struct tcpclkit_eid destination; /* field 4 */
  struct tcpclkit_eid source;      /* field 5 */
  struct tcpclkit_eid report_to;   /* field 6: where status reports go */
  uint64_t time;            /* field 7: milliseconds since 2000-01-01 UTC */
  uint64_t sequence;        /* field 7 */
  uint64_t lifetime;        /* field 8: milliseconds after `time` */
  uint64_t is_fragment;     /* 1 or 0, by `flags` */
  uint64_t fragment_offset; /* field 9 of a fragment */
  uint64_t fragment_total;  /* field 10 of a fragment */
  uint64_t blocks;          /* of a good bundle: the number of canonical blocks */
  uint64_t payload_length;  /* of a good bundle */
};

/*
 * Judges the bytes as one bundle.
 *
 * TCPCLKIT_OK: they are a good bundle. TCPCLKIT_TRUNCATED: they end inside one. TCPCLKIT_FAULT:
 * they are none, and `fault` is the first fault, also where a byte follows the bundle. The
 * payload's fields have a meaning for each of the three.
 *
 * Proved of tcpclkit_raw_judge_bundle: the status and `fault` are those of `verdict` of the bytes,
 * and the payload's fields are `payload_seen` of them.
 */
uint32_t tcpclkit_raw_judge_bundle(const uint8_t *bytes, size_t length,
                                   struct tcpclkit_verdict *verdict);
static inline uint32_t tcpclkit_judge_bundle(const uint8_t *bytes, size_t length,
                                             struct tcpclkit_verdict *verdict) {
  const struct tcpclkit_lent lent[] = {{verdict, sizeof *verdict}, {bytes, length}};
  uint32_t status = tcpclkit_lent_status(lent, 2, 1);
  if (status != TCPCLKIT_OK) return status;
  return tcpclkit_raw_judge_bundle(tcpclkit_start(bytes), length, verdict);
}

/*
 * Judges the bytes as tcpclkit_judge_bundle does, and gives the fields of the bundle.
 *
 * The name of a dtn endpoint ID is copied into the slice that is lent for it. If it is longer, the
 * slice has its first bytes. Then the status of a good bundle is TCPCLKIT_TOO_SMALL, and
 * `name_length` is that of the whole name. The status of a bad one stays TCPCLKIT_TRUNCATED or
 * TCPCLKIT_FAULT, and `name_length` is the number of bytes in the slice. Rooms of
 * TCPCLKIT_EID_LIMIT bytes hold every name.
 *
 * Proved of tcpclkit_raw_describe_bundle: `verdict` is as above. After TCPCLKIT_OK the fields and
 * the names are the bundle that `verdict` gives. After TCPCLKIT_TOO_SMALL they are too, with each
 * name cut to its room. Otherwise they are `primary_fields` of the bytes, with each name and its
 * length cut. The fields `primary_fields` and `primary_whole` always are. The other bytes of the
 * slices stay.
 */
uint32_t tcpclkit_raw_describe_bundle(const uint8_t *bytes, size_t length,
                                      uint8_t *destination_name, size_t destination_room,
                                      uint8_t *source_name, size_t source_room,
                                      uint8_t *report_to_name, size_t report_to_room,
                                      struct tcpclkit_bundle *bundle);
static inline uint32_t tcpclkit_describe_bundle(const uint8_t *bytes, size_t length,
                                                uint8_t *destination_name, size_t destination_room,
                                                uint8_t *source_name, size_t source_room,
                                                uint8_t *report_to_name, size_t report_to_room,
                                                struct tcpclkit_bundle *bundle) {
  const struct tcpclkit_lent lent[] = {{bundle, sizeof *bundle},
                                       {destination_name, destination_room},
                                       {source_name, source_room},
                                       {report_to_name, report_to_room},
                                       {bytes, length}};
  uint32_t status = tcpclkit_lent_status(lent, 5, 4);
  if (status != TCPCLKIT_OK) return status;
  return tcpclkit_raw_describe_bundle(
      tcpclkit_start(bytes), length,
      tcpclkit_start(destination_name), destination_room,
      tcpclkit_start(source_name), source_room,
      tcpclkit_start(report_to_name), report_to_room, bundle);
}

/* -- a bundle in pieces ------------------------------------------------------------------------ */

/* How many numbers of 64 bits a scan has. */
#define TCPCLKIT_SCAN_WORDS 1024u

/*
 * A scan of one bundle that comes in pieces of any size:
 *
 *     struct tcpclkit_scan scan;
 *     struct tcpclkit_verdict verdict;
 *     uint64_t taken, came = 0;
 *     uint32_t status = TCPCLKIT_GOING_ON;
 *     tcpclkit_start_scan(&scan);
 *     while ((length = receive(piece)) > 0) {
 *       if (status == TCPCLKIT_GOING_ON)
 *         status = tcpclkit_feed_scan(&scan, piece, length, &taken);
 *       came += length;
 *     }
 *     status = tcpclkit_end_scan(&scan, came, &verdict);
 *
 * It keeps what the heads of the bundle say, and the first 3,257 bytes, which are as many as a
 * primary block can need. The memory is the caller's and needs no release. What is in it is the
 * library's, and begins with a mark. Without the mark the answer is TCPCLKIT_RANGE. A scan may be
 * copied at any time, by assignment or memcpy: the copy has seen the same bytes.
 *
 * The library cannot see whether the memory after the mark was damaged, or happens to have the
 * mark. Then a call may return anything, crash, never return, or write outside of what it was lent.
 */
struct tcpclkit_scan {
  uint64_t memory[TCPCLKIT_SCAN_WORDS];
};

/*
 * How many bytes the library uses of a scan, and what their address is a multiple of. Proved: at
 * most 8,192, which are TCPCLKIT_SCAN_WORDS numbers, and at most 8; and no less than a scan has.
 */
size_t tcpclkit_raw_scan_size(void);
size_t tcpclkit_raw_scan_alignment(void);

/*
 * Makes a scan that has seen no byte, whatever was in the memory. So a struct serves many bundles.
 *
 * TCPCLKIT_OK or TCPCLKIT_NULL.
 *
 * Proved of tcpclkit_raw_start_scan: the scan has its mark and has seen no byte (`HoldsScan`).
 */
uint32_t tcpclkit_raw_start_scan(uint64_t *memory);
static inline uint32_t tcpclkit_start_scan(struct tcpclkit_scan *scan) {
  if (scan == NULL) return TCPCLKIT_NULL;
  return tcpclkit_raw_start_scan(scan->memory);
}

/*
 * Takes the bytes of the next piece that belong to the bundle, and gives their number.
 *
 * TCPCLKIT_GOING_ON: the bundle goes on, and the whole piece was taken. TCPCLKIT_OK: the bytes that
 * were taken of this piece and of those before it are a good bundle. TCPCLKIT_FAULT: they are no
 * bundle, whatever follows, and the last of them shows the first fault. After these two the scan
 * has ended, and takes no byte. What was not taken does not belong to the bundle. It may be the
 * next one, for which the scan has to be started again: a further piece with bytes is refused with
 * TCPCLKIT_SCAN_ENDED, and an empty one returns the same as before. TCPCLKIT_RANGE: the memory has
 * no scan, or the bytes taken and this piece are 2^63 bytes or more. Whatever the status is,
 * `*taken` is written, unless it overlaps what else is lent.
 *
 * Proved of tcpclkit_raw_feed_scan: if the scan has seen some bytes, it then has seen these and,
 * after them, `fed` of them and of the piece, which are as many as `*taken` says. The status is
 * `fed_status`. So what is taken does not depend on how the bytes are cut.
 */
uint32_t tcpclkit_raw_feed_scan(uint64_t *memory, const uint8_t *piece, size_t length,
                                uint64_t *taken);
static inline uint32_t tcpclkit_feed_scan(struct tcpclkit_scan *scan, const uint8_t *piece,
                                          size_t length, uint64_t *taken) {
  const struct tcpclkit_lent lent[] = {
      {scan, sizeof *scan}, {taken, sizeof *taken}, {piece, length}};
  uint32_t status = tcpclkit_lent_status(lent, 3, 2);
  if (status == TCPCLKIT_OK)
    return tcpclkit_raw_feed_scan(scan->memory, tcpclkit_start(piece), length, taken);
  if (taken != NULL && tcpclkit_is_apart(lent, 3, 1)) *taken = 0;
  return status;
}

/* The kinds of blocks (RFC 9171 section 4.3). 0 is no block. */
enum {
  TCPCLKIT_BLOCK_PRIMARY = 1,
  TCPCLKIT_BLOCK_CANONICAL = 2
};

/* Types of canonical blocks (RFC 9171 sections 4.4 and 9.1), the last two for security (RFC 9172
 * section 11.1). */
enum {
  TCPCLKIT_BLOCK_TYPE_PAYLOAD = 1,
  TCPCLKIT_BLOCK_TYPE_PREVIOUS_NODE = 6,
  TCPCLKIT_BLOCK_TYPE_BUNDLE_AGE = 7,
  TCPCLKIT_BLOCK_TYPE_HOP_COUNT = 10,
  TCPCLKIT_BLOCK_TYPE_INTEGRITY = 11,
  TCPCLKIT_BLOCK_TYPE_CONFIDENTIALITY = 12
};

/* The types of check values (RFC 9171 section 4.2.1). */
enum {
  TCPCLKIT_CHECK_NONE = 0,
  TCPCLKIT_CHECK_CRC16 = 1, /* CRC-16/X-25, two bytes */
  TCPCLKIT_CHECK_CRC32 = 2  /* CRC-32C, four bytes */
};

/* A block of a bundle. Its offsets are those in the bundle: they count from the first byte that was
 * fed after tcpclkit_start_scan, and not from that of a piece. A primary block has 0 in the fields
 * of canonical blocks. */
struct tcpclkit_block {
  uint64_t kind;
  uint64_t offset;      /* where the block begins; the primary block begins at 1 */
  uint64_t length;      /* in bytes; 0 while the block is not whole */
  uint64_t block_type;  /* CANONICAL: the block type code; 1 is the payload block, the last one */
  uint64_t number;      /* CANONICAL: the block number */
  uint64_t flags;       /* CANONICAL: of the block; PRIMARY: of the bundle */
  uint64_t check;       /* one of the types of check values above */
  uint64_t data_offset; /* CANONICAL: where its data begins */
  uint64_t data_length; /* CANONICAL: in bytes, by its head */
  uint64_t data_seen;   /* CANONICAL: how many of these bytes are there; all, if it is whole */
};

static inline void tcpclkit_clear_block(struct tcpclkit_block *block) {
  static const struct tcpclkit_block none = {0, 0, 0, 0, 0, 0, 0, 0, 0, 0};
  if (block != NULL) *block = none;
}

/*
 * Takes the bytes of the next piece up to the end of a block, and gives this block. A block that is
 * given ends with the last byte that was taken. If no block ends in the piece, the call takes what
 * tcpclkit_feed_scan would take, and `kind` is 0; tcpclkit_judge_block then says which block goes
 * on. So the data of each block can be handed on as it comes, `at` being the next of `left` bytes:
 *
 *     uint64_t taken, start, end, before = 0;
 *     do {
 *       status = tcpclkit_next_block(&scan, at, left, &taken, &block);
 *       if (block.kind == 0)
 *         tcpclkit_judge_block(&scan, &block);
 *       start = block.data_offset > before ? block.data_offset : before;
 *       end = block.data_offset + block.data_seen;
 *       if (start < end)
 *         use(&block, at + (start - before), end - start);
 *       before += taken, at += taken, left -= taken;
 *       if (left == 0)
 *         left = receive(&at);
 *     } while (status == TCPCLKIT_GOING_ON && left > 0);
 *
 * The statuses are those of tcpclkit_feed_scan, of the bytes that were taken: after the last block
 * the bundle goes on, up to the break after it. Whatever the status is, `*taken` and `*block` are
 * written, unless they overlap what else is lent. The calls that feed a scan and those that give
 * what it has found may be mixed.
 *
 * Proved of tcpclkit_raw_next_block: if the scan has seen some bytes, it then has seen these and,
 * after them, `fed_block` of them and of the piece, which are as many as `*taken` says. The block
 * is `added_block`: the one that these bytes add to those of `blocks_in`. The status is
 * `fed_block_status`.
 */
uint32_t tcpclkit_raw_next_block(uint64_t *memory, const uint8_t *piece, size_t length,
                                 uint64_t *taken, struct tcpclkit_block *block);
static inline uint32_t tcpclkit_next_block(struct tcpclkit_scan *scan, const uint8_t *piece,
                                           size_t length, uint64_t *taken,
                                           struct tcpclkit_block *block) {
  const struct tcpclkit_lent lent[] = {{scan, sizeof *scan},
                                       {taken, sizeof *taken},
                                       {block, sizeof *block},
                                       {piece, length}};
  uint32_t status = tcpclkit_lent_status(lent, 4, 3);
  if (status == TCPCLKIT_OK)
    return tcpclkit_raw_next_block(scan->memory, tcpclkit_start(piece), length, taken, block);
  if (taken != NULL && tcpclkit_is_apart(lent, 4, 1)) *taken = 0;
  if (tcpclkit_is_apart(lent, 4, 2)) tcpclkit_clear_block(block);
  return status;
}

/*
 * Gives the canonical block whose data or check value goes on after the bytes taken. Its head is
 * there, so a block whose data is too long can be refused before the data comes.
 *
 * TCPCLKIT_OK: the bytes end in this block, whose `length` is 0. TCPCLKIT_END: they end elsewhere,
 * or the scan has ended, also by a fault in a check value. TCPCLKIT_RANGE: the memory has no scan.
 * After each status but TCPCLKIT_OK `kind` is 0, unless `block` overlaps the scan.
 *
 * Proved of tcpclkit_raw_judge_block: the block is `cut_block_in` of the bytes that the scan has
 * seen, and the scan has seen the same bytes afterwards.
 */
uint32_t tcpclkit_raw_judge_block(const uint64_t *memory, struct tcpclkit_block *block);
static inline uint32_t tcpclkit_judge_block(const struct tcpclkit_scan *scan,
                                            struct tcpclkit_block *block) {
  const struct tcpclkit_lent lent[] = {{block, sizeof *block}, {scan, sizeof *scan}};
  uint32_t status = tcpclkit_lent_status(lent, 2, 1);
  if (status == TCPCLKIT_OK) return tcpclkit_raw_judge_block(scan->memory, block);
  if (tcpclkit_is_apart(lent, 2, 0)) tcpclkit_clear_block(block);
  return status;
}

/*
 * Gives the verdict on the bytes that were taken. Offsets are counted from the bundle's first byte.
 *
 * The statuses are those of tcpclkit_judge_bundle; TCPCLKIT_RANGE if the memory has no scan. A byte
 * that follows the bundle is no fault, since it is not taken: tcpclkit_end_scan counts it.
 *
 * Proved of tcpclkit_raw_judge_scan: the answer is that of tcpclkit_judge_bundle of the bytes that
 * the scan has seen, and the scan has seen the same bytes afterwards.
 */
uint32_t tcpclkit_raw_judge_scan(const uint64_t *memory, struct tcpclkit_verdict *verdict);
static inline uint32_t tcpclkit_judge_scan(const struct tcpclkit_scan *scan,
                                           struct tcpclkit_verdict *verdict) {
  const struct tcpclkit_lent lent[] = {{verdict, sizeof *verdict}, {scan, sizeof *scan}};
  uint32_t status = tcpclkit_lent_status(lent, 2, 1);
  if (status != TCPCLKIT_OK) return status;
  return tcpclkit_raw_judge_scan(scan->memory, verdict);
}

/*
 * Gives the verdict on `length` bytes as one bundle: those that were taken and those that came
 * after them. `length` is the number of both. After the last byte of a transfer, this is the
 * verdict on the whole transfer. The call may also be made after each segment, since the scan stays
 * as it was: then TCPCLKIT_TRUNCATED says that the bundle goes on.
 *
 * The statuses are those of tcpclkit_judge_bundle of all these bytes. If the bundle still needed
 * bytes, `fault` is TCPCLKIT_BUNDLE_CUT at `length`. If more came than the bundle has, it is
 * TCPCLKIT_BUNDLE_TRAILING at the bundle's length. TCPCLKIT_RANGE: the memory has no scan, or more
 * than `length` bytes were taken, or fewer, while the bundle needed more: those that are missing
 * were not fed.
 *
 * Proved of tcpclkit_raw_end_scan: if a verdict is returned, it is that of tcpclkit_judge_bundle of
 * the bytes that the scan has seen and any bytes after them, `length` in all (`EndsScan`). The scan
 * has seen the same bytes afterwards.
 */
uint32_t tcpclkit_raw_end_scan(const uint64_t *memory, uint64_t length,
                               struct tcpclkit_verdict *verdict);
static inline uint32_t tcpclkit_end_scan(const struct tcpclkit_scan *scan, uint64_t length,
                                         struct tcpclkit_verdict *verdict) {
  const struct tcpclkit_lent lent[] = {{verdict, sizeof *verdict}, {scan, sizeof *scan}};
  uint32_t status = tcpclkit_lent_status(lent, 2, 1);
  if (status != TCPCLKIT_OK) return status;
  return tcpclkit_raw_end_scan(scan->memory, length, verdict);
}

/*
 * Gives the verdict on the bytes that were taken, and the fields of the bundle.
 *
 * The statuses are those of tcpclkit_describe_bundle; TCPCLKIT_RANGE if the memory has no scan.
 *
 * Proved of tcpclkit_raw_describe_scan: the answer is that of tcpclkit_describe_bundle of the bytes
 * that the scan has seen, and the scan has seen the same bytes afterwards.
 */
uint32_t tcpclkit_raw_describe_scan(const uint64_t *memory,
                                    uint8_t *destination_name, size_t destination_room,
                                    uint8_t *source_name, size_t source_room,
                                    uint8_t *report_to_name, size_t report_to_room,
                                    struct tcpclkit_bundle *bundle);
static inline uint32_t tcpclkit_describe_scan(const struct tcpclkit_scan *scan,
                                              uint8_t *destination_name, size_t destination_room,
                                              uint8_t *source_name, size_t source_room,
                                              uint8_t *report_to_name, size_t report_to_room,
                                              struct tcpclkit_bundle *bundle) {
  const struct tcpclkit_lent lent[] = {{bundle, sizeof *bundle},
                                       {destination_name, destination_room},
                                       {source_name, source_room},
                                       {report_to_name, report_to_room},
                                       {scan, sizeof *scan}};
  uint32_t status = tcpclkit_lent_status(lent, 5, 4);
  if (status != TCPCLKIT_OK) return status;
  return tcpclkit_raw_describe_scan(
      scan->memory, tcpclkit_start(destination_name), destination_room,
      tcpclkit_start(source_name), source_room,
      tcpclkit_start(report_to_name), report_to_room, bundle);
}

/* -- recordings -------------------------------------------------------------------------------- */

/* The length of a contact header: the first message begins there. */
#define TCPCLKIT_CONTACT_LENGTH 6u

/*
 * The greatest length of a message without its data. A buffer of that size holds every head, and is
 * enough to receive a session, since the data of a segment is handed on as it comes. The bytes
 * after the contact header, with an end of input that is no part of them, are read as follows. The
 * loop drops each head at its end. Node IDs and items are in the head, so a caller who needs them
 * reads them directly after tcpclkit_judge_message:
 *
 *     struct tcpclkit_order order;
 *     struct tcpclkit_message message;
 *     struct tcpclkit_turn turn;
 *     size_t used, got, length = 0;
 *     uint64_t left = 0;
 *     tcpclkit_start_order(&order);
 *     do {
 *       if (left > 0) {
 *         used = left < length ? left : length;
 *         use(&message, buffer, used);
 *         left -= used;
 *       } else {
 *         status = tcpclkit_read_message(buffer, length, 0, &message);
 *         used = message.data_offset, left = message.data_length;
 *         if (status == TCPCLKIT_FAULT)
 *           return refuse(&message.fault);
 *         if (status == TCPCLKIT_END || status == TCPCLKIT_TRUNCATED)
 *           used = left = 0;
 *         else if (tcpclkit_judge_message(&order, &message, &turn) != TCPCLKIT_OK)
 *           return disorder(turn.fault);
 *       }
 *       memmove(buffer, buffer + used, length -= used);
 *       got = used > 0 ? 0 : receive(buffer + length, sizeof buffer - length);
 *       length += got;
 *     } while (used > 0 || got > 0);
 *     return length > 0 || left > 0 ? truncated() : 0;
 */
#define TCPCLKIT_HEAD_LIMIT 66585u

/* A contact header of version 4 (RFC 9174 section 4.2). */
struct tcpclkit_contact {
  struct tcpclkit_fault fault;
  uint64_t flags;
};

/* The flag of a contact header that offers TLS (RFC 9174 section 4.2). */
#define TCPCLKIT_CONTACT_CAN_TLS 1u

/* The kinds of messages, which are their type bytes (RFC 9174 section 4.5). */
enum {
  TCPCLKIT_XFER_SEGMENT = 1,
  TCPCLKIT_XFER_ACK = 2,
  TCPCLKIT_XFER_REFUSE = 3,
  TCPCLKIT_KEEPALIVE = 4,
  TCPCLKIT_SESS_TERM = 5,
  TCPCLKIT_MSG_REJECT = 6,
  TCPCLKIT_SESS_INIT = 7
};

/* Flags of a segment (RFC 9174 section 5.2.2). */
#define TCPCLKIT_SEGMENT_END 1u
#define TCPCLKIT_SEGMENT_START 2u

/* The flag of a SESS_TERM that answers another one (RFC 9174 section 6.1). */
#define TCPCLKIT_SESS_TERM_REPLY 1u

/* The flag of an extension item that the receiver has to know (RFC 9174 sections 4.8, 5.2.5), and
 * the type of a Transfer Length item (section 5.2.5.1), which only an XFER_SEGMENT has. */
#define TCPCLKIT_ITEM_CRITICAL 1u
#define TCPCLKIT_ITEM_TYPE_TRANSFER_LENGTH 1u

/* The reasons of an XFER_REFUSE (RFC 9174 section 5.2.4). */
enum {
  TCPCLKIT_REFUSE_UNKNOWN = 0,
  TCPCLKIT_REFUSE_COMPLETED = 1,
  TCPCLKIT_REFUSE_NO_RESOURCES = 2,
  TCPCLKIT_REFUSE_RETRANSMIT = 3,
  TCPCLKIT_REFUSE_NOT_ACCEPTABLE = 4,
  TCPCLKIT_REFUSE_EXTENSION_FAILURE = 5,
  TCPCLKIT_REFUSE_SESSION_TERMINATING = 6
};

/* The reasons of a SESS_TERM (RFC 9174 section 6.1). */
enum {
  TCPCLKIT_TERM_UNKNOWN = 0,
  TCPCLKIT_TERM_IDLE_TIMEOUT = 1,
  TCPCLKIT_TERM_VERSION_MISMATCH = 2,
  TCPCLKIT_TERM_BUSY = 3,
  TCPCLKIT_TERM_CONTACT_FAILURE = 4,
  TCPCLKIT_TERM_RESOURCE_EXHAUSTION = 5
};

/* The reasons of a MSG_REJECT (RFC 9174 section 5.1.2). */
enum {
  TCPCLKIT_REJECT_TYPE_UNKNOWN = 1,
  TCPCLKIT_REJECT_UNSUPPORTED = 2,
  TCPCLKIT_REJECT_UNEXPECTED = 3
};

/* A message. Each field names the kinds that have it; for the others it is 0. */
struct tcpclkit_message {
  struct tcpclkit_fault fault;
  uint64_t kind;
  uint64_t flags;         /* XFER_SEGMENT, XFER_ACK, SESS_TERM */
  uint64_t reason;        /* XFER_REFUSE, SESS_TERM, MSG_REJECT */
  uint64_t header;        /* MSG_REJECT: the type byte of the rejected message */
  uint64_t id;            /* XFER_SEGMENT, XFER_ACK, XFER_REFUSE: the transfer */
  uint64_t acknowledged;  /* XFER_ACK: the number of bytes */
  uint64_t keepalive;     /* SESS_INIT: seconds */
  uint64_t segment_mru;   /* SESS_INIT */
  uint64_t transfer_mru;  /* SESS_INIT */
  uint64_t node_offset;   /* SESS_INIT: where the node ID is */
  uint64_t node_length;   /* SESS_INIT */
  uint64_t items_offset;  /* SESS_INIT, XFER_SEGMENT: where the extension items are */
  uint64_t items_length;  /* SESS_INIT, XFER_SEGMENT: in bytes; 0 without START */
  uint64_t data_offset;   /* all: where the head ends, and the data of a segment begins */
  uint64_t data_length;   /* XFER_SEGMENT: by the head */
  uint64_t data_seen;     /* XFER_SEGMENT: how many bytes of the data are there */
  uint64_t next;          /* all: where the message and its data end, also if that is past the
                           * bytes; it stops at UINT64_MAX */
};

/* An extension item (RFC 9174 sections 4.8 and 5.2.5). */
struct tcpclkit_item {
  struct tcpclkit_fault fault;
  uint64_t flags;
  uint64_t item_type;
  uint64_t value_offset;
  uint64_t value_length;
  uint64_t has_total; /* of an XFER_SEGMENT: 1 if it is of type 1 with a value of 8 bytes */
  uint64_t total;     /* that value: the length of the transfer (RFC 9174 section 5.2.5.1) */
  uint64_t next;      /* where the item ends */
};

/*
 * Reads the contact header that a recording begins with.
 *
 * TCPCLKIT_OK. TCPCLKIT_TRUNCATED: there are fewer than TCPCLKIT_CONTACT_LENGTH bytes, or none. So
 * a first byte that is wrong is a fault only once all bytes of the header are there.
 * TCPCLKIT_FAULT: the first four bytes are not `dtn!`, or the version is not 4.
 *
 * Proved of tcpclkit_raw_read_contact: the answer is `contact_at` of the bytes.
 */
uint32_t tcpclkit_raw_read_contact(const uint8_t *bytes, size_t length,
                                   struct tcpclkit_contact *contact);
static inline uint32_t tcpclkit_read_contact(const uint8_t *bytes, size_t length,
                                             struct tcpclkit_contact *contact) {
  const struct tcpclkit_lent lent[] = {{contact, sizeof *contact}, {bytes, length}};
  uint32_t status = tcpclkit_lent_status(lent, 2, 1);
  if (status != TCPCLKIT_OK) return status;
  return tcpclkit_raw_read_contact(tcpclkit_start(bytes), length, contact);
}

/*
 * Reads the message that begins at an offset.
 *
 * TCPCLKIT_OK: the message and its data are there, and the next one begins at `next`.
 * TCPCLKIT_DATA_TRUNCATED: as TCPCLKIT_OK, but the bytes end inside the data, of which `data_seen`
 * bytes are there, and `fault` is that of a recording that ends there. If more bytes come, the
 * other `data_length - data_seen` of them are data, and the next message follows these. `next` is
 * past the end, so a call with it returns TCPCLKIT_RANGE. TCPCLKIT_END: no byte is at the offset,
 * which is the length. TCPCLKIT_TRUNCATED: the bytes end inside the head. TCPCLKIT_FAULT.
 * TCPCLKIT_RANGE: the offset is past the end.
 *
 * The messages of a recording begin at TCPCLKIT_CONTACT_LENGTH. The bytes may also be a part of a
 * recording that begins with a message: then offsets are counted from there.
 *
 * Proved of tcpclkit_raw_read_message: the answer is `message_at` of the bytes from the offset on.
 * The node ID is the bytes at its place, the items are those of the list at its place, and the data
 * is `bytes` from `data_offset` on.
 */
uint32_t tcpclkit_raw_read_message(const uint8_t *bytes, size_t length, uint64_t offset,
                                   struct tcpclkit_message *message);
static inline uint32_t tcpclkit_read_message(const uint8_t *bytes, size_t length, uint64_t offset,
                                             struct tcpclkit_message *message) {
  const struct tcpclkit_lent lent[] = {{message, sizeof *message}, {bytes, length}};
  uint32_t status = tcpclkit_lent_status(lent, 2, 1);
  if (status != TCPCLKIT_OK) return status;
  return tcpclkit_raw_read_message(tcpclkit_start(bytes), length, offset, message);
}

/*
 * Reads the extension item at an offset of a message's list, among the bytes of the message:
 *
 *     for (offset = message.items_offset;
 *          tcpclkit_read_item(bytes, length, &message, offset, &item) == TCPCLKIT_OK;
 *          offset = item.next)
 *       use(&item);
 *
 * At the end of the list, the status is TCPCLKIT_END. So it is for a segment without START at
 * `items_offset`: its list is empty. TCPCLKIT_RANGE: the message has no list, being neither a
 * SESS_INIT nor an XFER_SEGMENT, or its list is not within the bytes or has more than 65,536, or
 * the offset is not in the list. TCPCLKIT_FAULT: the item does not end within the list, which no
 * item of a message does that was read from these bytes.
 *
 * Proved of tcpclkit_raw_read_item: the answer is `item_head_at` and `total_at` at the offset.
 */
uint32_t tcpclkit_raw_read_item(const uint8_t *bytes, size_t length,
                                const struct tcpclkit_message *message, uint64_t offset,
                                struct tcpclkit_item *item);
static inline uint32_t tcpclkit_read_item(const uint8_t *bytes, size_t length,
                                          const struct tcpclkit_message *message,
                                          uint64_t offset, struct tcpclkit_item *item) {
  const struct tcpclkit_lent lent[] = {
      {item, sizeof *item}, {bytes, length}, {message, sizeof *message}};
  uint32_t status = tcpclkit_lent_status(lent, 3, 1);
  if (status != TCPCLKIT_OK) return status;
  return tcpclkit_raw_read_item(tcpclkit_start(bytes), length, message, offset, item);
}

/* What the items of a segment with START announce (RFC 9174 section 5.2.5.1). */
enum {
  TCPCLKIT_ANNOUNCED_NONE = 0,  /* no length */
  TCPCLKIT_ANNOUNCED_TOTAL = 1, /* the length `total` */
  TCPCLKIT_ANNOUNCED_BADLY = 2  /* more than one length, or an item of type 1 without 8 bytes */
};

struct tcpclkit_announced {
  uint64_t kind;
  uint64_t total; /* ANNOUNCED_TOTAL: the length of the whole transfer */
};

/*
 * Reads the length of the transfer that a segment announces, among the bytes of the message.
 *
 * TCPCLKIT_OK, also for a segment without START, which announces none. TCPCLKIT_RANGE: the message
 * is no XFER_SEGMENT, or its list is not within the bytes, has more than 65,536, or is no list of
 * items; no message that was read from these bytes has such a list.
 *
 * Proved of tcpclkit_raw_read_announced: the answer is `announced_of` of the items that `items_of`
 * reads at the place of the list.
 */
uint32_t tcpclkit_raw_read_announced(const uint8_t *bytes, size_t length,
                                     const struct tcpclkit_message *message,
                                     struct tcpclkit_announced *announced);
static inline uint32_t tcpclkit_read_announced(const uint8_t *bytes, size_t length,
                                               const struct tcpclkit_message *message,
                                               struct tcpclkit_announced *announced) {
  const struct tcpclkit_lent lent[] = {
      {announced, sizeof *announced}, {bytes, length}, {message, sizeof *message}};
  uint32_t status = tcpclkit_lent_status(lent, 3, 1);
  if (status != TCPCLKIT_OK) return status;
  return tcpclkit_raw_read_announced(tcpclkit_start(bytes), length, message, announced);
}

/* -- the order of messages --------------------------------------------------------------------- */

/*
 * The state of one direction of a session: which messages of one side have come so far. The calls
 * below judge the next message of this side by it. It belongs to the caller, who starts it before
 * the first message of a session, and then only hands it on. It knows nothing of the messages of
 * the other side, such as its SESS_TERM: they have an order of their own.
 */
struct tcpclkit_order {
  uint64_t initiated;  /* 1 after a SESS_INIT of this side */
  uint64_t terminated; /* 1 after a SESS_TERM of this side */
  uint64_t is_open;    /* 1 while a transfer is open */
  uint64_t transfer;   /* the open transfer */
};

/* What a message does to the transfers of its session. */
enum {
  TCPCLKIT_TURN_OTHER = 0,    /* nothing: it is no segment, or it was refused */
  TCPCLKIT_TURN_BEGIN = 1,    /* it is the first segment of a transfer */
  TCPCLKIT_TURN_CONTINUE = 2, /* it is a further segment of the open transfer */
  TCPCLKIT_TURN_STRAY = 3     /* nothing: it is a further segment of no open transfer */
};

struct tcpclkit_turn {
  uint64_t fault;     /* the code of the fault, or TCPCLKIT_NO_FAULT */
  uint64_t turn;
  uint64_t last;      /* TURN_BEGIN, TURN_CONTINUE: 1 if it is the last segment of its transfer */
  uint64_t abandons;  /* TURN_BEGIN: 1 if a transfer was open until then, and stays without END */
  uint64_t abandoned; /* that transfer */
};

/*
 * Makes the order of a session before its first message, whatever was in the memory.
 *
 * TCPCLKIT_OK or TCPCLKIT_NULL.
 *
 * Proved of tcpclkit_raw_start_order: `order` is that of no messages.
 */
uint32_t tcpclkit_raw_start_order(struct tcpclkit_order *order);
static inline uint32_t tcpclkit_start_order(struct tcpclkit_order *order) {
  if (order == NULL) return TCPCLKIT_NULL;
  return tcpclkit_raw_start_order(order);
}

/*
 * Judges whether a message may come now, and if so counts it among those that came.
 *
 * It refuses, with the codes of the order in their sequence: a second SESS_INIT; a segment before a
 * SESS_INIT; a segment without START whose transfer is not open; a START with the ID of the open
 * transfer; and a START after a SESS_TERM. Nothing else is judged: an XFER_ACK, a KEEPALIVE or a
 * SESS_TERM passes also before a SESS_INIT.
 *
 * The message is one that tcpclkit_read_message gave with TCPCLKIT_OK or TCPCLKIT_DATA_TRUNCATED.
 * Only `kind`, `flags` and `id` are read. The fields of the message stay, whatever the status is.
 * TCPCLKIT_OK: it may come. TCPCLKIT_FAULT: it may not, and `order` stays as it was. So after
 * TCPCLKIT_ORDER_START_AFTER_SESS_TERM, each further segment of that transfer has the fault
 * TCPCLKIT_ORDER_NO_SUCH_OPEN_TRANSFER. This suits a caller who stops at the first fault. One who
 * goes on calls tcpclkit_take_message. TCPCLKIT_RANGE: `kind` is none of a message, as after a
 * fault of tcpclkit_read_message, `flags` are above 255, or `order` has a field above 1 that is 0
 * or 1.
 *
 * Proved of tcpclkit_raw_judge_message: if `order` is that of some messages, the answer is
 * `judged_message` of this message after them; and if it was accepted, `order` is then that of
 * these messages and this one.
 */
uint32_t tcpclkit_raw_judge_message(struct tcpclkit_order *order,
                                    const struct tcpclkit_message *message,
                                    struct tcpclkit_turn *turn);
static inline uint32_t tcpclkit_judge_message(struct tcpclkit_order *order,
                                              const struct tcpclkit_message *message,
                                              struct tcpclkit_turn *turn) {
  const struct tcpclkit_lent lent[] = {
      {order, sizeof *order}, {turn, sizeof *turn}, {message, sizeof *message}};
  uint32_t status = tcpclkit_lent_status(lent, 3, 2);
  if (status != TCPCLKIT_OK) return status;
  return tcpclkit_raw_judge_message(order, message, turn);
}

/*
 * Takes a message whether or not it may come now, as `tcpclkit unpack --keep-going` does.
 *
 * TCPCLKIT_OK: it may come, and the answer is that of tcpclkit_judge_message. TCPCLKIT_FAULT: it
 * may not. Then `fault` is the reason, and the other fields are what it does all the same: a
 * segment with START begins its transfer, and a further segment of no open transfer is
 * TCPCLKIT_TURN_STRAY, whose data belongs nowhere. TCPCLKIT_RANGE: as for tcpclkit_judge_message.
 *
 * This call suits a receiver that refuses a START with an XFER_REFUSE and goes on. The further
 * segments of the transfer are then TCPCLKIT_TURN_CONTINUE, without a fault, and have to be refused
 * too (RFC 9174 section 5.2.4). The receiver itself keeps which transfer it refuses.
 *
 * Proved of tcpclkit_raw_take_message: if `order` is that of some messages, `fault` is `refusal` of
 * this message after them, and the other fields are its `effect_of`. `order` is then that of
 * `with_taken`: these messages and this one, if it is not stray.
 */
uint32_t tcpclkit_raw_take_message(struct tcpclkit_order *order,
                                   const struct tcpclkit_message *message,
                                   struct tcpclkit_turn *turn);
static inline uint32_t tcpclkit_take_message(struct tcpclkit_order *order,
                                             const struct tcpclkit_message *message,
                                             struct tcpclkit_turn *turn) {
  const struct tcpclkit_lent lent[] = {
      {order, sizeof *order}, {turn, sizeof *turn}, {message, sizeof *message}};
  uint32_t status = tcpclkit_lent_status(lent, 3, 2);
  if (status != TCPCLKIT_OK) return status;
  return tcpclkit_raw_take_message(order, message, turn);
}

/* -- the answers to a transfer ----------------------------------------------------------------- */

/* Why a message does not answer what was sent of a transfer (RFC 9174 sections 5.2.3, 5.2.4).
 * tcpclkit_write_fault_text has words for each of these codes, with the number 0. */
enum {
  TCPCLKIT_ANSWER_OTHER_TRANSFER = 71,  /* it has the ID of another transfer */
  TCPCLKIT_ANSWER_LENGTH_FALLS = 72,    /* it acknowledges less than an XFER_ACK before it */
  TCPCLKIT_ANSWER_LENGTH_NOT_SENT = 73, /* it acknowledges more than was sent */
  TCPCLKIT_ANSWER_END_TOO_EARLY = 74    /* it has END, and does not acknowledge the whole */
};

/*
 * What was sent of one transfer, and how much of it was acknowledged. It belongs to the caller, who
 * sets `id`, and 0 in the other fields, before the first segment. With each segment that is sent,
 * the caller adds the length of its data to `length`. With the last one, which has END, the caller
 * sets `whole` to 1.
 */
struct tcpclkit_sent {
  uint64_t id;           /* the transfer */
  uint64_t length;       /* how many bytes of data were sent in its segments */
  uint64_t whole;        /* 1 once its last segment was sent, and else 0 */
  uint64_t acknowledged; /* the length in the last XFER_ACK that was accepted, or 0 */
  uint64_t fault;        /* of the last answer: one of the codes above, or TCPCLKIT_NO_FAULT */
};

/*
 * Judges an XFER_ACK or an XFER_REFUSE, by which the peer answers a transfer of the caller.
 *
 * The message is one that tcpclkit_read_message gave. TCPCLKIT_OK: it has the ID of the transfer.
 * An XFER_ACK acknowledges no less than the one before it, and no more than was sent; with END it
 * acknowledges the whole transfer. `acknowledged` is then its length. TCPCLKIT_FAULT: one of these
 * does not hold, which `fault` says; the other fields stay. TCPCLKIT_RANGE: the message is no
 * answer, tcpclkit_write_message would refuse its numbers, or `whole` is above 1. Then `sent` stays
 * as it was.
 *
 * The message is judged by the fields of `sent` alone. It is not judged whether an XFER_REFUSE or
 * the XFER_ACK of the whole came before it, nor whether an XFER_ACK has the START flag of its
 * segment. A caller who rejects an answer after these keeps which transfers have had one.
 *
 * Proved of tcpclkit_raw_judge_answer: the status and `fault` are `judged_answer` of what was sent
 * and of the message, and `acknowledged` is that of `after_answer`. So after some answers that were
 * accepted (`HasLengthOfLastAck`), `acknowledged` is the length in the last XFER_ACK among
 * them, or 0.
 */
uint32_t tcpclkit_raw_judge_answer(struct tcpclkit_sent *sent,
                                   const struct tcpclkit_message *message);
static inline uint32_t tcpclkit_judge_answer(struct tcpclkit_sent *sent,
                                             const struct tcpclkit_message *message) {
  const struct tcpclkit_lent lent[] = {{sent, sizeof *sent}, {message, sizeof *message}};
  uint32_t status = tcpclkit_lent_status(lent, 2, 1);
  if (status != TCPCLKIT_OK) return status;
  return tcpclkit_raw_judge_answer(sent, message);
}

/* -- writing messages -------------------------------------------------------------------------- */

/*
 * What a call wrote into a slice. It writes the whole or nothing, so a caller who sends the first
 * `count` bytes of the slice never sends a part of a message. Whatever the status of a writer is,
 * this struct is written, unless it overlaps what else is lent. After each status but TCPCLKIT_OK
 * and TCPCLKIT_TOO_SMALL both fields are 0. With an empty slice, a call says how many bytes it has
 * to write.
 */
struct tcpclkit_written {
  uint64_t count;  /* how many bytes were written: 0 unless the status is TCPCLKIT_OK */
  uint64_t needed; /* how many bytes the whole has: after TCPCLKIT_TOO_SMALL a room for them */
};

static inline void tcpclkit_clear_written(struct tcpclkit_written *written) {
  static const struct tcpclkit_written none = {0, 0};
  if (written != NULL) *written = none;
}

/* The status of a writer before it writes: it is lent a slice, `written`, and what it reads. */
static inline uint32_t tcpclkit_writer_status(const struct tcpclkit_lent *lent, size_t count,
                                              struct tcpclkit_written *written) {
  uint32_t status = tcpclkit_lent_status(lent, count, 2);
  if (status != TCPCLKIT_OK && tcpclkit_is_apart(lent, count, 1)) tcpclkit_clear_written(written);
  return status;
}

/* The room that a message needs, in bytes. A SESS_INIT also needs that of its node ID and of its
 * items, and a segment with START that of its items. TCPCLKIT_HEAD_LIMIT is enough for each. */
#define TCPCLKIT_SESS_INIT_LENGTH 25u
#define TCPCLKIT_SEGMENT_LENGTH 18u /* without START */
#define TCPCLKIT_START_LENGTH 22u   /* with START */
#define TCPCLKIT_ACK_LENGTH 18u
#define TCPCLKIT_REFUSE_LENGTH 10u
#define TCPCLKIT_KEEPALIVE_LENGTH 1u
#define TCPCLKIT_SESS_TERM_LENGTH 3u
#define TCPCLKIT_MSG_REJECT_LENGTH 3u

/* The room that an item needs besides its value, and that of one that announces a length. */
#define TCPCLKIT_ITEM_LENGTH 5u
#define TCPCLKIT_TOTAL_LENGTH 13u

/*
 * Writes a contact header of version 4 (RFC 9174 section 4.2).
 *
 * TCPCLKIT_OK: `bytes` begins with its TCPCLKIT_CONTACT_LENGTH bytes. TCPCLKIT_TOO_SMALL: nothing
 * was written to `bytes`. TCPCLKIT_RANGE: the flags are above 255.
 *
 * Proved of tcpclkit_raw_write_contact: the bytes are `contact_bytes`, and those after them stay.
 * `StreamReadsBack`, below: they are read as these flags.
 */
uint32_t tcpclkit_raw_write_contact(uint64_t flags, uint8_t *bytes, size_t room,
                                    struct tcpclkit_written *written);
static inline uint32_t tcpclkit_write_contact(uint64_t flags, uint8_t *bytes, size_t room,
                                              struct tcpclkit_written *written) {
  const struct tcpclkit_lent lent[] = {{bytes, room}, {written, sizeof *written}};
  uint32_t status = tcpclkit_writer_status(lent, 2, written);
  if (status != TCPCLKIT_OK) return status;
  return tcpclkit_raw_write_contact(flags, tcpclkit_start(bytes), room, written);
}

/*
 * Writes an extension item (RFC 9174 sections 4.8 and 5.2.5). Items one after another are the items
 * of a message. tcpclkit_write_total writes a Transfer Length item.
 *
 * The statuses are those of tcpclkit_write_contact; TCPCLKIT_RANGE if the flags are above 255, the
 * type is above 65,535, or the value has more than 65,531 bytes, for which no list has room.
 *
 * Proved of tcpclkit_raw_write_item: the bytes are `item_bytes`, and those after them stay.
 * `ItemsReadBack`: a list of at most 64 items and at most 65,536 bytes is read as these items.
 */
uint32_t tcpclkit_raw_write_item(uint64_t flags, uint64_t item_type, const uint8_t *value,
                                 size_t value_length, uint8_t *bytes, size_t room,
                                 struct tcpclkit_written *written);
static inline uint32_t tcpclkit_write_item(uint64_t flags, uint64_t item_type,
                                           const uint8_t *value, size_t value_length,
                                           uint8_t *bytes, size_t room,
                                           struct tcpclkit_written *written) {
  const struct tcpclkit_lent lent[] = {
      {bytes, room}, {written, sizeof *written}, {value, value_length}};
  uint32_t status = tcpclkit_writer_status(lent, 3, written);
  if (status != TCPCLKIT_OK) return status;
  return tcpclkit_raw_write_item(flags, item_type, tcpclkit_start(value), value_length,
                                 tcpclkit_start(bytes), room, written);
}

/*
 * Writes a Transfer Length item (RFC 9174 section 5.2.5.1), which announces the length of a
 * transfer: its type is TCPCLKIT_ITEM_TYPE_TRANSFER_LENGTH, and its value is `total` in 8 bytes,
 * the most significant first. It needs TCPCLKIT_TOTAL_LENGTH bytes, and belongs to the first
 * segment of a transfer of several segments.
 *
 * It calls tcpclkit_write_item, and its statuses are those of that call. No total is out of range.
 */
static inline uint32_t tcpclkit_write_total(uint64_t flags, uint64_t total, uint8_t *bytes,
                                            size_t room, struct tcpclkit_written *written) {
  uint8_t value[8];
  int at;
  for (at = 0; at < 8; at++) value[at] = (uint8_t)(total >> (56 - 8 * at));
  return tcpclkit_write_item(flags, TCPCLKIT_ITEM_TYPE_TRANSFER_LENGTH, value, sizeof value, bytes,
                             room, written);
}

/*
 * Writes a message: the inverse of tcpclkit_read_message.
 *
 *     struct tcpclkit_message ack;
 *     memset(&ack, 0, sizeof ack);
 *     ack.kind = TCPCLKIT_XFER_ACK;
 *     ack.flags = segment.flags;
 *     ack.id = segment.id;
 *     ack.acknowledged = received;
 *     if (tcpclkit_write_message(&ack, NULL, 0, NULL, 0, bytes, sizeof bytes, &written) ==
 *         TCPCLKIT_OK)
 *       send(bytes, written.count);
 *
 * Of a segment it writes the head: its `data_length` bytes of data follow as the caller sends them.
 * `node` is the node ID of a SESS_INIT. `items` are the items of a SESS_INIT, or of a segment with
 * START, as tcpclkit_write_item writes them. For a message without them, both are empty slices. Of
 * the fields from `node_offset` on, only `data_length` is read, and `fault` is not read. So a
 * message that tcpclkit_read_message gave may be written as it is, with the slices of its parts.
 *
 * The statuses are those of tcpclkit_write_contact. TCPCLKIT_RANGE: `kind` is none of a message, a
 * number does not fit in its field, a number is not 0 or a slice not empty that the message lacks,
 * or the readers would refuse the message. They refuse a node ID above TCPCLKIT_NODE_ID_LIMIT, a
 * list above 65,536 bytes or 64 items, and bytes that are no items.
 *
 * Proved of tcpclkit_raw_write_message: the bytes are `message_bytes`, and those after them stay.
 * `MessageReadsBack`: whatever bytes follow, they are read as this message. `StreamReadsBack`: a
 * contact header and any such messages, each segment with its data, are read as these messages.
 */
uint32_t tcpclkit_raw_write_message(const struct tcpclkit_message *message,
                                    const uint8_t *node, size_t node_length,
                                    const uint8_t *items, size_t items_length,
                                    uint8_t *bytes, size_t room,
                                    struct tcpclkit_written *written);
static inline uint32_t tcpclkit_write_message(const struct tcpclkit_message *message,
                                              const uint8_t *node, size_t node_length,
                                              const uint8_t *items, size_t items_length,
                                              uint8_t *bytes, size_t room,
                                              struct tcpclkit_written *written) {
  const struct tcpclkit_lent lent[] = {{bytes, room},
                                       {written, sizeof *written},
                                       {message, sizeof *message},
                                       {node, node_length},
                                       {items, items_length}};
  uint32_t status = tcpclkit_writer_status(lent, 5, written);
  if (status != TCPCLKIT_OK) return status;
  return tcpclkit_raw_write_message(message, tcpclkit_start(node), node_length,
                                    tcpclkit_start(items), items_length, tcpclkit_start(bytes),
                                    room, written);
}

/* -- writing bundles --------------------------------------------------------------------------- */

/*
 * A bundle is TCPCLKIT_BUNDLE_FIRST, its primary block, canonical blocks, and TCPCLKIT_BUNDLE_LAST.
 * The payload block is the last block. It alone has type 1 and number 1, and each other block has a
 * number of its own, at least 2. There are at most 64 canonical blocks. The head of a canonical
 * block is written apart from its data, since a payload may be large. Its check field follows the
 * data. For a block without a check, the calls for a check return TCPCLKIT_RANGE, and `count` is 0:
 *
 *     tcpclkit_write_block_head(&block, bytes, sizeof bytes, &written);
 *     tcpclkit_start_check(&check, block.check);
 *     tcpclkit_feed_check(&check, bytes, written.count);
 *     send(bytes, written.count);
 *     while ((length = next_piece(piece)) > 0) {
 *       tcpclkit_feed_check(&check, piece, length);
 *       send(piece, length);
 *     }
 *     tcpclkit_write_check(&check, bytes, sizeof bytes, &written);
 *     send(bytes, written.count);
 *
 * Proved (`BundleReadsBack`): such bytes are a good bundle. tcpclkit_describe_bundle gives the
 * fields of its primary block back and finds its payload, and tcpclkit_next_block gives its blocks.
 */
#define TCPCLKIT_BUNDLE_FIRST 0x9fu
#define TCPCLKIT_BUNDLE_LAST 0xffu

/* Rooms that are enough for each primary block, for the head and for the check field of each
 * canonical block, for each endpoint ID, and for the data of an age and of a hop count. */
#define TCPCLKIT_PRIMARY_ROOM 3248u
#define TCPCLKIT_BLOCK_HEAD_ROOM 54u
#define TCPCLKIT_CHECK_ROOM 5u
#define TCPCLKIT_EID_ROOM 1051u
#define TCPCLKIT_AGE_ROOM 9u
#define TCPCLKIT_HOP_COUNT_ROOM 27u

/*
 * Writes a primary block with its check field (RFC 9171 section 4.3.1).
 *
 * Of `bundle` it reads the flags, the endpoint IDs, `time`, `sequence`, `lifetime`, and the fields
 * of a fragment. `check` is a type of check values. The RFC asks for a check value here, unless an
 * integrity block protects the primary block. The names are those of dtn endpoint IDs, as
 * tcpclkit_describe_bundle gives them: each slice has the length `name_length` of its endpoint ID.
 * The slice for another kind of endpoint ID is not read.
 *
 * The statuses are those of tcpclkit_write_contact. TCPCLKIT_RANGE: `check` is no type, an endpoint
 * ID is refused as by tcpclkit_write_eid_text, `is_fragment` is above 1, it is not bit 0x01 of the
 * flags, or it is 0 and a field of a fragment is not.
 *
 * Proved of tcpclkit_raw_write_primary: the bytes are `primary_bytes`, and those after them stay.
 */
uint32_t tcpclkit_raw_write_primary(const struct tcpclkit_bundle *bundle, uint64_t check,
                                    const uint8_t *destination_name, size_t destination_length,
                                    const uint8_t *source_name, size_t source_length,
                                    const uint8_t *report_to_name, size_t report_to_length,
                                    uint8_t *bytes, size_t room,
                                    struct tcpclkit_written *written);
static inline uint32_t tcpclkit_write_primary(
    const struct tcpclkit_bundle *bundle, uint64_t check,
    const uint8_t *destination_name, size_t destination_length,
    const uint8_t *source_name, size_t source_length,
    const uint8_t *report_to_name, size_t report_to_length,
    uint8_t *bytes, size_t room, struct tcpclkit_written *written) {
  const struct tcpclkit_lent lent[] = {{bytes, room},
                                       {written, sizeof *written},
                                       {bundle, sizeof *bundle},
                                       {destination_name, destination_length},
                                       {source_name, source_length},
                                       {report_to_name, report_to_length}};
  uint32_t status = tcpclkit_writer_status(lent, 6, written);
  if (status != TCPCLKIT_OK) return status;
  return tcpclkit_raw_write_primary(
      bundle, check, tcpclkit_start(destination_name), destination_length,
      tcpclkit_start(source_name), source_length,
      tcpclkit_start(report_to_name), report_to_length, tcpclkit_start(bytes), room, written);
}

/*
 * Writes a canonical block up to its data (RFC 9171 section 4.3.2).
 *
 * Of `block` it reads `kind`, `block_type`, `number`, `flags`, `check` and `data_length`. The
 * statuses are those of tcpclkit_write_contact. TCPCLKIT_RANGE: `kind` is not
 * TCPCLKIT_BLOCK_CANONICAL, `check` is no type, the number is 0, or one of the number and the type
 * is 1 and the other is not.
 *
 * Proved of tcpclkit_raw_write_block_head: the bytes are `block_head`, and those after them stay.
 */
uint32_t tcpclkit_raw_write_block_head(const struct tcpclkit_block *block, uint8_t *bytes,
                                       size_t room, struct tcpclkit_written *written);
static inline uint32_t tcpclkit_write_block_head(const struct tcpclkit_block *block,
                                                 uint8_t *bytes, size_t room,
                                                 struct tcpclkit_written *written) {
  const struct tcpclkit_lent lent[] = {
      {bytes, room}, {written, sizeof *written}, {block, sizeof *block}};
  uint32_t status = tcpclkit_writer_status(lent, 3, written);
  if (status != TCPCLKIT_OK) return status;
  return tcpclkit_raw_write_block_head(block, tcpclkit_start(bytes), room, written);
}

/* A check value of bytes that come in pieces of any size. It may be copied at any time. */
struct tcpclkit_crc {
  uint64_t kind;  /* TCPCLKIT_CHECK_CRC16 or TCPCLKIT_CHECK_CRC32 */
  uint64_t state; /* what the library keeps of the bytes */
};

/*
 * Makes a check to which no byte was fed.
 *
 * TCPCLKIT_OK, TCPCLKIT_NULL, or TCPCLKIT_RANGE if the kind is none of a check: then each field is
 * 0.
 *
 * Proved of tcpclkit_raw_start_check: no byte was fed to the check (`IsKeptCheckAt`).
 */
uint32_t tcpclkit_raw_start_check(struct tcpclkit_crc *check, uint64_t kind);
static inline uint32_t tcpclkit_start_check(struct tcpclkit_crc *check, uint64_t kind) {
  if (check == NULL) return TCPCLKIT_NULL;
  return tcpclkit_raw_start_check(check, kind);
}

/*
 * Feeds a piece.
 *
 * TCPCLKIT_OK, or TCPCLKIT_RANGE if the struct is no check: then it stays as it was.
 *
 * Proved of tcpclkit_raw_feed_check: if some bytes were fed to the check, these and the piece then
 * were (`IsKeptCheckAt`).
 */
uint32_t tcpclkit_raw_feed_check(struct tcpclkit_crc *check, const uint8_t *piece,
                                 size_t length);
static inline uint32_t tcpclkit_feed_check(struct tcpclkit_crc *check, const uint8_t *piece,
                                           size_t length) {
  const struct tcpclkit_lent lent[] = {{check, sizeof *check}, {piece, length}};
  uint32_t status = tcpclkit_lent_status(lent, 2, 1);
  if (status != TCPCLKIT_OK) return status;
  return tcpclkit_raw_feed_check(check, tcpclkit_start(piece), length);
}

/*
 * Gives the check value of the bytes that were fed. For a block, use tcpclkit_write_check.
 *
 * TCPCLKIT_OK, or TCPCLKIT_RANGE if the struct is no check. After each status but TCPCLKIT_OK the
 * value is 0, unless it overlaps the check.
 *
 * Proved of tcpclkit_raw_end_check: the value is `crc` of the bytes that were fed.
 */
uint32_t tcpclkit_raw_end_check(const struct tcpclkit_crc *check, uint64_t *value);
static inline uint32_t tcpclkit_end_check(const struct tcpclkit_crc *check, uint64_t *value) {
  const struct tcpclkit_lent lent[] = {{value, sizeof *value}, {check, sizeof *check}};
  uint32_t status = tcpclkit_lent_status(lent, 2, 1);
  if (status == TCPCLKIT_OK) return tcpclkit_raw_end_check(check, value);
  if (value != NULL && tcpclkit_is_apart(lent, 2, 0)) *value = 0;
  return status;
}

/*
 * Writes the check field of a canonical block (RFC 9171 section 4.2.2). The head of the block and
 * its data were fed to the check. The field is not fed: its value counts as zeros, as the RFC asks.
 *
 * The statuses are those of tcpclkit_write_contact; TCPCLKIT_RANGE if the struct is no check.
 *
 * Proved of tcpclkit_raw_write_check: the bytes are `check_field` of the bytes that were fed, and
 * those after them stay.
 */
uint32_t tcpclkit_raw_write_check(const struct tcpclkit_crc *check, uint8_t *bytes, size_t room,
                                  struct tcpclkit_written *written);
static inline uint32_t tcpclkit_write_check(const struct tcpclkit_crc *check, uint8_t *bytes,
                                            size_t room, struct tcpclkit_written *written) {
  const struct tcpclkit_lent lent[] = {
      {bytes, room}, {written, sizeof *written}, {check, sizeof *check}};
  uint32_t status = tcpclkit_writer_status(lent, 3, written);
  if (status != TCPCLKIT_OK) return status;
  return tcpclkit_raw_write_check(check, tcpclkit_start(bytes), room, written);
}

/*
 * Writes an endpoint ID in CBOR (RFC 9171 section 4.2.5.1). It is also the data of a previous node
 * block (section 4.4.1).
 *
 * The statuses are those of tcpclkit_write_contact; TCPCLKIT_RANGE as for tcpclkit_write_eid_text.
 *
 * Proved of tcpclkit_raw_write_eid: the bytes are `eid_bytes`, and those after them stay.
 * `PreviousNodeReadsBack`: as the data of a previous node block they are read as this endpoint ID.
 */
uint32_t tcpclkit_raw_write_eid(const struct tcpclkit_eid *eid, const uint8_t *name,
                                size_t name_length, uint8_t *bytes, size_t room,
                                struct tcpclkit_written *written);
static inline uint32_t tcpclkit_write_eid(const struct tcpclkit_eid *eid, const uint8_t *name,
                                          size_t name_length, uint8_t *bytes, size_t room,
                                          struct tcpclkit_written *written) {
  const struct tcpclkit_lent lent[] = {
      {bytes, room}, {written, sizeof *written}, {eid, sizeof *eid}, {name, name_length}};
  uint32_t status = tcpclkit_writer_status(lent, 4, written);
  if (status != TCPCLKIT_OK) return status;
  return tcpclkit_raw_write_eid(eid, tcpclkit_start(name), name_length, tcpclkit_start(bytes),
                                room, written);
}

/*
 * Writes the data of a bundle age block, in milliseconds (RFC 9171 section 4.4.2).
 *
 * The statuses are those of tcpclkit_write_contact. No age is out of range.
 *
 * Proved of tcpclkit_raw_write_age: the bytes are `age_bytes`, and those after them stay.
 * `BundleAgeReadsBack`: they are read as this age.
 */
uint32_t tcpclkit_raw_write_age(uint64_t age, uint8_t *bytes, size_t room,
                                struct tcpclkit_written *written);
static inline uint32_t tcpclkit_write_age(uint64_t age, uint8_t *bytes, size_t room,
                                          struct tcpclkit_written *written) {
  const struct tcpclkit_lent lent[] = {{bytes, room}, {written, sizeof *written}};
  uint32_t status = tcpclkit_writer_status(lent, 2, written);
  if (status != TCPCLKIT_OK) return status;
  return tcpclkit_raw_write_age(age, tcpclkit_start(bytes), room, written);
}

/*
 * Writes the data of a hop count block: the hop limit and the hop count (RFC 9171 section 4.4.3).
 * The RFC asks for a limit from 1 to 255. This call takes any.
 *
 * The statuses are those of tcpclkit_write_contact. No number is out of range.
 *
 * Proved of tcpclkit_raw_write_hop_count: the bytes are `hop_count_bytes`, and those after them
 * stay. `HopCountReadsBack`: they are read as these numbers.
 */
uint32_t tcpclkit_raw_write_hop_count(uint64_t limit, uint64_t count, uint8_t *bytes, size_t room,
                                      struct tcpclkit_written *written);
static inline uint32_t tcpclkit_write_hop_count(uint64_t limit, uint64_t count, uint8_t *bytes,
                                                size_t room, struct tcpclkit_written *written) {
  const struct tcpclkit_lent lent[] = {{bytes, room}, {written, sizeof *written}};
  uint32_t status = tcpclkit_writer_status(lent, 2, written);
  if (status != TCPCLKIT_OK) return status;
  return tcpclkit_raw_write_hop_count(limit, count, tcpclkit_start(bytes), room, written);
}

/* -- texts ------------------------------------------------------------------------------------- */

/*
 * Writes the words of a fault, as the program's line of the fault has them. Those of a bundle begin
 * with its code: `B13 check differs`. The codes of answers, from TCPCLKIT_ANSWER_OTHER_TRANSFER on,
 * also have words, such as `another transfer`, although no line has them.
 *
 * `*written` is the number of bytes written; there is no 0 after them. TCPCLKIT_TOO_SMALL: the text
 * is longer, and its first bytes were written. TCPCLKIT_RANGE: no fault has this code, or `number`
 * is too great for it; a code without a number takes any. 64 bytes are enough for every text.
 *
 * Proved of tcpclkit_raw_write_fault_text: the text is `wire_text`, `order_text`, `answer_text`, or
 * `code_text` and `bundle_fault_text`, and the bytes after it are as they were.
 */
uint32_t tcpclkit_raw_write_fault_text(uint64_t code, uint64_t number, uint8_t *text, size_t room,
                                       uint64_t *written);
static inline uint32_t tcpclkit_write_fault_text(uint64_t code, uint64_t number, uint8_t *text,
                                                 size_t room, uint64_t *written) {
  const struct tcpclkit_lent lent[] = {{text, room}, {written, sizeof *written}};
  uint32_t status = tcpclkit_lent_status(lent, 2, 2);
  if (status != TCPCLKIT_OK) return status;
  return tcpclkit_raw_write_fault_text(code, number, tcpclkit_start(text), room, written);
}

/*
 * Writes an endpoint ID as the program's lines show it: `ipn:2.1`, or `dtn://node/` with each byte
 * that is no visible ASCII character, and each `\`, as `\x` and two digits.
 *
 * `name` is the slice with the name of a TCPCLKIT_EID_DTN; the other kinds have no name, and it is
 * not read. `*written` is as above. TCPCLKIT_RANGE: the kind is none, or the kind has a name and
 * `name_length` is not that of `eid` or is above TCPCLKIT_EID_LIMIT. So the name of a good bundle
 * is refused if it was cut to its slice. 4,100 bytes are enough for every text.
 *
 * Proved of tcpclkit_raw_write_eid_text: the text is `eid_text`, and the bytes after it stay.
 */
uint32_t tcpclkit_raw_write_eid_text(const struct tcpclkit_eid *eid, const uint8_t *name,
                                     size_t name_length, uint8_t *text, size_t room,
                                     uint64_t *written);
static inline uint32_t tcpclkit_write_eid_text(const struct tcpclkit_eid *eid, const uint8_t *name,
                                               size_t name_length, uint8_t *text, size_t room,
                                               uint64_t *written) {
  const struct tcpclkit_lent lent[] = {
      {text, room}, {written, sizeof *written}, {eid, sizeof *eid}, {name, name_length}};
  uint32_t status = tcpclkit_lent_status(lent, 4, 2);
  if (status != TCPCLKIT_OK) return status;
  return tcpclkit_raw_write_eid_text(eid, tcpclkit_start(name), name_length,
                                     tcpclkit_start(text), room, written);
}

/*
 * Reads the text of an endpoint ID: the inverse of tcpclkit_write_eid_text. It accepts exactly the
 * texts that this call writes. `dtn:none` is read as TCPCLKIT_EID_DTN_NONE, and not as the name
 * `none`, whose text it is too.
 *
 * TCPCLKIT_OK: the name of a TCPCLKIT_EID_DTN is in the slice that is lent for it, without its
 * escapes. TCPCLKIT_TOO_SMALL: the slice is too small for the name. It stays as it was, `kind` is
 * TCPCLKIT_EID_DTN, and `name_length` is a room that would do. TCPCLKIT_EID_LIMIT is enough for
 * every name. TCPCLKIT_RANGE: no endpoint ID has this text. Then each field is 0.
 *
 * Proved of tcpclkit_raw_read_eid_text: after TCPCLKIT_OK, `eid_text` of the endpoint ID is the
 * text (`IsTextOf`), and the bytes of the slice after the name stay. `TextDeterminesEid`: except
 * for the name `none`, no other endpoint ID has this text. After TCPCLKIT_RANGE, no endpoint ID
 * with a name of at most TCPCLKIT_EID_LIMIT bytes has this text (`IsNoText`).
 */
uint32_t tcpclkit_raw_read_eid_text(const uint8_t *text, size_t length, struct tcpclkit_eid *eid,
                                    uint8_t *name, size_t name_room);
static inline uint32_t tcpclkit_read_eid_text(const uint8_t *text, size_t length,
                                              struct tcpclkit_eid *eid, uint8_t *name,
                                              size_t name_room) {
  const struct tcpclkit_lent lent[] = {{eid, sizeof *eid}, {name, name_room}, {text, length}};
  uint32_t status = tcpclkit_lent_status(lent, 3, 2);
  if (status != TCPCLKIT_OK) return status;
  return tcpclkit_raw_read_eid_text(tcpclkit_start(text), length, eid, tcpclkit_start(name),
                                    name_room);
}

/*
 * Writes the name of a reason, as the lines of `tcpclkit list` have it: `no-resources`, or `?` for
 * a code without a name. `kind` is that of the message that has the reason.
 *
 * `*written` is as above. TCPCLKIT_RANGE: the kind is not TCPCLKIT_XFER_REFUSE, TCPCLKIT_SESS_TERM
 * or TCPCLKIT_MSG_REJECT, or the reason is above 255. 20 bytes are enough for every name.
 *
 * Proved of tcpclkit_raw_write_reason_text: the text is `name_of`, and the bytes after it stay.
 */
uint32_t tcpclkit_raw_write_reason_text(uint64_t kind, uint64_t reason, uint8_t *text, size_t room,
                                        uint64_t *written);
static inline uint32_t tcpclkit_write_reason_text(uint64_t kind, uint64_t reason, uint8_t *text,
                                                  size_t room, uint64_t *written) {
  const struct tcpclkit_lent lent[] = {{text, room}, {written, sizeof *written}};
  uint32_t status = tcpclkit_lent_status(lent, 2, 2);
  if (status != TCPCLKIT_OK) return status;
  return tcpclkit_raw_write_reason_text(kind, reason, tcpclkit_start(text), room, written);
}

/*
 * Writes the name of the reason of a status report, as the lines of `tcpclkit blocks` have it:
 * `lifetime-expired`, or `?` for a code without a name.
 *
 * `*written` is as above. 34 bytes are enough for every name.
 *
 * Proved of tcpclkit_raw_write_report_reason_text: the text is `name_in` of `report_names`, and the
 * bytes after it stay.
 */
uint32_t tcpclkit_raw_write_report_reason_text(uint64_t reason, uint8_t *text, size_t room,
                                               uint64_t *written);
static inline uint32_t tcpclkit_write_report_reason_text(uint64_t reason, uint8_t *text,
                                                         size_t room, uint64_t *written) {
  const struct tcpclkit_lent lent[] = {{text, room}, {written, sizeof *written}};
  uint32_t status = tcpclkit_lent_status(lent, 2, 2);
  if (status != TCPCLKIT_OK) return status;
  return tcpclkit_raw_write_report_reason_text(reason, tcpclkit_start(text), room, written);
}

/*
 * Writes the name of a block type, as the lines of `tcpclkit blocks` have it: `bundle-age`, or `?`
 * for a code without a name.
 *
 * `*written` is as above. 21 bytes are enough for every name.
 *
 * Proved of tcpclkit_raw_write_block_type_text: the text is `type_name`, and the bytes after it
 * stay.
 */
uint32_t tcpclkit_raw_write_block_type_text(uint64_t block_type, uint8_t *text, size_t room,
                                            uint64_t *written);
static inline uint32_t tcpclkit_write_block_type_text(uint64_t block_type, uint8_t *text,
                                                      size_t room, uint64_t *written) {
  const struct tcpclkit_lent lent[] = {{text, room}, {written, sizeof *written}};
  uint32_t status = tcpclkit_lent_status(lent, 2, 2);
  if (status != TCPCLKIT_OK) return status;
  return tcpclkit_raw_write_block_type_text(block_type, tcpclkit_start(text), room, written);
}

/*
 * Writes what the data of a block says, in the words of the line that `tcpclkit blocks` has for the
 * block: `age=100`, or `limit=30 count=2`. Data of a type that is not read has no words.
 *
 * `primary` is the primary block of the bundle, as tcpclkit_next_block gives it, and `data` is all
 * data of `block`, `block->data_length` bytes. `*written` is as above. TCPCLKIT_TOO_SMALL: the text
 * is longer, and its first bytes were written. TCPCLKIT_RANGE: `primary` is no primary block,
 * `block` is no canonical one, `length` is not that of its data, or `data_offset + data_length` is
 * 2^64 or more. 4,500 bytes are enough for every text.
 *
 * Proved of tcpclkit_raw_read_block_data: the text is `words_text` of the data, without the space
 * that it begins with, and the bytes after it stay.
 */
uint32_t tcpclkit_raw_read_block_data(const struct tcpclkit_block *primary,
                                      const struct tcpclkit_block *block, const uint8_t *data,
                                      size_t length, uint8_t *text, size_t room,
                                      uint64_t *written);
static inline uint32_t tcpclkit_read_block_data(const struct tcpclkit_block *primary,
                                                const struct tcpclkit_block *block,
                                                const uint8_t *data, size_t length,
                                                uint8_t *text, size_t room, uint64_t *written) {
  const struct tcpclkit_lent lent[] = {{text, room},
                                       {written, sizeof *written},
                                       {primary, sizeof *primary},
                                       {block, sizeof *block},
                                       {data, length}};
  uint32_t status = tcpclkit_lent_status(lent, 5, 2);
  if (status != TCPCLKIT_OK) return status;
  return tcpclkit_raw_read_block_data(primary, block, tcpclkit_start(data), length,
                                      tcpclkit_start(text), room, written);
}

/* -- whole tools ------------------------------------------------------------------------------- */

/*
 * What a run of a tool did. The lengths are those of the whole texts, also where they did not fit,
 * so after TCPCLKIT_TOO_SMALL a caller knows how much room is enough. They stop at UINT64_MAX.
 *
 * A caller has to test both the status of the call and `exit_status`. TCPCLKIT_OK says that the run
 * took place and that the texts are whole. `exit_status` says what it found: after a fault of the
 * input it is 3, the report has the line of the fault, and the output ends before it.
 */
struct tcpclkit_run {
  uint64_t exit_status;    /* 0, 1 or 3, as the program ends (docs/MANUAL.md) */
  uint64_t output_length;  /* how long is what goes to standard output */
  uint64_t report_length;  /* how long is what goes to standard error */
};

/* The room for a text that is not wanted, whose pointer is null. A null pointer with a room of 0 is
 * an empty slice, which is too small for a text with bytes. */
#define TCPCLKIT_UNWANTED SIZE_MAX

static inline uint64_t tcpclkit_wants(const uint8_t *text, size_t room) {
  return text != NULL || room != TCPCLKIT_UNWANTED;
}

static inline size_t tcpclkit_room(const uint8_t *text, size_t room) {
  return tcpclkit_wants(text, room) ? room : 0;
}

/* Which data `unpack` writes, and where it ends. tcpclkit_unpack_defaults fills in the defaults. */
struct tcpclkit_unpack_options {
  uint64_t size;       /* sizeof (struct tcpclkit_unpack_options), for later versions */
  uint64_t only_one;   /* 1: the transfers with the ID `transfer` alone */
  uint64_t transfer;   /* 0 if `only_one` is 0 */
  uint64_t payload;    /* 1: of each transfer only the payload of its bundle */
  uint64_t keep_going; /* 1: a fault of the order has its line, and does not end the run */
};

/* Which blocks `blocks` shows, and of what. tcpclkit_blocks_defaults fills in the defaults. */
struct tcpclkit_blocks_options {
  uint64_t size;       /* sizeof (struct tcpclkit_blocks_options), for later versions */
  uint64_t only_one;   /* 1: the transfers with the ID `transfer` alone */
  uint64_t transfer;   /* 0 if `only_one` is 0 */
  uint64_t keep_going; /* 1: a fault of the order has its line, and does not end the run */
  uint64_t bundles;    /* 1: the bytes are bundles, one after another, and no recording */
};

/* What `check` judges, and of what. tcpclkit_check_defaults fills in the defaults. */
struct tcpclkit_check_options {
  uint64_t size;              /* sizeof (struct tcpclkit_check_options), for later versions */
  uint64_t must;              /* 1: the rules of level `must` alone */
  uint64_t has_peer_segment;  /* 1: no segment may have more data than `peer_segment` */
  uint64_t peer_segment;      /* 0 if `has_peer_segment` is 0 */
  uint64_t has_peer_transfer; /* 1: no transfer may have more data than `peer_transfer` */
  uint64_t peer_transfer;     /* 0 if `has_peer_transfer` is 0 */
  uint64_t bundles;           /* 1: the bytes are bundles, one after another, and no recording */
};

/* What the stream of `pack` says (docs/MANUAL.md). tcpclkit_pack_defaults fills in the defaults. */
struct tcpclkit_pack_options {
  uint64_t size;          /* sizeof (struct tcpclkit_pack_options), for later versions */
  uint64_t keepalive;     /* seconds, at most 65,535 */
  uint64_t segment_mru;
  uint64_t transfer_mru;
  uint64_t peer_segment;  /* at least 1 */
  uint64_t peer_transfer;
  uint64_t announce;      /* at most 1,048,576 */
  uint64_t send_term;     /* 1 or 0 */
};

/* What tcpclkit_pack_more writes into a session that is open. The fields are those of the options
 * of `pack`, and `first`. tcpclkit_more_defaults fills in the defaults. */
struct tcpclkit_more_options {
  uint64_t size;          /* sizeof (struct tcpclkit_more_options), for later versions */
  uint64_t first;         /* the ID of the first transfer; each bundle has the next one */
  uint64_t peer_segment;  /* at least 1 */
  uint64_t peer_transfer;
  uint64_t announce;      /* at most 1,048,576 */
};

static inline uint32_t tcpclkit_unpack_defaults(struct tcpclkit_unpack_options *options) {
  const struct tcpclkit_unpack_options defaults = {sizeof defaults, 0, 0, 0, 0};
  if (options == NULL) return TCPCLKIT_NULL;
  *options = defaults;
  return TCPCLKIT_OK;
}

static inline uint32_t tcpclkit_blocks_defaults(struct tcpclkit_blocks_options *options) {
  const struct tcpclkit_blocks_options defaults = {sizeof defaults, 0, 0, 0, 0};
  if (options == NULL) return TCPCLKIT_NULL;
  *options = defaults;
  return TCPCLKIT_OK;
}

static inline uint32_t tcpclkit_check_defaults(struct tcpclkit_check_options *options) {
  const struct tcpclkit_check_options defaults = {sizeof defaults, 0, 0, 0, 0, 0, 0};
  if (options == NULL) return TCPCLKIT_NULL;
  *options = defaults;
  return TCPCLKIT_OK;
}

static inline uint32_t tcpclkit_pack_defaults(struct tcpclkit_pack_options *options) {
  const struct tcpclkit_pack_options defaults = {
      sizeof defaults, 60, 65536, 1048576, 65536, UINT64_MAX, 0, 0};
  if (options == NULL) return TCPCLKIT_NULL;
  *options = defaults;
  return TCPCLKIT_OK;
}

static inline uint32_t tcpclkit_more_defaults(struct tcpclkit_more_options *options) {
  const struct tcpclkit_more_options defaults = {sizeof defaults, 0, 65536, UINT64_MAX, 0};
  if (options == NULL) return TCPCLKIT_NULL;
  *options = defaults;
  return TCPCLKIT_OK;
}

/* The status, or if it is TCPCLKIT_OK that of options: their first field is the size of a struct of
 * this header or of one before it. */
static inline uint32_t tcpclkit_options_status(uint32_t status, const uint64_t *size,
                                               size_t known) {
  if (status != TCPCLKIT_OK) return status;
  return *size >= 8 && *size <= known && *size % 8 == 0 ? TCPCLKIT_OK : TCPCLKIT_RANGE;
}

/* The greatest length of a node ID, in bytes. */
#define TCPCLKIT_NODE_ID_LIMIT 1024u

/*
 * `tcpclkit list`: a line for the contact header and for each message of a recording.
 *
 * The run goes on to its end, whatever room there is. TCPCLKIT_OK: the slices have the whole texts.
 * TCPCLKIT_TOO_SMALL: a slice is too small, and has the first bytes of its text. `run` has the
 * lengths of the whole texts and the exit status in both cases. A text whose pointer is null and
 * whose room is TCPCLKIT_UNWANTED needs no room. The line of a fault goes to the report.
 *
 * Proved of tcpclkit_raw_list: the lengths and the exit status are those of `list_tool` of the
 * bytes. Each slice begins with its text, or has its first bytes, and the bytes after the text are
 * as they were. The status is TCPCLKIT_OK if each text that is wanted fits, and else
 * TCPCLKIT_TOO_SMALL. A text is wanted if its number, `wants_output` or `wants_report`, is not 0.
 */
uint32_t tcpclkit_raw_list(const uint8_t *bytes, size_t length,
                           uint64_t wants_output, uint8_t *output, size_t output_room,
                           uint64_t wants_report, uint8_t *report, size_t report_room,
                           struct tcpclkit_run *run);
static inline uint32_t tcpclkit_list(const uint8_t *bytes, size_t length,
                                     uint8_t *output, size_t output_room,
                                     uint8_t *report, size_t report_room,
                                     struct tcpclkit_run *run) {
  const size_t output_size = tcpclkit_room(output, output_room);
  const size_t report_size = tcpclkit_room(report, report_room);
  const struct tcpclkit_lent lent[] = {
      {output, output_size}, {report, report_size}, {run, sizeof *run}, {bytes, length}};
  uint32_t status = tcpclkit_lent_status(lent, 4, 3);
  if (status != TCPCLKIT_OK) return status;
  return tcpclkit_raw_list(tcpclkit_start(bytes), length,
                           tcpclkit_wants(output, output_room),
                           tcpclkit_start(output), output_size,
                           tcpclkit_wants(report, report_room),
                           tcpclkit_start(report), report_size, run);
}

/*
 * `tcpclkit unpack`: the data of a recording's transfers, and as the report a line for each.
 *
 * The statuses are those of tcpclkit_list; also TCPCLKIT_RANGE if `only_one`, `payload` or
 * `keep_going` is above 1, if `transfer` is not 0 and `only_one` is, or `size` is of no such
 * struct. An output of `length` bytes is enough.
 *
 * Proved of tcpclkit_raw_unpack: as for tcpclkit_raw_list, of `unpack_tool` of the options and the
 * bytes. The options are `option_count` numbers, which follow `size` in the struct. Those that are
 * missing have their defaults, and those after the ones that the library knows have to be 0. If an
 * option is out of its range, the status is TCPCLKIT_RANGE, and nothing is written.
 */
uint32_t tcpclkit_raw_unpack(const uint8_t *bytes, size_t length,
                             const uint64_t *options, size_t option_count,
                             uint64_t wants_output, uint8_t *output, size_t output_room,
                             uint64_t wants_report, uint8_t *report, size_t report_room,
                             struct tcpclkit_run *run);
static inline uint32_t tcpclkit_unpack(const uint8_t *bytes, size_t length,
                                       const struct tcpclkit_unpack_options *options,
                                       uint8_t *output, size_t output_room,
                                       uint8_t *report, size_t report_room,
                                       struct tcpclkit_run *run) {
  const size_t output_size = tcpclkit_room(output, output_room);
  const size_t report_size = tcpclkit_room(report, report_room);
  const struct tcpclkit_lent lent[] = {
      {output, output_size}, {report, report_size}, {run, sizeof *run}, {bytes, length},
      {options, sizeof *options}};
  uint32_t status = tcpclkit_lent_status(lent, 5, 3);
  status = tcpclkit_options_status(status, (const uint64_t *)options, sizeof *options);
  if (status != TCPCLKIT_OK) return status;
  return tcpclkit_raw_unpack(tcpclkit_start(bytes), length,
                             (const uint64_t *)options + 1, (size_t)options->size / 8 - 1,
                             tcpclkit_wants(output, output_room),
                             tcpclkit_start(output), output_size,
                             tcpclkit_wants(report, report_room),
                             tcpclkit_start(report), report_size, run);
}

/*
 * `tcpclkit blocks`: a line for each block of the bundles of a recording, or of bundles.
 *
 * The statuses are those of tcpclkit_list; also TCPCLKIT_RANGE if `only_one`, `keep_going` or
 * `bundles` is above 1, if `bundles` is 1 beside another of them, if `transfer` is not 0 and
 * `only_one` is, or `size` is of no such struct.
 *
 * Proved of tcpclkit_raw_blocks: as for tcpclkit_raw_unpack, of `blocks_tool` of the options and
 * the bytes, or of `bundle_blocks_tool` of the bytes if `bundles` is 1.
 */
uint32_t tcpclkit_raw_blocks(const uint8_t *bytes, size_t length,
                             const uint64_t *options, size_t option_count,
                             uint64_t wants_output, uint8_t *output, size_t output_room,
                             uint64_t wants_report, uint8_t *report, size_t report_room,
                             struct tcpclkit_run *run);
static inline uint32_t tcpclkit_blocks(const uint8_t *bytes, size_t length,
                                       const struct tcpclkit_blocks_options *options,
                                       uint8_t *output, size_t output_room,
                                       uint8_t *report, size_t report_room,
                                       struct tcpclkit_run *run) {
  const size_t output_size = tcpclkit_room(output, output_room);
  const size_t report_size = tcpclkit_room(report, report_room);
  const struct tcpclkit_lent lent[] = {
      {output, output_size}, {report, report_size}, {run, sizeof *run}, {bytes, length},
      {options, sizeof *options}};
  uint32_t status = tcpclkit_lent_status(lent, 5, 3);
  status = tcpclkit_options_status(status, (const uint64_t *)options, sizeof *options);
  if (status != TCPCLKIT_OK) return status;
  return tcpclkit_raw_blocks(tcpclkit_start(bytes), length,
                             (const uint64_t *)options + 1, (size_t)options->size / 8 - 1,
                             tcpclkit_wants(output, output_room),
                             tcpclkit_start(output), output_size,
                             tcpclkit_wants(report, report_room),
                             tcpclkit_start(report), report_size, run);
}

/*
 * `tcpclkit check`: a line for each judged rule of the RFCs that the sender of a recording breaks,
 * or that bundles break.
 *
 * The exit status is 3 after a fault, whose line is the report. Otherwise it is 1 if the output has
 * a line, and else 0. The statuses are those of tcpclkit_list; also TCPCLKIT_RANGE if `must`,
 * `has_peer_segment`, `has_peer_transfer` or `bundles` is above 1, if `bundles` is 1 beside a limit
 * of the peer, if a limit is not 0 that is not set, or `size` is of no such struct.
 *
 * Proved of tcpclkit_raw_check: as for tcpclkit_raw_unpack, of `check_tool` of the options and the
 * bytes, or of `bundle_check_tool` of `must` and the bytes if `bundles` is 1.
 */
uint32_t tcpclkit_raw_check(const uint8_t *bytes, size_t length,
                            const uint64_t *options, size_t option_count,
                            uint64_t wants_output, uint8_t *output, size_t output_room,
                            uint64_t wants_report, uint8_t *report, size_t report_room,
                            struct tcpclkit_run *run);
static inline uint32_t tcpclkit_check(const uint8_t *bytes, size_t length,
                                      const struct tcpclkit_check_options *options,
                                      uint8_t *output, size_t output_room,
                                      uint8_t *report, size_t report_room,
                                      struct tcpclkit_run *run) {
  const size_t output_size = tcpclkit_room(output, output_room);
  const size_t report_size = tcpclkit_room(report, report_room);
  const struct tcpclkit_lent lent[] = {
      {output, output_size}, {report, report_size}, {run, sizeof *run}, {bytes, length},
      {options, sizeof *options}};
  uint32_t status = tcpclkit_lent_status(lent, 5, 3);
  status = tcpclkit_options_status(status, (const uint64_t *)options, sizeof *options);
  if (status != TCPCLKIT_OK) return status;
  return tcpclkit_raw_check(tcpclkit_start(bytes), length,
                            (const uint64_t *)options + 1, (size_t)options->size / 8 - 1,
                            tcpclkit_wants(output, output_room),
                            tcpclkit_start(output), output_size,
                            tcpclkit_wants(report, report_room),
                            tcpclkit_start(report), report_size, run);
}

/*
 * `tcpclkit pack`: bundles in turn as the stream of a sender, and as the report a line for each.
 *
 * `node` is the sender's node ID. The statuses are those of tcpclkit_list; also TCPCLKIT_RANGE if
 * an option or the length of `node` is not in its range, and TCPCLKIT_MEMORY if malloc refused the
 * block that pack asks for before it reads: then nothing was written, and each field of `run` is 0.
 *
 * Proved of tcpclkit_raw_pack: as for tcpclkit_raw_unpack, of `pack_tool` of the options, `node`
 * and the bytes; or the status is TCPCLKIT_MEMORY, nothing is written, and each field of `run` is
 * 0.
 */
uint32_t tcpclkit_raw_pack(const uint8_t *bytes, size_t length,
                           const uint64_t *options, size_t option_count,
                           const uint8_t *node, size_t node_length,
                           uint64_t wants_output, uint8_t *output, size_t output_room,
                           uint64_t wants_report, uint8_t *report, size_t report_room,
                           struct tcpclkit_run *run);
static inline uint32_t tcpclkit_pack(const uint8_t *bytes, size_t length,
                                     const struct tcpclkit_pack_options *options,
                                     const uint8_t *node, size_t node_length,
                                     uint8_t *output, size_t output_room,
                                     uint8_t *report, size_t report_room,
                                     struct tcpclkit_run *run) {
  const size_t output_size = tcpclkit_room(output, output_room);
  const size_t report_size = tcpclkit_room(report, report_room);
  const struct tcpclkit_lent lent[] = {
      {output, output_size}, {report, report_size}, {run, sizeof *run}, {bytes, length},
      {options, sizeof *options}, {node, node_length}};
  uint32_t status = tcpclkit_lent_status(lent, 6, 3);
  status = tcpclkit_options_status(status, (const uint64_t *)options, sizeof *options);
  if (status != TCPCLKIT_OK) return status;
  return tcpclkit_raw_pack(tcpclkit_start(bytes), length,
                           (const uint64_t *)options + 1, (size_t)options->size / 8 - 1,
                           tcpclkit_start(node), node_length,
                           tcpclkit_wants(output, output_room),
                           tcpclkit_start(output), output_size,
                           tcpclkit_wants(report, report_room),
                           tcpclkit_start(report), report_size, run);
}

/*
 * Bundles in turn as the segments of a sender whose session is open, and as the report a line for
 * each: what `tcpclkit pack` writes, without the contact header, SESS_INIT and SESS_TERM.
 *
 * The bundles are the transfers `first`, `first + 1` and so on. The next call begins with the sum
 * of `first` and the number of lines in the report. After a fault of the input, the output may end
 * with segments of a transfer that gets no END. The line of the fault counts for this transfer.
 *
 * The statuses are those of tcpclkit_pack; TCPCLKIT_RANGE also if `first + length` is above
 * UINT64_MAX, since the IDs could then run out.
 *
 * Proved of tcpclkit_raw_pack_more: as for tcpclkit_raw_pack, of `more_tool` of the options and the
 * bytes. `IsPreludeThenPackMore`: what tcpclkit_pack writes is the contact header and SESS_INIT,
 * then what this call writes with the first ID 0, and then SESS_TERM, if it is asked for.
 * `SegmentsDifferOnlyInIds`: with another first ID, the segments are the same except for their IDs.
 * All IDs fit, since an input has no more bundles than bytes (`HasNoMoreBundlesThanBytes`).
 */
uint32_t tcpclkit_raw_pack_more(const uint8_t *bytes, size_t length,
                                const uint64_t *options, size_t option_count,
                                uint64_t wants_output, uint8_t *output, size_t output_room,
                                uint64_t wants_report, uint8_t *report, size_t report_room,
                                struct tcpclkit_run *run);
static inline uint32_t tcpclkit_pack_more(const uint8_t *bytes, size_t length,
                                          const struct tcpclkit_more_options *options,
                                          uint8_t *output, size_t output_room,
                                          uint8_t *report, size_t report_room,
                                          struct tcpclkit_run *run) {
  const size_t output_size = tcpclkit_room(output, output_room);
  const size_t report_size = tcpclkit_room(report, report_room);
  const struct tcpclkit_lent lent[] = {
      {output, output_size}, {report, report_size}, {run, sizeof *run}, {bytes, length},
      {options, sizeof *options}};
  uint32_t status = tcpclkit_lent_status(lent, 5, 3);
  status = tcpclkit_options_status(status, (const uint64_t *)options, sizeof *options);
  if (status != TCPCLKIT_OK) return status;
  return tcpclkit_raw_pack_more(tcpclkit_start(bytes), length,
                                (const uint64_t *)options + 1, (size_t)options->size / 8 - 1,
                                tcpclkit_wants(output, output_room),
                                tcpclkit_start(output), output_size,
                                tcpclkit_wants(report, report_room),
                                tcpclkit_start(report), report_size, run);
}

#ifdef __cplusplus
}
#endif

#endif
