/*
 * Calls the functions of the C library as a careless caller does: names that were cut, memory
 * without a scan, slices that overlap, answers that are read after a fault, bundles that are too
 * large or followed by other bytes. clib_overlaps.c has what else may overlap.
 */
#define _DEFAULT_SOURCE /* for mmap with MAP_ANONYMOUS */

#include "clib.h"

#include <stdlib.h>
#include <sys/mman.h>

/* Nothing is written after TCPCLKIT_NULL, TCPCLKIT_RANGE and TCPCLKIT_END. */
static void unwritten_answers(void) {
  struct tcpclkit_verdict verdict;
  struct tcpclkit_bundle info;
  struct tcpclkit_contact contact;
  struct tcpclkit_message message, list = message_of(TCPCLKIT_SESS_INIT, 0, 0);
  struct tcpclkit_item item;
  const size_t size = sizeof recording;
  memset(&verdict, MARK, sizeof verdict);
  memset(&info, MARK, sizeof info);
  memset(&contact, MARK, sizeof contact);
  memset(&message, MARK, sizeof message);
  memset(&item, MARK, sizeof item);
  LEAVES(tcpclkit_judge_bundle(NULL, 1, &verdict), TCPCLKIT_NULL, verdict);
  LEAVES(tcpclkit_judge_bundle(bundle, SIZE_MAX, &verdict), TCPCLKIT_RANGE, verdict);
  LEAVES(tcpclkit_judge_bundle(bundle, (size_t)PTRDIFF_MAX + 1, &verdict), TCPCLKIT_RANGE,
         verdict);
  LEAVES(describe(NULL, 1, &info), TCPCLKIT_NULL, info);
  LEAVES(tcpclkit_describe_bundle(bundle, 9, NULL, 1, NULL, 0, NULL, 0, &info), TCPCLKIT_NULL,
         info);
  LEAVES(tcpclkit_describe_bundle(bundle, 9, NULL, 0, NULL, 1, NULL, 0, &info), TCPCLKIT_NULL,
         info);
  LEAVES(tcpclkit_describe_bundle(bundle, 9, NULL, 0, NULL, 0, NULL, 1, &info), TCPCLKIT_NULL,
         info);
  LEAVES(tcpclkit_read_contact(NULL, 1, &contact), TCPCLKIT_NULL, contact);
  LEAVES(tcpclkit_read_message(NULL, 1, 0, &message), TCPCLKIT_NULL, message);
  LEAVES(tcpclkit_read_message(recording, size, size + 1, &message), TCPCLKIT_RANGE, message);
  LEAVES(tcpclkit_read_message(recording, size, size, &message), TCPCLKIT_END, message);
  LEAVES(tcpclkit_read_item(NULL, 1, &list, 0, &item), TCPCLKIT_NULL, item);
  LEAVES(tcpclkit_read_item(recording, size, NULL, 0, &item), TCPCLKIT_NULL, item);
  LEAVES(tcpclkit_read_item(recording, size, &list, 0, &item), TCPCLKIT_END, item);
  LEAVES(tcpclkit_read_item(recording, size, &list, 1, &item), TCPCLKIT_RANGE, item);
  list.items_length = size + 1;
  LEAVES(tcpclkit_read_item(recording, size, &list, 0, &item), TCPCLKIT_RANGE, item);
  list.items_offset = size + 1;
  LEAVES(tcpclkit_read_item(recording, size, &list, size + 1, &item), TCPCLKIT_RANGE, item);
  CHECK(tcpclkit_describe_bundle(bundle, 9, NULL, 0, NULL, 0, NULL, 0, NULL) == TCPCLKIT_NULL);
  CHECK(tcpclkit_read_contact(recording, size, NULL) == TCPCLKIT_NULL);
  CHECK(tcpclkit_read_message(recording, size, 6, NULL) == TCPCLKIT_NULL);
  CHECK(tcpclkit_read_item(recording, size, &list, 0, NULL) == TCPCLKIT_NULL);
}

static void unwritten_texts(void) {
  const struct tcpclkit_eid eid = {5, 0, 0, 0, 0};
  struct tcpclkit_order order = {0, 0, 0, 0};
  struct tcpclkit_turn turn;
  uint8_t text[100];
  uint64_t written;
  memset(&turn, MARK, sizeof turn);
  memset(text, MARK, sizeof text);
  memset(&written, MARK, sizeof written);
  LEAVES(judge(&order, 8, 0, 0, &turn), TCPCLKIT_RANGE, turn);
  LEAVES(tcpclkit_judge_message(&order, NULL, &turn), TCPCLKIT_NULL, turn);
  LEAVES(tcpclkit_take_message(&order, NULL, &turn), TCPCLKIT_NULL, turn);
  CHECK(judge(&order, 7, 0, 0, NULL) == TCPCLKIT_NULL && order.initiated == 0);
  LEAVES(tcpclkit_write_fault_text(9, 0, text, sizeof text, &written), TCPCLKIT_RANGE, text);
  LEAVES(tcpclkit_write_fault_text(1, 0, NULL, 1, &written), TCPCLKIT_NULL, written);
  LEAVES(tcpclkit_write_fault_text(1, 0, text, sizeof text, NULL), TCPCLKIT_NULL, text);
  LEAVES(tcpclkit_write_eid_text(&eid, NULL, 0, text, sizeof text, &written), TCPCLKIT_RANGE, text);
  LEAVES(tcpclkit_write_eid_text(&eid, NULL, 0, NULL, 1, &written), TCPCLKIT_NULL, written);
  LEAVES(tcpclkit_write_eid_text(NULL, NULL, 0, text, sizeof text, &written), TCPCLKIT_NULL, text);
  LEAVES(tcpclkit_write_eid_text(&eid, NULL, 0, text, sizeof text, NULL), TCPCLKIT_NULL, text);
  CHECK(IS_MARKED(written));
}

/* -- names of endpoint IDs that were cut to their slices */

/* Describes a bundle, from a scan if there is one. The slices for the names have these rooms. They
 * are on the heap, so that a tool sees each read and each write past a slice. The caller frees
 * them. */
static uint32_t describe_with(const struct tcpclkit_scan *scan, const uint8_t *bytes, size_t length,
                              uint8_t **names, const size_t *rooms, struct tcpclkit_bundle *info) {
  size_t at;
  for (at = 0; at < 3; at++) {
    names[at] = rooms[at] > 0 ? (uint8_t *)malloc(rooms[at]) : NULL;
    if (rooms[at] > 0)
      memset(names[at], MARK, rooms[at]);
  }
  memset(info, MARK, sizeof *info);
  if (scan != NULL)
    return tcpclkit_describe_scan(scan, names[0], rooms[0], names[1], rooms[1], names[2], rooms[2],
                                  info);
  return tcpclkit_describe_bundle(bytes, length, names[0], rooms[0], names[1], rooms[1], names[2],
                                  rooms[2], info);
}

/* Checks an endpoint ID whose name was copied into a slice of this room. Of a good bundle its length
 * is that of the whole name, and the text of one that was cut is refused. Of a bad bundle it is the
 * length of what is in the slice. */
static void is_cut_name(const struct tcpclkit_eid *eid, const uint8_t *name, size_t room,
                        const char *whole, int is_good) {
  const size_t length = strlen(whole), fits = length < room ? length : room;
  const uint32_t status = is_good && fits < length ? TCPCLKIT_RANGE : TCPCLKIT_OK;
  uint8_t text[100];
  uint64_t written = 7;
  CHECK(eid->kind == TCPCLKIT_EID_DTN && eid->name_length == (is_good ? length : fits));
  CHECK(room == 0 || (memcmp(name, whole, fits) == 0 && is_marked(name + fits, room - fits)));
  memset(text, MARK, sizeof text);
  CHECK(tcpclkit_write_eid_text(eid, name, fits, text, sizeof text, &written) == status);
  if (status == TCPCLKIT_OK)
    CHECK(written == 4 + fits && begins(text, "dtn:") && memcmp(text + 4, whole, fits) == 0);
  else /* nothing was written */
    CHECK(written == 7 && IS_MARKED(text));
}

/* Every room for each of three names, in a good bundle and in one that is cut. */
static void cut_names(void) {
  static const char *const whole[] = {"//bc", "//a", "//def"};
  struct tcpclkit_bundle info;
  const struct tcpclkit_eid *const eids[] = {&info.destination, &info.source, &info.report_to};
  struct tcpclkit_scan scan;
  uint64_t taken;
  size_t round, length, at;
  for (round = 0; round < 7 * 6 * 7 * 4; round++) {
    const size_t rooms[] = {round % 7, round / 7 % 6, round / 42 % 7};
    const int is_good = round / 294 % 2, is_scan = round / 588 > 0;
    const int fits = rooms[0] >= 4 && rooms[1] >= 3 && rooms[2] >= 5;
    uint8_t *names[3];
    length = sizeof reported - (is_good ? 0 : 1);
    tcpclkit_start_scan(&scan);
    tcpclkit_feed_scan(&scan, reported, length, &taken);
    CHECK(describe_with(is_scan ? &scan : NULL, reported, length, names, rooms, &info) ==
          (!is_good ? TCPCLKIT_TRUNCATED : fits ? TCPCLKIT_OK : TCPCLKIT_TOO_SMALL));
    for (at = 0; at < 3; at++) {
      is_cut_name(eids[at], names[at], rooms[at], whole[at], is_good);
      free(names[at]);
    }
  }
}

/* An endpoint ID that comes after the fault is none, and the text of none is refused. */
static void names_after_a_fault(void) {
  static const uint64_t zeros[sizeof(struct tcpclkit_bundle) / 8] = {0};
  const size_t before = offsetof(struct tcpclkit_bundle, destination);
  struct tcpclkit_bundle info;
  uint8_t text[100];
  uint64_t written;
  uint32_t status;
  size_t length;
  for (length = 0; length < sizeof reported; length++) {
    memset(&info, MARK, sizeof info);
    CHECK(describe(reported, length, &info) == TCPCLKIT_TRUNCATED);
    CHECK(info.verdict.fault.offset == length);
    CHECK(length >= 12 || memcmp(&info.destination, zeros, sizeof info - before) == 0);
    status = length < 12 ? TCPCLKIT_RANGE : TCPCLKIT_OK;
    CHECK(tcpclkit_write_eid_text(&info.destination, NULL, 0, text, sizeof text, &written) ==
          status);
    status = length < 26 ? TCPCLKIT_RANGE : TCPCLKIT_OK;
    CHECK(tcpclkit_write_eid_text(&info.report_to, NULL, 0, text, sizeof text, &written) ==
          status);
  }
}

/* -- answers that are read after a fault */

static void zeros_after_a_fault(void) {
  static const uint64_t zeros[sizeof(struct tcpclkit_message) / 8] = {0};
  struct tcpclkit_contact contact;
  struct tcpclkit_message message;
  struct tcpclkit_item item;
  struct tcpclkit_order order = {0, 0, 0, 0};
  struct tcpclkit_turn turn;
  memset(&contact, MARK, sizeof contact);
  memset(&message, MARK, sizeof message);
  memset(&item, MARK, sizeof item);
  memset(&turn, MARK, sizeof turn);
  CHECK(tcpclkit_read_contact(recording, 5, &contact) == TCPCLKIT_TRUNCATED);
  CHECK(contact.fault.code == TCPCLKIT_WIRE_TRUNCATED && contact.flags == 0);
  CHECK(tcpclkit_read_contact(recording, 6, &contact) == TCPCLKIT_OK);
  CHECK(contact.fault.code == 0 && contact.fault.number == 0 && contact.fault.offset == 0);
  CHECK(tcpclkit_read_message(recording, 59, 38, &message) == TCPCLKIT_TRUNCATED);
  CHECK(memcmp(&message.kind, zeros, sizeof message - sizeof message.fault) == 0);
  /* A message after a fault has no place in an order, and no items. */
  LEAVES(tcpclkit_judge_message(&order, &message, &turn), TCPCLKIT_RANGE, turn);
  LEAVES(tcpclkit_read_item(recording, 59, &message, 0, &item), TCPCLKIT_RANGE, item);
  message = message_of(TCPCLKIT_XFER_SEGMENT, 2, 0);
  message.items_offset = 14;
  message.items_length = 12;
  CHECK(tcpclkit_read_item(announcing, sizeof announcing, &message, 14, &item) == TCPCLKIT_FAULT);
  CHECK(memcmp(&item.flags, zeros, sizeof item - sizeof item.fault) == 0);
  CHECK(judge(&order, TCPCLKIT_XFER_SEGMENT, 3, 1, &turn) == TCPCLKIT_FAULT);
  CHECK(memcmp(&turn.turn, zeros, sizeof turn - sizeof turn.fault) == 0);
}

/* -- memory that has no scan */

/* Calls each function for a scan, which refuses the memory and leaves it as it is. */
static void refuse_scan(const struct tcpclkit_scan *memory) {
  static const struct tcpclkit_block none = {0, 0, 0, 0, 0, 0, 0, 0, 0, 0};
  struct tcpclkit_scan scan = *memory;
  struct tcpclkit_verdict verdict;
  struct tcpclkit_bundle info;
  struct tcpclkit_block block;
  uint8_t to[9], from[9], reports[9];
  uint64_t taken = 7, other = 7;
  memset(&block, MARK, sizeof block);
  memset(&verdict, MARK, sizeof verdict);
  memset(&info, MARK, sizeof info);
  memset(to, MARK, sizeof to);
  memset(from, MARK, sizeof from);
  memset(reports, MARK, sizeof reports);
  CHECK(tcpclkit_feed_scan(&scan, bundle, BUNDLE_LENGTH, &taken) == TCPCLKIT_RANGE && taken == 0);
  CHECK(tcpclkit_next_block(&scan, bundle, BUNDLE_LENGTH, &other, &block) == TCPCLKIT_RANGE);
  CHECK(other == 0 && memcmp(&block, &none, sizeof block) == 0);
  memset(&block, MARK, sizeof block);
  CHECK(tcpclkit_judge_block(&scan, &block) == TCPCLKIT_RANGE);
  CHECK(memcmp(&block, &none, sizeof block) == 0);
  LEAVES(tcpclkit_judge_scan(&scan, &verdict), TCPCLKIT_RANGE, verdict);
  LEAVES(tcpclkit_end_scan(&scan, BUNDLE_LENGTH, &verdict), TCPCLKIT_RANGE, verdict);
  LEAVES(tcpclkit_describe_scan(&scan, to, 9, from, 9, reports, 9, &info), TCPCLKIT_RANGE, info);
  CHECK(IS_MARKED(to) && IS_MARKED(from) && IS_MARKED(reports));
  CHECK(memcmp(&scan, memory, sizeof scan) == 0);
}

static void no_scans(void) {
  static struct tcpclkit_scan started, memory;
  size_t at, bit;
  uint64_t random = 1;
  unsigned round;
  refuse_scan(&memory); /* all 0 */
  memset(&memory, MARK, sizeof memory);
  refuse_scan(&memory);
  for (round = 0; round < 1500; round++) {
    for (at = 0; at < TCPCLKIT_SCAN_WORDS; at++)
      memory.memory[at] = random = random * 6364136223846793005u + 1442695040888963407u;
    refuse_scan(&memory);
  }
  CHECK(tcpclkit_start_scan(&started) == TCPCLKIT_OK);
  for (bit = 0; bit < 64; bit++) { /* each other mark that differs in one bit */
    memory = started;
    memory.memory[0] ^= (uint64_t)1 << bit;
    refuse_scan(&memory);
  }
}

/* A scan is copied after each byte: the copy goes on, and what it was copied from is cleared. */
static void copies_of_scans(void) {
  struct tcpclkit_scan scan, copy, other;
  struct tcpclkit_verdict verdict, whole;
  uint64_t taken;
  size_t at;
  CHECK(tcpclkit_start_scan(&scan) == TCPCLKIT_OK);
  for (at = 0; at < sizeof named; at++) {
    if (at % 2 == 0)
      copy = scan;
    else
      memcpy(&copy, &scan, tcpclkit_raw_scan_size());
    memset(&scan, MARK, sizeof scan);
    other = copy;
    /* A second copy goes its own way. */
    CHECK(tcpclkit_feed_scan(&other, named + at, sizeof named - at, &taken) == TCPCLKIT_OK);
    CHECK(taken == sizeof named - at);
    CHECK(tcpclkit_judge_scan(&copy, &verdict) == TCPCLKIT_TRUNCATED);
    CHECK(verdict.fault.offset == at);
    tcpclkit_feed_scan(&copy, named + at, 1, &taken);
    CHECK(taken == 1);
    scan = copy;
  }
  CHECK(tcpclkit_judge_scan(&scan, &verdict) == TCPCLKIT_OK);
  CHECK(tcpclkit_judge_bundle(named, sizeof named, &whole) == TCPCLKIT_OK);
  CHECK(memcmp(&verdict, &whole, sizeof verdict) == 0);
}

/* -- slices that overlap */

/* Two slices for names overlap, whichever two they are, or one overlaps the bytes of the bundle. */
static void refuse_names(const struct tcpclkit_scan *scan, uint8_t *one, uint8_t *other) {
  struct tcpclkit_bundle info;
  uint8_t *names[3];
  size_t apart;
  memset(&info, MARK, sizeof info);
  for (apart = 0; apart < 3; apart++) {
    names[apart] = NULL;
    names[(apart + 1) % 3] = one;
    names[(apart + 2) % 3] = other;
    LEAVES(tcpclkit_describe_bundle(named, sizeof named, names[0], names[0] ? 100 : 0, names[1],
                                    names[1] ? 100 : 0, names[2], names[2] ? 100 : 0, &info),
           TCPCLKIT_RANGE, info);
    LEAVES(tcpclkit_describe_scan(scan, names[0], names[0] ? 100 : 0, names[1],
                                  names[1] ? 100 : 0, names[2], names[2] ? 100 : 0, &info),
           TCPCLKIT_RANGE, info);
  }
  LEAVES(tcpclkit_describe_bundle(one, 100, other, 100, NULL, 0, NULL, 0, &info), TCPCLKIT_RANGE,
         info);
  LEAVES(tcpclkit_describe_bundle(one, 100, NULL, 0, other, 100, NULL, 0, &info), TCPCLKIT_RANGE,
         info);
  LEAVES(tcpclkit_describe_bundle(one, 100, NULL, 0, NULL, 0, other, 100, &info), TCPCLKIT_RANGE,
         info);
}

static void one_slice_for_both(void) {
  struct tcpclkit_scan scan;
  struct tcpclkit_bundle info;
  struct tcpclkit_unpack_options options;
  struct tcpclkit_blocks_options blocks;
  struct tcpclkit_check_options check;
  struct tcpclkit_pack_options pack;
  struct tcpclkit_run run;
  uint8_t slice[300];
  uint64_t written;
  size_t at;
  memset(&run, MARK, sizeof run);
  memset(slice, MARK, sizeof slice);
  tcpclkit_unpack_defaults(&options);
  tcpclkit_blocks_defaults(&blocks);
  tcpclkit_check_defaults(&check);
  tcpclkit_pack_defaults(&pack);
  tcpclkit_start_scan(&scan);
  tcpclkit_feed_scan(&scan, named, sizeof named, &written);
  for (at = 0; at < 100; at++) {
    uint8_t *other = slice + at;
    refuse_names(&scan, slice, other);
    refuse_names(&scan, other, slice);
    LEAVES(tcpclkit_list(recording, sizeof recording, slice, 100, other, 100, &run),
           TCPCLKIT_RANGE, run);
    LEAVES(tcpclkit_list(slice, 100, other, 100, NULL, 0, &run), TCPCLKIT_RANGE, run);
    LEAVES(tcpclkit_unpack(recording, sizeof recording, &options, other, 100, slice, 100, &run),
           TCPCLKIT_RANGE, run);
    LEAVES(tcpclkit_blocks(recording, sizeof recording, &blocks, other, 100, slice, 100, &run),
           TCPCLKIT_RANGE, run);
    LEAVES(tcpclkit_check(recording, sizeof recording, &check, slice, 100, other, 100, &run),
           TCPCLKIT_RANGE, run);
    LEAVES(tcpclkit_pack(bundle, BUNDLE_LENGTH, &pack, slice, 100, NULL, 0, other, 100, &run),
           TCPCLKIT_RANGE, run);
  }
  CHECK(IS_MARKED(slice));
  /* One slice after the other is fine, and so is one without bytes in the other. */
  CHECK(tcpclkit_describe_bundle(reported, sizeof reported, slice, 100, slice + 100, 100,
                                 slice + 200, 100, &info) == TCPCLKIT_OK);
  CHECK(begins(slice, "//bc") && begins(slice + 100, "//a") && begins(slice + 200, "//def"));
  CHECK(tcpclkit_describe_bundle(named, sizeof named, slice, 100, slice + 9, 0, NULL, 0, &info) ==
        TCPCLKIT_TOO_SMALL);
}

/* -- bundles that come in pieces */

/* Bytes between two bundles are no part of either, and no call says that they are. */
static void junk_between_bundles(void) {
  uint8_t stream[2 * BUNDLE_LENGTH + 3];
  struct tcpclkit_scan scan;
  struct tcpclkit_verdict verdict;
  struct tcpclkit_block block;
  uint64_t taken;
  memcpy(stream, bundle, BUNDLE_LENGTH);
  memset(stream + BUNDLE_LENGTH, 0, 3);
  memcpy(stream + BUNDLE_LENGTH + 3, bundle, BUNDLE_LENGTH);
  tcpclkit_start_scan(&scan);
  CHECK(tcpclkit_feed_scan(&scan, stream, sizeof stream, &taken) == TCPCLKIT_OK);
  CHECK(taken == BUNDLE_LENGTH);
  /* a scan that was not started anew */
  CHECK(tcpclkit_feed_scan(&scan, stream + taken, 3, &taken) == TCPCLKIT_SCAN_ENDED && taken == 0);
  CHECK(tcpclkit_next_block(&scan, stream + BUNDLE_LENGTH, 3, &taken, &block) ==
        TCPCLKIT_SCAN_ENDED);
  CHECK(tcpclkit_end_scan(&scan, BUNDLE_LENGTH + 3, &verdict) == TCPCLKIT_FAULT);
  CHECK(verdict.fault.code == TCPCLKIT_BUNDLE_TRAILING);
  CHECK(verdict.fault.offset == BUNDLE_LENGTH && verdict.payload_seen == 5);
  CHECK(tcpclkit_end_scan(&scan, BUNDLE_LENGTH, &verdict) == TCPCLKIT_OK);
  tcpclkit_start_scan(&scan);
  CHECK(tcpclkit_feed_scan(&scan, stream + BUNDLE_LENGTH, 3, &taken) == TCPCLKIT_FAULT);
  CHECK(tcpclkit_feed_scan(&scan, stream + BUNDLE_LENGTH + 3, BUNDLE_LENGTH, &taken) ==
        TCPCLKIT_SCAN_ENDED);
}

/* A bundle whose payload, or whose block before it, is longer than a caller takes is refused as soon
 * as the head of the block is there. Returns how many bytes were taken until then, or 0. */
static size_t refused_at(const uint8_t *bytes, size_t length, size_t size, uint64_t most) {
  struct tcpclkit_scan scan;
  struct tcpclkit_block block;
  uint64_t taken;
  size_t at = 0, piece;
  uint32_t status = TCPCLKIT_GOING_ON;
  tcpclkit_start_scan(&scan);
  while (status == TCPCLKIT_GOING_ON && at < length) {
    piece = length - at < size ? length - at : size;
    status = tcpclkit_next_block(&scan, bytes + at, piece, &taken, &block);
    at += (size_t)taken;
    if (block.kind == 0)
      CHECK(tcpclkit_judge_block(&scan, &block) == (block.kind ? TCPCLKIT_OK : TCPCLKIT_END));
    if (block.data_length > most) {
      CHECK(block.kind == TCPCLKIT_BLOCK_CANONICAL && block.data_seen <= at - block.data_offset);
      CHECK(block.length == 0 || block.data_seen == block.data_length);
      return at;
    }
  }
  return 0;
}

static void long_blocks(void) {
  /* the primary block of the bundle, and the head of a payload of 2^40 bytes */
  static const uint8_t head[] = {0x85, 1, 1, 0, 0, 0x5b, 0, 0, 1, 0, 0, 0, 0, 0};
  uint8_t longer[22 + sizeof head + 9];
  const size_t known = 22 + sizeof head; /* where the head ends */
  struct tcpclkit_scan scan;
  struct tcpclkit_block block;
  uint64_t taken;
  size_t size, length;
  memset(longer, 0, sizeof longer);
  memcpy(longer, bundle, 22);
  memcpy(longer + 22, head, sizeof head);
  for (size = 1; size <= sizeof longer; size++) {
    const size_t at = refused_at(longer, sizeof longer, size, (uint64_t)1 << 30);
    CHECK(at >= known && at < known + size);
    CHECK(refused_at(longer, sizeof longer, size, (uint64_t)1 << 40) == 0);
    CHECK(refused_at(bundle, sizeof bundle, size, 4) >= 28);
    CHECK(refused_at(bundle, sizeof bundle, size, 5) == 0);
    CHECK(refused_at(several, sizeof several, size, 2) >= 38);
  }
  for (length = 0; length <= sizeof longer; length++) {
    tcpclkit_start_scan(&scan);
    CHECK(tcpclkit_feed_scan(&scan, longer, length, &taken) == TCPCLKIT_GOING_ON);
    CHECK(tcpclkit_judge_block(&scan, &block) == (length < known ? TCPCLKIT_END : TCPCLKIT_OK));
    CHECK(block.data_length == (length < known ? 0u : (uint64_t)1 << 40) && block.length == 0);
    CHECK(block.data_offset == (length < known ? 0 : known));
    CHECK(block.data_seen == (length < known ? 0 : length - known));
  }
  /* a head that says the greatest number */
  memset(longer + known - 8, 0xff, 8);
  tcpclkit_start_scan(&scan);
  CHECK(tcpclkit_feed_scan(&scan, longer, known, &taken) == TCPCLKIT_GOING_ON);
  CHECK(tcpclkit_judge_block(&scan, &block) == TCPCLKIT_OK);
  CHECK(block.data_length == UINT64_MAX && block.data_seen == 0);
  /* a scan never takes 2^63 bytes: it refuses the piece before it reads a byte of it */
  tcpclkit_start_scan(&scan);
  tcpclkit_feed_scan(&scan, bundle, 1, &taken);
  CHECK(tcpclkit_raw_feed_scan(scan.memory, bundle + 1, PTRDIFF_MAX, &taken) == TCPCLKIT_RANGE);
  CHECK(taken == 0);
  taken = 7;
  CHECK(tcpclkit_raw_next_block(scan.memory, bundle + 1, PTRDIFF_MAX, &taken, &block) ==
        TCPCLKIT_RANGE);
  CHECK(taken == 0 && block.kind == 0 && block.data_length == 0);
  CHECK(tcpclkit_feed_scan(&scan, bundle + 1, BUNDLE_LENGTH - 1, &taken) == TCPCLKIT_OK);
}

/* -- a scan that cannot be written */

/* Checks the calls that take a const scan, on a scan in pages that can be read and not written. A
 * call that writes to the scan ends the test here, also if it writes what is there already. */
static void judged_unwritable(const uint8_t *bytes, size_t length) {
  const size_t size = sizeof(struct tcpclkit_scan);
  struct tcpclkit_scan scan, *kept;
  struct tcpclkit_verdict verdict[2];
  struct tcpclkit_block block[2];
  struct tcpclkit_bundle info[2];
  uint8_t names[2][3][8];
  uint64_t taken;
  uint32_t status;
  size_t ends;
  memset(verdict, MARK, sizeof verdict);
  memset(block, MARK, sizeof block);
  memset(info, MARK, sizeof info);
  memset(names, MARK, sizeof names);
  kept = (struct tcpclkit_scan *)mmap(NULL, size, PROT_READ | PROT_WRITE,
                                      MAP_PRIVATE | MAP_ANONYMOUS, -1, 0);
  CHECK(kept != MAP_FAILED);
  if (kept == MAP_FAILED)
    return;
  memset(&scan, 0, sizeof scan);
  tcpclkit_start_scan(&scan);
  tcpclkit_feed_scan(&scan, bytes, length, &taken);
  memcpy(kept, &scan, size);
  CHECK(mprotect(kept, size, PROT_READ) == 0);
  status = tcpclkit_judge_scan(&scan, &verdict[0]);
  CHECK(tcpclkit_judge_scan(kept, &verdict[1]) == status);
  CHECK(memcmp(&verdict[0], &verdict[1], sizeof *verdict) == 0);
  for (ends = 0; ends < 3; ends++) { /* too few bytes, all bytes, and bytes after them */
    const uint64_t came = taken + ends - (taken > 0);
    memset(verdict, MARK, sizeof verdict);
    status = tcpclkit_end_scan(&scan, came, &verdict[0]);
    CHECK(tcpclkit_end_scan(kept, came, &verdict[1]) == status);
    CHECK(memcmp(&verdict[0], &verdict[1], sizeof *verdict) == 0);
  }
  status = tcpclkit_judge_block(&scan, &block[0]);
  CHECK(tcpclkit_judge_block(kept, &block[1]) == status);
  CHECK(memcmp(&block[0], &block[1], sizeof *block) == 0);
  status = tcpclkit_describe_scan(&scan, names[0][0], 8, names[0][1], 8, names[0][2], 8, &info[0]);
  CHECK(tcpclkit_describe_scan(kept, names[1][0], 8, names[1][1], 8, names[1][2], 8, &info[1]) ==
        status);
  CHECK(memcmp(&info[0], &info[1], sizeof *info) == 0);
  CHECK(memcmp(names[0], names[1], sizeof names[0]) == 0);
  CHECK(memcmp(kept, &scan, size) == 0);
  CHECK(munmap(kept, size) == 0);
}

static void unwritable_scans(void) {
  uint8_t bad[sizeof bundle];
  size_t length;
  for (length = 0; length <= sizeof reported; length++)
    judged_unwritable(reported, length);
  for (length = 0; length <= sizeof checked; length++)
    judged_unwritable(checked, length);
  for (length = 0; length <= sizeof several; length++)
    judged_unwritable(several, length);
  judged_unwritable(bundle, sizeof bundle);
  memcpy(bad, bundle, sizeof bad);
  bad[1] = 0x80;
  judged_unwritable(bad, sizeof bad);
}

void test_mistakes(void) {
  unwritten_answers();
  unwritten_texts();
  cut_names();
  names_after_a_fault();
  zeros_after_a_fault();
  no_scans();
  copies_of_scans();
  unwritable_scans();
  one_slice_for_both();
  long_blocks();
  junk_between_bundles();
}
