/*
 * A driver for libFuzzer: any bytes into each function of the C library. fuzz/run builds it and
 * runs it.
 *
 * Each call is made twice, into structs and slices that were filled with other bytes, and both
 * answers have to be the same. A call is made again of a prefix of the bytes, of the bytes from an
 * offset on, or with less room, and the answers have to agree. A bundle is also handed over in
 * pieces, and block by block. What is written is read back (fuzz/writing.h, fuzz/bundles.h).
 *
 * The archive has no instruments of its own. So each slice that is lent ends at a page that may not
 * be touched, and begins after bytes that are compared afterwards. What the library returned is
 * counted for libFuzzer in place of the branches that it took.
 */
#define _GNU_SOURCE
#include "bundles.h"

/* -- bundles */

static uint32_t ask_verdict(const uint8_t *bytes, size_t length, struct tcpclkit_verdict *it) {
  struct tcpclkit_verdict again;
  uint32_t status;
  memset(it, 0x11, sizeof *it);
  memset(&again, 0xee, sizeof again);
  status = tcpclkit_judge_bundle(bytes, length, it);
  CHECK(tcpclkit_judge_bundle(bytes, length, &again) == status);
  SAME(*it, again);
  CHECK(status == TCPCLKIT_OK || status == TCPCLKIT_TRUNCATED || status == TCPCLKIT_FAULT);
  if (it->has_payload)
    CHECK(it->payload_offset <= length && it->payload_seen <= length - it->payload_offset);
  return status;
}

/* The verdict on a prefix agrees with that on the whole. */
static void ask_prefix(const uint8_t *bytes, size_t length, size_t cut, uint32_t status,
                       const struct tcpclkit_verdict *whole) {
  struct tcpclkit_verdict prefix;
  uint32_t before = ask_verdict(bytes, cut, &prefix);
  if (before == TCPCLKIT_FAULT) {
    CHECK(status == TCPCLKIT_FAULT);
    SAME(prefix, *whole);
  }
  if (before == TCPCLKIT_TRUNCATED)
    CHECK(prefix.fault.code == TCPCLKIT_BUNDLE_CUT && prefix.fault.offset == cut);
  if (before == TCPCLKIT_OK && cut < length)
    CHECK(whole->fault.code == TCPCLKIT_BUNDLE_TRAILING && whole->fault.offset == cut);
  if (prefix.has_payload)
    CHECK(whole->has_payload && prefix.payload_offset == whole->payload_offset &&
          prefix.payload_seen <= whole->payload_seen);
}

/* Rooms in which each name is whole. */
#define WHOLE_NAMES {TCPCLKIT_EID_LIMIT, TCPCLKIT_EID_LIMIT, TCPCLKIT_EID_LIMIT}

struct names {
  struct tcpclkit_bundle bundle;
  size_t rooms[3];
  uint8_t bytes[3][TCPCLKIT_EID_LIMIT];
};

/* The fields of the primary block that come after those that were accepted are 0. */
static void check_fields(uint32_t status, const struct tcpclkit_bundle *it) {
  uint64_t fields = it->primary_fields;
  CHECK(fields <= (it->is_fragment ? 10u : 8u) && it->primary_whole <= 1);
  CHECK(fields >= 2 || it->flags == 0);
  CHECK((fields >= 4) == (it->destination.kind != 0));
  CHECK((fields >= 5) == (it->source.kind != 0));
  CHECK((fields >= 6) == (it->report_to.kind != 0));
  CHECK(fields >= 7 || (it->time == 0 && it->sequence == 0));
  CHECK(fields >= 8 || it->lifetime == 0);
  CHECK(fields >= 9 || it->fragment_offset == 0);
  CHECK(fields >= 10 || it->fragment_total == 0);
  CHECK(!it->primary_whole || fields == (it->is_fragment ? 10u : 8u));
  CHECK(it->is_fragment == (it->flags & 1));
  if (it->verdict.has_payload || status == TCPCLKIT_OK)
    CHECK(it->primary_whole);
  if (status == TCPCLKIT_TRUNCATED || status == TCPCLKIT_FAULT)
    CHECK(it->blocks == 0 && it->payload_length == 0);
  count(16, fields, it->primary_whole, it->verdict.fault.code);
}

static uint32_t ask_info(const uint8_t *bytes, size_t length, int fill, struct names *it) {
  uint8_t *destination = lend(FIRST, it->rooms[0], fill);
  uint8_t *source = lend(SECOND, it->rooms[1], fill);
  uint8_t *report_to = lend(THIRD, it->rooms[2], fill);
  uint32_t status;
  memset(&it->bundle, fill, sizeof it->bundle);
  status = tcpclkit_describe_bundle(bytes, length, destination, it->rooms[0], source, it->rooms[1],
                                    report_to, it->rooms[2], &it->bundle);
  give_back(FIRST, it->rooms[0]);
  give_back(SECOND, it->rooms[1]);
  give_back(THIRD, it->rooms[2]);
  keeps_rest(destination, it->rooms[0], it->bundle.destination.name_length, fill);
  keeps_rest(source, it->rooms[1], it->bundle.source.name_length, fill);
  keeps_rest(report_to, it->rooms[2], it->bundle.report_to.name_length, fill);
  check_fields(status, &it->bundle);
  memcpy(it->bytes[0], destination, it->rooms[0]);
  memcpy(it->bytes[1], source, it->rooms[1]);
  memcpy(it->bytes[2], report_to, it->rooms[2]);
  return status;
}

/* With less room each name is cut, and nothing else changes but the status of a good bundle, and of
 * a bad one the length of each name. */
static void ask_cut_names(const uint8_t *bytes, size_t length, const struct names *whole,
                          uint32_t wanted, size_t room) {
  const struct tcpclkit_eid *eids[3] = {&whole->bundle.destination, &whole->bundle.source,
                                        &whole->bundle.report_to};
  struct tcpclkit_bundle same = whole->bundle;
  struct tcpclkit_eid *lengths[3] = {&same.destination, &same.source, &same.report_to};
  struct names cut;
  uint32_t status;
  int which;
  cut.rooms[0] = room % (TCPCLKIT_EID_LIMIT + 1);
  cut.rooms[1] = room / 7 % (TCPCLKIT_EID_LIMIT + 1);
  cut.rooms[2] = room / 11 % (TCPCLKIT_EID_LIMIT + 1);
  status = ask_info(bytes, length, 0x33, &cut);
  for (which = 0; which < 3; which++) {
    size_t name = eids[which]->name_length;
    CHECK(memcmp(cut.bytes[which], whole->bytes[which], least(name, cut.rooms[which])) == 0);
    if (wanted != TCPCLKIT_OK && wanted != TCPCLKIT_TOO_SMALL)
      lengths[which]->name_length = least(name, cut.rooms[which]);
    else if (name > cut.rooms[which])
      wanted = TCPCLKIT_TOO_SMALL;
  }
  SAME(cut.bundle, same);
  CHECK(status == wanted);
}

static void ask_texts_of_eid(const struct tcpclkit_eid *eid, const uint8_t *name,
                             size_t name_length, size_t room);
static void ask_texts_of_fault(uint64_t code, uint64_t number, size_t room);

static void ask_bundle(const uint8_t *bytes, size_t length, size_t cut, size_t room) {
  struct names it = {.rooms = WHOLE_NAMES}, again = it;
  struct tcpclkit_verdict verdict;
  uint32_t status = ask_verdict(bytes, length, &verdict);
  CHECK(ask_info(bytes, length, 0x11, &it) == status);
  CHECK(ask_info(bytes, length, 0xee, &again) == status);
  SAME(it.bundle.verdict, verdict);
  SAME(again.bundle.verdict, verdict);
  ask_prefix(bytes, length, cut, status, &verdict);
  count(1, status, verdict.fault.code, verdict.fault.offset);
  SAME(it.bundle, again.bundle);
  if (status != TCPCLKIT_OK)
    ask_texts_of_fault(verdict.fault.code, verdict.fault.number, room);
  ask_cut_names(bytes, length, &it, status, room);
  ask_texts_of_eid(&it.bundle.destination, it.bytes[0], it.bundle.destination.name_length, room);
  ask_texts_of_eid(&it.bundle.source, it.bytes[1], it.bundle.source.name_length, room);
  ask_texts_of_eid(&it.bundle.report_to, it.bytes[2], it.bundle.report_to.name_length, room);
  count(2, it.bundle.source.kind, it.bundle.is_fragment, it.bundle.blocks);
  count(3, it.bundle.destination.kind, it.bundle.flags & 255, it.bundle.payload_length);
}

/* -- bundles in pieces */

/* The block that the bytes taken end in. */
static void ask_block(const uint64_t *scan, size_t length, uint32_t status) {
  struct tcpclkit_block it;
  uint32_t found;
  memset(&it, 0x11, sizeof it);
  found = tcpclkit_raw_judge_block(scan, &it);
  CHECK(found == (it.kind == 0 ? TCPCLKIT_END : TCPCLKIT_OK));
  if (found != TCPCLKIT_OK)
    return;
  CHECK(it.kind == TCPCLKIT_BLOCK_CANONICAL && it.length == 0 && status == TCPCLKIT_GOING_ON);
  CHECK(it.offset < it.data_offset && it.data_offset <= length);
  CHECK(it.data_seen == least(it.data_length, length - it.data_offset));
}

/* What a scan has found is what the bytes that it took are. */
static void compare_scan(uint64_t *scan, const uint8_t *bytes, size_t length, uint32_t status) {
  struct names it = {.rooms = WHOLE_NAMES}, same = it;
  struct tcpclkit_verdict verdict;
  uint8_t *destination = lend(FIRST, it.rooms[0], 0x11), *source = lend(SECOND, it.rooms[1], 0x11);
  uint8_t *report_to = lend(THIRD, it.rooms[2], 0x11);
  memset(&it.bundle, 0x11, sizeof it.bundle);
  CHECK(tcpclkit_raw_judge_scan(scan, &verdict) == status);
  CHECK(tcpclkit_raw_describe_scan(scan, destination, it.rooms[0], source, it.rooms[1], report_to,
                                   it.rooms[2], &it.bundle) == status);
  give_back(FIRST, it.rooms[0]);
  give_back(SECOND, it.rooms[1]);
  give_back(THIRD, it.rooms[2]);
  memcpy(it.bytes[0], destination, it.rooms[0]);
  memcpy(it.bytes[1], source, it.rooms[1]);
  memcpy(it.bytes[2], report_to, it.rooms[2]);
  CHECK(ask_info(bytes, length, 0x11, &same) == status);
  SAME(verdict, same.bundle.verdict);
  SAME(it.bundle, same.bundle);
  SAME(it.bytes, same.bytes);
  ask_block(scan, length, status);
}

/* The verdict at the end of a transfer, of which a scan has taken the first `at` bytes. */
static void ask_end(const uint64_t *scan, const uint8_t *bytes, size_t length, size_t at,
                    uint32_t status) {
  struct tcpclkit_verdict it, same;
  CHECK(tcpclkit_raw_end_scan(scan, length, &it) == ask_verdict(bytes, length, &same));
  SAME(it, same);
  if (at > 0)
    CHECK(tcpclkit_raw_end_scan(scan, at - 1, &it) == TCPCLKIT_RANGE);
  if (status == TCPCLKIT_GOING_ON)
    CHECK(tcpclkit_raw_end_scan(scan, at + 1, &it) == TCPCLKIT_RANGE);
  SAME(it, same);
}

/* Any bytes as a scan: without the mark they are refused, and stay as they are. */
static void ask_no_scan(const uint8_t *bytes, size_t length) {
  static uint64_t other[TCPCLKIT_SCAN_WORDS], before[TCPCLKIT_SCAN_WORDS];
  struct tcpclkit_verdict verdict;
  static const struct tcpclkit_block none = {0};
  struct tcpclkit_block block;
  struct tcpclkit_bundle info;
  uint64_t taken;
  memcpy(other, bytes, least(length, sizeof other));
  memcpy(before, other, sizeof other);
  CHECK(tcpclkit_raw_feed_scan(other, bytes, length, &taken) == TCPCLKIT_RANGE && taken == 0);
  memset(&block, 0x11, sizeof block);
  CHECK(tcpclkit_raw_next_block(other, bytes, length, &taken, &block) == TCPCLKIT_RANGE);
  CHECK(taken == 0);
  SAME(block, none);
  memset(&block, 0x11, sizeof block);
  CHECK(tcpclkit_raw_judge_block(other, &block) == TCPCLKIT_RANGE);
  SAME(block, none);
  CHECK(tcpclkit_raw_judge_scan(other, &verdict) == TCPCLKIT_RANGE);
  CHECK(tcpclkit_raw_end_scan(other, length, &verdict) == TCPCLKIT_RANGE);
  CHECK(tcpclkit_raw_describe_scan(other, ends[FIRST], 0, ends[SECOND], 0, ends[THIRD], 0,
                                   &info) == TCPCLKIT_RANGE);
  SAME(other, before);
}

/* A scan that is fed pieces of this size takes the bytes that belong to the bundle. It is copied
 * before each piece to other memory. */
static void ask_scan(const uint8_t *bytes, size_t length, size_t size, int fill) {
  static uint64_t copy[TCPCLKIT_SCAN_WORDS];
  size_t room = tcpclkit_raw_scan_size(), at = 0, piece;
  uint64_t *scan = (uint64_t *)(void *)lend(MEMORY, room, fill), taken;
  struct tcpclkit_verdict whole;
  uint32_t status;
  CHECK(tcpclkit_raw_start_scan(scan) == TCPCLKIT_OK);
  do {
    piece = least(length - at, size);
    memcpy(copy, scan, room);
    memset(scan, fill, room);
    memcpy(scan, copy, room);
    status = tcpclkit_raw_feed_scan(scan, bytes + at, piece, &taken);
    CHECK(status == TCPCLKIT_TRUNCATED ? taken == piece : taken <= piece);
    at += taken;
  } while (status == TCPCLKIT_TRUNCATED && at < length);
  compare_scan(scan, bytes, at, status);
  ask_end(scan, bytes, length, at, status);
  if (at < length) {
    CHECK(ask_verdict(bytes, length, &whole) == TCPCLKIT_FAULT);
    CHECK(status == TCPCLKIT_FAULT || whole.fault.code == TCPCLKIT_BUNDLE_TRAILING);
    CHECK(tcpclkit_raw_feed_scan(scan, bytes + at, 0, &taken) == status && taken == 0);
    taken = 7;
    CHECK(tcpclkit_raw_feed_scan(scan, bytes + at, length - at, &taken) == TCPCLKIT_SCAN_ENDED);
    CHECK(taken == 0);
    compare_scan(scan, bytes, at, status);
  }
  give_back(MEMORY, room);
}

/* -- block by block */

/* A primary block and at most 64 canonical blocks. */
#define BLOCKS 65

struct blocks {
  struct tcpclkit_block each[BLOCKS];
  size_t count;
};

/* Keeps a block that ends at an offset, after those before it. */
static void keep_block(struct blocks *it, const struct tcpclkit_block *block, size_t end) {
  const struct tcpclkit_block *before = it->count > 0 ? &it->each[it->count - 1] : NULL;
  CHECK(it->count < BLOCKS);
  CHECK(block->kind == (before ? TCPCLKIT_BLOCK_CANONICAL : TCPCLKIT_BLOCK_PRIMARY));
  CHECK(block->offset == (before ? before->offset + before->length : 1));
  CHECK(block->offset + block->length == end && block->check <= TCPCLKIT_CHECK_CRC32);
  if (before)
    CHECK(block->data_offset > block->offset && block->data_offset + block->data_length <= end);
  count(21, it->count, block->block_type & 15, block->data_length);
  it->each[it->count++] = *block;
}

/* Takes a bundle block by block, in pieces of this size. */
static void take_blocks(const uint8_t *bytes, size_t length, size_t size, int fill,
                        struct blocks *it) {
  size_t room = tcpclkit_raw_scan_size(), at = 0, piece;
  uint64_t *scan = (uint64_t *)(void *)lend(MEMORY, room, fill), taken;
  struct tcpclkit_block block;
  uint32_t status;
  memset(it, 0, sizeof *it);
  CHECK(tcpclkit_raw_start_scan(scan) == TCPCLKIT_OK);
  do {
    memset(&block, fill, sizeof block);
    piece = least(length - at, size);
    status = tcpclkit_raw_next_block(scan, bytes + at, piece, &taken, &block);
    at += taken;
    if (block.kind != 0)
      keep_block(it, &block, at);
    CHECK(taken == piece ||
          (taken < piece && (block.kind != 0 || status != TCPCLKIT_TRUNCATED)));
  } while (status == TCPCLKIT_TRUNCATED && taken > 0);
  compare_scan(scan, bytes, at, status);
  give_back(MEMORY, room);
}

static uint32_t ask_words(const struct tcpclkit_block *primary, const struct tcpclkit_block *block,
                          const uint8_t *data, size_t length, size_t room);

/* The pieces make no difference to the blocks. The data of each has words, and each is written
 * again. */
static void ask_blocks(const uint8_t *bytes, size_t length, size_t size) {
  static struct blocks whole, pieces;
  struct names names = {.rooms = WHOLE_NAMES};
  size_t at;
  take_blocks(bytes, length, length + 1, 0x11, &whole);
  take_blocks(bytes, length, size, 0xee, &pieces);
  SAME(whole, pieces);
  if (whole.count > 0) {
    ask_info(bytes, length, 0x11, &names);
    ask_rewritten_primary(bytes, &names.bundle, whole.each, names.bytes[0], names.bytes[1],
                          names.bytes[2], size);
  }
  for (at = 1; at < whole.count; at++) {
    const struct tcpclkit_block *it = &whole.each[at];
    CHECK(ask_words(whole.each, it, bytes + it->data_offset, it->data_length, size) ==
          TCPCLKIT_OK);
    ask_rewritten_block(bytes, it, size);
  }
}

/* -- texts */

/* A text with less room is cut. */
static void compare_texts(const uint8_t *text, uint64_t written, uint32_t status,
                          const uint8_t *cut, uint64_t cut_written, size_t room) {
  CHECK(cut_written == least(written, room));
  CHECK(status == (written > room ? TCPCLKIT_TOO_SMALL : TCPCLKIT_OK));
  CHECK(memcmp(text, cut, cut_written) == 0);
}

static void ask_texts_of_fault(uint64_t code, uint64_t number, size_t room) {
  uint64_t written = 0, cut = 0;
  uint8_t *text = lend(FIRST, 64, 0x11), *other = lend(SECOND, room %= 66, 0xee);
  uint32_t status = tcpclkit_write_fault_text(code, number, text, 64, &written);
  uint32_t again = tcpclkit_write_fault_text(code, number, other, room, &cut);
  give_back(FIRST, 64);
  give_back(SECOND, room);
  keeps_rest(text, 64, written, 0x11);
  keeps_rest(other, room, cut, 0xee);
  count(4, status, code, number);
  CHECK(status == TCPCLKIT_OK || (status == TCPCLKIT_RANGE && again == TCPCLKIT_RANGE));
  if (status == TCPCLKIT_OK)
    compare_texts(text, written, again, other, cut, room);
}

static void ask_texts_of_eid(const struct tcpclkit_eid *eid, const uint8_t *name,
                             size_t name_length, size_t room) {
  uint64_t written = 0, cut = 0;
  uint8_t *text = lend(FIRST, 4100, 0x11), *other = lend(SECOND, room %= 4200, 0xee);
  uint32_t status = tcpclkit_write_eid_text(eid, name, name_length, text, 4100, &written);
  uint32_t again = tcpclkit_write_eid_text(eid, name, name_length, other, room, &cut);
  give_back(FIRST, 4100);
  give_back(SECOND, room);
  keeps_rest(text, 4100, written, 0x11);
  keeps_rest(other, room, cut, 0xee);
  count(5, status, eid->kind, written);
  CHECK(status == TCPCLKIT_OK || (status == TCPCLKIT_RANGE && again == TCPCLKIT_RANGE));
  if (status == TCPCLKIT_OK)
    compare_texts(text, written, again, other, cut, room);
}

/* The words of some data. Returns the status with enough room. */
static uint32_t ask_words(const struct tcpclkit_block *primary, const struct tcpclkit_block *block,
                          const uint8_t *data, size_t length, size_t room) {
  uint64_t written = 0, cut = 0;
  uint8_t *text = lend(FIRST, 4500, 0x11), *other = lend(SECOND, room %= 4600, 0xee);
  uint32_t status =
      tcpclkit_read_block_data(primary, block, data, length, text, 4500, &written);
  uint32_t again = tcpclkit_read_block_data(primary, block, data, length, other, room, &cut);
  give_back(FIRST, 4500);
  give_back(SECOND, room);
  keeps_rest(text, 4500, written, 0x11);
  keeps_rest(other, room, cut, 0xee);
  count(28, status, block->block_type & 15, written);
  CHECK(status == TCPCLKIT_OK || (status == TCPCLKIT_RANGE && again == TCPCLKIT_RANGE));
  if (status == TCPCLKIT_OK)
    compare_texts(text, written, again, other, cut, room);
  return status;
}

/* -- recordings */

static void ask_contact(const uint8_t *bytes, size_t length, size_t cut) {
  struct tcpclkit_contact it, again;
  uint32_t status, before;
  memset(&it, 0x11, sizeof it);
  memset(&again, 0xee, sizeof again);
  status = tcpclkit_read_contact(bytes, length, &it);
  CHECK(tcpclkit_read_contact(bytes, length, &again) == status);
  SAME(it, again);
  if (status == TCPCLKIT_OK)
    count(6, status, 0, it.flags);
  else
    count(6, status, it.fault.code, it.fault.number);
  before = tcpclkit_read_contact(bytes, cut, &again);
  CHECK(before == (cut < TCPCLKIT_CONTACT_LENGTH ? TCPCLKIT_TRUNCATED : status));
  if (before == status)
    SAME(it, again);
}

static uint32_t ask_message(const uint8_t *bytes, size_t length, uint64_t offset,
                            struct tcpclkit_message *it) {
  struct tcpclkit_message again;
  uint32_t status;
  memset(it, 0x11, sizeof *it);
  memset(&again, 0xee, sizeof again);
  status = tcpclkit_read_message(bytes, length, offset, it);
  CHECK(tcpclkit_read_message(bytes, length, offset, &again) == status);
  CHECK((status == TCPCLKIT_RANGE) == (offset > length));
  CHECK((status == TCPCLKIT_END) == (offset == length));
  if (status == TCPCLKIT_OK || status == TCPCLKIT_DATA_TRUNCATED)
    CHECK(it->data_offset <= length && it->data_offset > offset);
  if (status == TCPCLKIT_OK)
    CHECK(it->next <= length && it->next - it->data_offset == it->data_length &&
          it->data_seen == it->data_length && it->fault.code == TCPCLKIT_NO_FAULT);
  if (status == TCPCLKIT_DATA_TRUNCATED)
    CHECK(it->fault.code == TCPCLKIT_WIRE_TRUNCATED && it->fault.offset == offset &&
          it->data_seen == length - it->data_offset && it->next > length);
  if (status == TCPCLKIT_TRUNCATED || status == TCPCLKIT_FAULT)
    CHECK(it->kind == 0 && it->data_offset == 0 && it->next == 0);
  SAME_ANSWER(status, *it, again);
  return status;
}

/* A message that a prefix has whole is that of all bytes, and so is a fault of a prefix. */
static void ask_message_of_prefix(const uint8_t *bytes, size_t length, uint64_t offset, size_t cut,
                                  uint32_t status, const struct tcpclkit_message *whole) {
  struct tcpclkit_message prefix;
  uint32_t before;
  if (cut < offset || cut > length)
    return;
  before = ask_message(bytes, cut, offset, &prefix);
  if (before == TCPCLKIT_OK || before == TCPCLKIT_FAULT) {
    CHECK(status == before);
    SAME_ANSWER(status, prefix, *whole);
  }
  if (before == TCPCLKIT_DATA_TRUNCATED) {
    CHECK(status == TCPCLKIT_OK || status == TCPCLKIT_DATA_TRUNCATED);
    CHECK(prefix.data_offset == whole->data_offset && prefix.data_length == whole->data_length);
  }
}

/* The message is also there if the bytes before it are not. */
static void ask_message_alone(const uint8_t *bytes, size_t length, uint64_t offset, uint32_t status,
                              const struct tcpclkit_message *whole) {
  struct tcpclkit_message alone;
  CHECK(ask_message(bytes + offset, length - offset, 0, &alone) == status);
  CHECK(alone.kind == whole->kind && alone.flags == whole->flags && alone.id == whole->id);
  CHECK(alone.reason == whole->reason && alone.acknowledged == whole->acknowledged);
  CHECK(alone.items_length == whole->items_length && alone.node_length == whole->node_length);
  CHECK(alone.data_offset + offset == whole->data_offset);
  CHECK(alone.data_length == whole->data_length && alone.fault.code == whole->fault.code);
}

/* Reads all items of a message from an offset on, or the bytes of a list that was not judged. */
static void ask_items(const uint8_t *bytes, size_t length, const struct tcpclkit_message *message,
                      uint64_t offset, int is_judged) {
  uint64_t end = message->items_offset + message->items_length;
  int has_list = message->kind == TCPCLKIT_SESS_INIT || message->kind == TCPCLKIT_XFER_SEGMENT;
  struct tcpclkit_item it, again;
  uint32_t status;
  has_list = has_list && message->items_length <= LIST_MOST && end <= length;
  for (;;) {
    memset(&it, 0x11, sizeof it);
    memset(&again, 0xee, sizeof again);
    status = tcpclkit_read_item(bytes, length, message, offset, &it);
    CHECK(tcpclkit_read_item(bytes, length, message, offset, &again) == status);
    CHECK((status != TCPCLKIT_RANGE) ==
          (has_list && message->items_offset <= offset && offset <= end));
    SAME_ANSWER(status, it, again);
    if (status != TCPCLKIT_OK)
      break;
    count(7, it.item_type & 15, it.has_total, it.value_length);
    CHECK(it.next <= end && it.next - it.value_length == it.value_offset);
    CHECK(it.value_offset == offset + 5);
    CHECK(message->kind == TCPCLKIT_XFER_SEGMENT || it.has_total == 0);
    offset = it.next;
  }
  if (is_judged)
    CHECK(status == TCPCLKIT_END);
}

/* What the items of a segment announce is what they say one by one. */
static void ask_announced(const uint8_t *bytes, size_t length,
                          const struct tcpclkit_message *message, int is_judged) {
  struct tcpclkit_announced it, again;
  struct tcpclkit_item item;
  uint64_t lengths = 0, totals = 0, total = 0;
  uint32_t status;
  memset(&it, 0x11, sizeof it);
  memset(&again, 0xee, sizeof again);
  status = tcpclkit_read_announced(bytes, length, message, &it);
  CHECK(tcpclkit_read_announced(bytes, length, message, &again) == status);
  SAME_ANSWER(status, it, again);
  if (status != TCPCLKIT_OK) {
    CHECK(status == TCPCLKIT_RANGE && !(is_judged && message->kind == TCPCLKIT_XFER_SEGMENT));
    return;
  }
  item.next = message->items_offset;
  while (tcpclkit_read_item(bytes, length, message, item.next, &item) == TCPCLKIT_OK) {
    lengths += item.item_type == 1;
    totals += item.has_total;
    total = item.has_total ? item.total : total;
  }
  CHECK(it.kind == (lengths == 0 ? TCPCLKIT_ANNOUNCED_NONE
                                 : lengths == 1 && totals == 1 ? TCPCLKIT_ANNOUNCED_TOTAL
                                                               : TCPCLKIT_ANNOUNCED_BADLY));
  CHECK(it.total == (it.kind == TCPCLKIT_ANNOUNCED_TOTAL ? total : 0));
  count(27, it.kind, 0, it.total);
}

/* -- the order of messages */

/* A message that is taken has the fault that the order judges, and without one the same turn. */
static void ask_take(struct tcpclkit_order order, const struct tcpclkit_message *message,
                     uint32_t judged, const struct tcpclkit_turn *turn,
                     const struct tcpclkit_order *after) {
  struct tcpclkit_order before = order;
  struct tcpclkit_turn it;
  memset(&it, 0x33, sizeof it);
  CHECK(tcpclkit_take_message(&order, message, &it) == judged);
  if (judged == TCPCLKIT_RANGE) {
    SAME(order, before);
    return;
  }
  CHECK(it.fault == turn->fault);
  if (judged == TCPCLKIT_OK) {
    SAME(it, *turn);
    SAME(order, *after);
  }
  if (!before.is_open)
    before.transfer = 0; /* No transfer has a meaning then, and the call leaves 0. */
  if (it.turn == TCPCLKIT_TURN_STRAY)
    SAME(order, before);
  count(15, it.turn, it.fault, it.abandons * 2 + it.last);
}

static void ask_order(struct tcpclkit_order *order, const struct tcpclkit_message *message) {
  struct tcpclkit_order before = *order, again = *order;
  struct tcpclkit_turn it, other;
  uint32_t status;
  memset(&it, 0x11, sizeof it);
  memset(&other, 0xee, sizeof other);
  status = tcpclkit_judge_message(order, message, &it);
  CHECK(tcpclkit_judge_message(&again, message, &other) == status);
  SAME(*order, again);
  SAME_ANSWER(status, it, other);
  if (status == TCPCLKIT_OK)
    count(8, it.turn, it.abandons, order->is_open);
  else
    SAME(*order, before);
  if (status == TCPCLKIT_FAULT)
    count(8, status, it.fault, 0);
  ask_take(before, message, status, &it, order);
}

/* Reads messages from an offset on, and judges their order from some state on. */
static void ask_recording(const uint8_t *bytes, size_t length, uint64_t offset, size_t cut,
                          const uint64_t *numbers, struct tcpclkit_order order) {
  struct tcpclkit_message it;
  uint32_t status;
  unsigned messages = 0;
  while ((status = ask_message(bytes, length, offset, &it)) == TCPCLKIT_OK ||
         status == TCPCLKIT_DATA_TRUNCATED) {
    count(9, it.kind, status, it.data_length);
    count(10, messages < 9 ? messages++ : 9, it.kind, it.flags);
    ask_message_alone(bytes, length, offset, status, &it);
    ask_message_of_prefix(bytes, length, offset, cut, status, &it);
    ask_rewritten(bytes, offset, &it, cut);
    ask_answer(&it, numbers);
    if (it.kind == TCPCLKIT_XFER_ACK || it.kind == TCPCLKIT_XFER_REFUSE)
      it.flags &= 255;
    ask_order(&order, &it);
    if (it.kind == TCPCLKIT_SESS_INIT || (it.kind == TCPCLKIT_XFER_SEGMENT && it.flags & 2))
      ask_items(bytes, length, &it, it.items_offset, 1);
    ask_announced(bytes, length, &it, 1);
    if (status != TCPCLKIT_OK)
      return;
    offset = it.next;
  }
  if (status == TCPCLKIT_FAULT || status == TCPCLKIT_TRUNCATED) {
    count(11, status, it.fault.code, it.fault.number);
    ask_message_of_prefix(bytes, length, offset, cut, status, &it);
    ask_texts_of_fault(it.fault.code, it.fault.number, cut);
  }
}

/* -- whole tools */

/* More room than most runs need, and the texts of a run with that room. */
#define ROOM 65536
static uint8_t kept[2][ROOM];

struct texts {
  uint8_t *bytes[2];
  size_t rooms[2];
  struct tcpclkit_run run;
};

static uint32_t call_tool(const uint8_t *bytes, size_t length, const uint64_t *numbers,
                          struct texts *it) {
  struct tcpclkit_unpack_options unpack = {sizeof unpack - numbers[5] % 6 * 8, numbers[1] % 3,
                                           numbers[2] % 5, numbers[3] % 3, numbers[4] % 3};
  struct tcpclkit_blocks_options blocks = {sizeof blocks - numbers[5] % 6 * 8, numbers[1] % 3,
                                           numbers[2] % 5, numbers[3] % 3, numbers[4] % 3};
  struct tcpclkit_check_options check = {sizeof check - numbers[5] % 8 * 8, numbers[1] % 3,
                                         numbers[2] % 3, numbers[3] % 99, numbers[4] % 3,
                                         numbers[1] % 999, numbers[3] % 3};
  struct tcpclkit_pack_options pack = {
      sizeof pack - numbers[5] % 9 * 8, numbers[1] % 65537, numbers[2],           numbers[3],
      numbers[4] % 4096,                numbers[5],         numbers[1] % 1048577, numbers[2] % 3};
  struct tcpclkit_more_options more = {sizeof more - numbers[5] % 6 * 8,
                                       numbers[2] >> numbers[3] % 64, numbers[4] % 4096,
                                       numbers[5], numbers[1] % 1048577};
  size_t node = least(numbers[3] % 1026, length);
  if (numbers[0] % 6 == 0)
    return tcpclkit_list(bytes, length, it->bytes[0], it->rooms[0], it->bytes[1], it->rooms[1],
                         &it->run);
  if (numbers[0] % 6 == 1)
    return tcpclkit_unpack(bytes, length, &unpack, it->bytes[0], it->rooms[0], it->bytes[1],
                           it->rooms[1], &it->run);
  if (numbers[0] % 6 == 2)
    return tcpclkit_blocks(bytes, length, &blocks, it->bytes[0], it->rooms[0], it->bytes[1],
                           it->rooms[1], &it->run);
  if (numbers[0] % 6 == 3)
    return tcpclkit_check(bytes, length, &check, it->bytes[0], it->rooms[0], it->bytes[1],
                          it->rooms[1], &it->run);
  if (numbers[0] % 6 == 4)
    return tcpclkit_pack_more(bytes, length, &more, it->bytes[0], it->rooms[0], it->bytes[1],
                              it->rooms[1], &it->run);
  return tcpclkit_pack(bytes, length, &pack, bytes, node, it->bytes[0], it->rooms[0], it->bytes[1],
                       it->rooms[1], &it->run);
}

static uint32_t run_tool(const uint8_t *bytes, size_t length, const uint64_t *numbers, int fill,
                         struct texts *it) {
  uint32_t status;
  it->bytes[0] = lend(FIRST, it->rooms[0], fill);
  it->bytes[1] = lend(SECOND, it->rooms[1], fill);
  memset(&it->run, fill, sizeof it->run);
  status = call_tool(bytes, length, numbers, it);
  give_back(FIRST, it->rooms[0]);
  give_back(SECOND, it->rooms[1]);
  if (status == TCPCLKIT_RANGE) {
    keeps_rest(it->bytes[0], it->rooms[0], 0, fill);
    keeps_rest(it->bytes[1], it->rooms[1], 0, fill);
    return status;
  }
  keeps_rest(it->bytes[0], it->rooms[0], it->run.output_length, fill);
  keeps_rest(it->bytes[1], it->rooms[1], it->run.report_length, fill);
  CHECK(status == (it->run.output_length > it->rooms[0] || it->run.report_length > it->rooms[1]
                       ? TCPCLKIT_TOO_SMALL
                       : TCPCLKIT_OK));
  return status;
}

/* With less room the texts are cut, and nothing else changes. */
static void ask_tool(const uint8_t *bytes, size_t length, const uint64_t *numbers, size_t room) {
  struct texts it = {.rooms = {ROOM, ROOM}};
  struct texts cut = {.rooms = {room % 2048, room / 16 % 512}};
  uint32_t status = run_tool(bytes, length, numbers, 0x11, &it);
  if (status == TCPCLKIT_RANGE) {
    CHECK(run_tool(bytes, length, numbers, 0xee, &cut) == status);
    return;
  }
  memcpy(kept[0], it.bytes[0], least(it.run.output_length, it.rooms[0]));
  memcpy(kept[1], it.bytes[1], least(it.run.report_length, it.rooms[1]));
  run_tool(bytes, length, numbers, 0xee, &cut);
  SAME(it.run, cut.run);
  CHECK(memcmp(kept[0], cut.bytes[0], least(it.run.output_length, cut.rooms[0])) == 0);
  CHECK(memcmp(kept[1], cut.bytes[1], least(it.run.report_length, cut.rooms[1])) == 0);
  if (status == TCPCLKIT_OK)
    count(22 + numbers[0] % 6, it.run.exit_status, it.run.report_length, it.run.output_length);
}

/* After the contact header and a SESS_INIT without a node ID, pack writes what pack_more writes
 * with the first ID 0. */
static void ask_more(const uint8_t *bytes, size_t length, const uint64_t *numbers) {
  const size_t prelude = TCPCLKIT_CONTACT_LENGTH + TCPCLKIT_SESS_INIT_LENGTH;
  struct tcpclkit_pack_options pack;
  struct tcpclkit_more_options more;
  struct tcpclkit_run run, other;
  uint8_t *output = lend(FIRST, ROOM, 0x11), *report = lend(SECOND, ROOM, 0x11);
  uint32_t status;
  tcpclkit_pack_defaults(&pack);
  tcpclkit_more_defaults(&more);
  pack.peer_segment = more.peer_segment = 1 + numbers[4] % 4096;
  pack.peer_transfer = more.peer_transfer = numbers[5];
  pack.announce = more.announce = numbers[1] % 1048577;
  status = tcpclkit_pack(bytes, length, &pack, NULL, 0, output, ROOM, report, ROOM, &run);
  memcpy(kept[0], output, ROOM);
  memcpy(kept[1], report, ROOM);
  CHECK(tcpclkit_pack_more(bytes, length, &more, output, ROOM, report, ROOM, &other) == status ||
        (status == TCPCLKIT_TOO_SMALL && run.output_length - prelude <= ROOM));
  CHECK(other.output_length + prelude == run.output_length);
  CHECK(other.report_length == run.report_length && other.exit_status == run.exit_status);
  CHECK(memcmp(kept[0] + prelude, output, least(other.output_length, ROOM - prelude)) == 0);
  CHECK(memcmp(kept[1], report, least(run.report_length, ROOM)) == 0);
}

/* -- any numbers */

/* Asks about numbers that no bytes lead to. */
static void ask_numbers(const uint8_t *bytes, size_t length, const uint64_t *numbers) {
  size_t name = least(numbers[4] % 1200, length);
  struct tcpclkit_eid eid = {numbers[0] % 6, numbers[1], numbers[2], numbers[3],
                             name + (numbers[5] % 7 == 0)};
  struct tcpclkit_order order = {numbers[0] % 3, numbers[1] % 3, numbers[2] % 3, numbers[3]};
  struct tcpclkit_message message = {.kind = numbers[4] % 10, .flags = numbers[5] % 300,
                                     .id = numbers[3],
                                     .items_offset = numbers[2] % (length + 3),
                                     .items_length = numbers[3] % (length + 3)};
  struct tcpclkit_block primary = {.kind = 1 + (numbers[4] % 99 == 0), .flags = numbers[0] & 7};
  struct tcpclkit_block block = {.kind = 2 - (numbers[4] % 99 == 1),
                                 .block_type = numbers[1] & 15,
                                 .data_offset = numbers[2] >> numbers[5] % 64,
                                 .data_length = name + (numbers[5] % 7 == 0)};
  ask_words(&primary, &block, bytes, name, numbers[5] & 8191);
  ask_texts_of_eid(&eid, bytes, name, numbers[5] & 8191);
  ask_texts_of_fault(numbers[0] % 130, numbers[1] >> numbers[2] % 64, numbers[5] & 127);
  ask_order(&order, &message);
  ask_items(bytes, length, &message, numbers[1] % (length + 3), 0);
  ask_announced(bytes, length, &message, 0);
  ask_message(bytes, length, numbers[4], &message);
}

int LLVMFuzzerInitialize(int *count_of_arguments, char ***arguments) {
  (void)count_of_arguments;
  (void)arguments;
  make_slices();
  CHECK(tcpclkit_abi() == TCPCLKIT_ABI);
  return 0;
}

int LLVMFuzzerTestOneInput(const uint8_t *data, size_t size) {
  static const struct tcpclkit_order begun = {1, 0, 0, 0};
  struct tcpclkit_order none;
  struct source from = {0};
  uint64_t numbers[6] = {0};
  size_t length = least(size, MOST), cut;
  uint8_t *bytes = lend(INPUT, length, 0);
  memcpy(bytes, data, length);
  memcpy(numbers, data + (size - least(size, sizeof numbers)), least(size, sizeof numbers));
  cut = (numbers[0] >> 5) % (length + 1);
  from.bytes = bytes;
  from.length = length;
  ask_bundle(bytes, length, cut, numbers[1] & 8191);
  ask_scan(bytes, length, length + 1, 0x11);
  ask_no_scan(bytes, length);
  ask_scan(bytes, length, 1 + numbers[1] % 64, 0xee);
  ask_blocks(bytes, length, 1 + numbers[1] % 64);
  ask_contact(bytes, length, cut);
  memset(&none, 0x11, sizeof none);
  CHECK(tcpclkit_start_order(&none) == TCPCLKIT_OK);
  ask_recording(bytes, length, TCPCLKIT_CONTACT_LENGTH, cut, numbers, none);
  ask_recording(bytes, length, 0, cut, numbers, begun);
  ask_numbers(bytes, length, numbers);
  ask_session(from);
  ask_made_bundle(from);
  ask_texts_of_eids(bytes, length, numbers[1], numbers[0] % 1100);
  ask_names(numbers);
  ask_tool(bytes, length, numbers, numbers[5] & 65535);
  ask_more(bytes, length, numbers);
  give_back(INPUT, length);
  CHECK(memcmp(bytes, data, length) == 0);
  return 0;
}
