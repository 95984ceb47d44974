/* The same of a bundle as fuzz/writing.h does of a session, and of the texts of endpoint IDs. */
#ifndef TCPCLKIT_BUNDLES_H
#define TCPCLKIT_BUNDLES_H

#include "writing.h"

#define MADE 64

struct made {
  struct tcpclkit_bundle bundle;
  uint64_t check;
  uint8_t names[3][TCPCLKIT_EID_LIMIT + 1];
  struct tcpclkit_block blocks[1 + MADE];
  size_t count; /* with the primary block */
};

static void draw_eid(struct source *it, struct tcpclkit_eid *eid, uint8_t *name) {
  size_t length = draw_byte(it);
  memset(eid, 0, sizeof *eid);
  eid->kind = length > 250 ? length % 7 : 1 + length % 4;
  if (eid->kind == TCPCLKIT_EID_DTN) {
    length = draw_byte(it);
    length = length < 230 ? length % 30 : length < 250 ? length : 1000u + draw_byte(it) % 26;
    eid->name_length = length;
    memcpy(name, length == 4 ? (const uint8_t *)"none" : draw_bytes(it, length), length);
  }
  if (eid->kind == TCPCLKIT_EID_IPN3)
    eid->allocator = draw(it);
  if (eid->kind == TCPCLKIT_EID_IPN || eid->kind == TCPCLKIT_EID_IPN3) {
    eid->node = draw(it);
    eid->service = draw(it);
  }
}

static int is_eid(const struct tcpclkit_eid *eid) {
  return eid->kind >= 1 && eid->kind <= 4 && eid->name_length <= TCPCLKIT_EID_LIMIT;
}

/* The text of an endpoint ID is read as this endpoint ID. Only the name `none` has another's. */
static void ask_eid(const struct tcpclkit_eid *eid, const uint8_t *name, size_t room) {
  static uint8_t text[4100];
  struct tcpclkit_eid it, again;
  size_t length = eid->name_length;
  uint64_t written;
  uint8_t *slice;
  uint32_t status = tcpclkit_write_eid_text(eid, name, length, text, sizeof text, &written);
  CHECK((status == TCPCLKIT_OK) == is_eid(eid));
  if (status != TCPCLKIT_OK)
    return;
  slice = lend(THIRD, room, 0x11);
  status = tcpclkit_read_eid_text(text, written, &it, slice, room);
  give_back(THIRD, room);
  if (eid->kind == TCPCLKIT_EID_DTN && length == 4 && memcmp(name, "none", 4) == 0) {
    CHECK(status == TCPCLKIT_OK && it.kind == TCPCLKIT_EID_DTN_NONE && it.name_length == 0);
    return;
  }
  CHECK(status == (length <= room ? TCPCLKIT_OK : TCPCLKIT_TOO_SMALL));
  keeps_rest(slice, room, status == TCPCLKIT_OK ? length : 0, 0x11);
  slice = lend(THIRD, length, 0x11);
  CHECK(tcpclkit_read_eid_text(text, written, &again, slice, length) == TCPCLKIT_OK);
  give_back(THIRD, length);
  SAME(it, again);
  SAME(it, *eid);
  CHECK(memcmp(slice, name, length) == 0);
}

/* A text that is read is the text of what was read, and no other text is. */
static void ask_text_of_eid(const uint8_t *bytes, size_t length, size_t room) {
  static uint8_t text[4101];
  static const struct tcpclkit_eid none = {0, 0, 0, 0, 0};
  struct tcpclkit_eid it, again;
  uint8_t *slice = lend(THIRD, room, 0x11), *whole;
  uint64_t written;
  uint32_t status;
  memset(&it, 0xee, sizeof it);
  status = tcpclkit_read_eid_text(bytes, length, &it, slice, room);
  give_back(THIRD, room);
  keeps_rest(slice, room, status == TCPCLKIT_OK ? it.name_length : 0, 0x11);
  count(34, status, it.kind, it.name_length);
  if (status == TCPCLKIT_RANGE) {
    SAME(it, none);
    return;
  }
  CHECK(status == (it.name_length > room ? TCPCLKIT_TOO_SMALL : TCPCLKIT_OK));
  whole = lend(SECOND, it.name_length, 0xee);
  CHECK(tcpclkit_read_eid_text(bytes, length, &again, whole, it.name_length) == TCPCLKIT_OK);
  give_back(SECOND, it.name_length);
  SAME(it, again);
  CHECK(tcpclkit_write_eid_text(&it, whole, it.name_length, text, sizeof text, &written) ==
        TCPCLKIT_OK);
  CHECK(written == length && memcmp(text, bytes, length) == 0);
}

/* The same of some bytes of the input, with a scheme before them, and without what comes after the
 * visible characters among them. */
static void ask_texts_of_eids(const uint8_t *bytes, size_t length, size_t from, size_t room) {
  static uint8_t text[4200];
  size_t size = 4;
  from %= length + 1;
  memcpy(text, room % 2 ? "ipn:" : "dtn:", 4);
  memcpy(text + 4, bytes + from, least(length - from, sizeof text - 4));
  ask_text_of_eid(bytes + from, least(length - from, 4200), room);
  ask_text_of_eid(text, 4 + least(length - from, sizeof text - 4), room);
  while (size < 4 + least(length - from, sizeof text - 4) && text[size] > ' ' && text[size] < 127)
    size++;
  ask_text_of_eid(text, size, room);
}

/* The primary block of a bundle. Returns whether it was written. */
static int make_primary(struct source *it, struct made *made) {
  struct tcpclkit_bundle *bundle = &made->bundle;
  uint8_t choice = draw_byte(it);
  int fits;
  uint32_t status;
  memset(bundle, choice, sizeof *bundle);
  bundle->flags = draw(it);
  bundle->time = draw(it);
  bundle->sequence = draw(it);
  bundle->lifetime = draw(it);
  bundle->is_fragment = choice > 250 ? draw(it) % 4 : bundle->flags & 1;
  bundle->fragment_offset = bundle->is_fragment || choice > 252 ? draw(it) : 0;
  bundle->fragment_total = bundle->is_fragment || choice > 252 ? draw(it) : 0;
  draw_eid(it, &bundle->destination, made->names[0]);
  draw_eid(it, &bundle->source, made->names[1]);
  draw_eid(it, &bundle->report_to, made->names[2]);
  made->check = choice % 32 == 31 ? draw(it) : choice % 3;
  WRITE(status, draw_below(it, TCPCLKIT_PRIMARY_ROOM + 9),
        tcpclkit_write_primary(bundle, made->check, made->names[0], bundle->destination.name_length,
                               made->names[1], bundle->source.name_length, made->names[2],
                               bundle->report_to.name_length, INTO));
  fits = is_eid(&bundle->destination) && is_eid(&bundle->source) && is_eid(&bundle->report_to) &&
         made->check <= 2 && bundle->is_fragment == (bundle->flags & 1) &&
         (bundle->is_fragment || !(bundle->fragment_offset | bundle->fragment_total));
  CHECK((status == TCPCLKIT_OK) == fits);
  if (fits) {
    struct tcpclkit_block *block = &made->blocks[0];
    CHECK(into.written.count <= TCPCLKIT_PRIMARY_ROOM);
    memset(block, 0, sizeof *block);
    block->kind = TCPCLKIT_BLOCK_PRIMARY;
    block->offset = 1;
    block->length = into.written.count;
    block->flags = bundle->flags;
    block->check = made->check;
    append(into.bytes, into.written.count);
  }
  return fits;
}

/* The data of a block, and the words that tcpclkit_read_block_data has for it, if any are known. */
static size_t make_data(struct source *it, uint64_t block_type, uint8_t *data, char *words) {
  static uint8_t name[TCPCLKIT_EID_LIMIT + 1], text[4100];
  uint64_t one = draw(it), other = draw(it), written;
  struct tcpclkit_eid eid;
  uint32_t status = TCPCLKIT_OK;
  size_t length;
  words[0] = 0;
  if (block_type == 6) {
    draw_eid(it, &eid, name);
    WRITE(status, draw_below(it, TCPCLKIT_EID_ROOM + 9),
          tcpclkit_write_eid(&eid, name, eid.name_length, INTO));
    CHECK((status == TCPCLKIT_OK) == is_eid(&eid) && into.written.count <= TCPCLKIT_EID_ROOM);
    ask_eid(&eid, name, draw_below(it, 1200));
    if (status == TCPCLKIT_OK) {
      CHECK(tcpclkit_write_eid_text(&eid, name, eid.name_length, text, sizeof text, &written) ==
            TCPCLKIT_OK);
      sprintf(words, "node=%.*s", (int)written, (const char *)text);
    }
  } else if (block_type == 7) {
    WRITE(status, draw_below(it, 12), tcpclkit_write_age(one, INTO));
    CHECK(status == TCPCLKIT_OK && into.written.count <= TCPCLKIT_AGE_ROOM);
    sprintf(words, "age=%llu", (unsigned long long)one);
  } else if (block_type == 10) {
    WRITE(status, draw_below(it, 30), tcpclkit_write_hop_count(one, other, INTO));
    CHECK(status == TCPCLKIT_OK && into.written.count <= TCPCLKIT_HOP_COUNT_ROOM);
    sprintf(words, "limit=%llu count=%llu", (unsigned long long)one, (unsigned long long)other);
  } else {
    length = draw_byte(it);
    length = length < 250 ? length % 60 : draw_below(it, 65536);
    memcpy(data, draw_bytes(it, length), length);
    return length;
  }
  length = status == TCPCLKIT_OK ? into.written.count : 0;
  memcpy(data, into.bytes, length);
  return length;
}

/* The check value of a block that was appended from an offset on, fed in pieces. */
static void append_check(struct source *it, uint64_t kind, size_t offset) {
  struct tcpclkit_crc fed, copy;
  size_t at = offset, piece, size = 1 + draw_below(it, 300) + (streamed - offset) / 64;
  uint32_t status = tcpclkit_start_check(&fed, kind);
  CHECK(status == (kind == 0 ? TCPCLKIT_RANGE : TCPCLKIT_OK));
  for (; at < streamed; at += piece) {
    piece = least(streamed - at, draw_byte(it) % 8 ? size : size + draw_below(it, 4000));
    copy = fed;
    memset(&fed, 0x33, sizeof fed);
    CHECK(tcpclkit_feed_check(&copy, stream + at, piece) == status);
    fed = copy;
    CHECK(tcpclkit_feed_check(&fed, stream, 0) == status);
    SAME(fed, copy);
  }
  WRITE(status, draw_below(it, 7), tcpclkit_write_check(&fed, INTO));
  CHECK(status == (kind == 0 ? TCPCLKIT_RANGE : TCPCLKIT_OK));
  CHECK(into.written.count == (kind == 0 ? 0 : kind == 1 ? 3u : 5u));
  append(into.bytes, into.written.count);
}

/* Appends a block. Returns whether it was written. */
static int append_block(struct source *it, struct tcpclkit_block *block, struct made *made) {
  static uint8_t data[1 << 16], text[4500];
  static char words[4300];
  size_t length = make_data(it, block->block_type, data, words);
  uint64_t written;
  uint32_t status;
  block->data_length = block->data_seen = length;
  WRITE(status, draw_below(it, 60), tcpclkit_write_block_head(block, INTO));
  CHECK((status == TCPCLKIT_OK) ==
        (block->kind == 2 && block->check <= 2 && block->number > 0 &&
         (block->number == 1) == (block->block_type == 1)));
  if (status != TCPCLKIT_OK || !has_room(length + 100))
    return 0;
  CHECK(into.written.count <= TCPCLKIT_BLOCK_HEAD_ROOM);
  block->offset = streamed;
  append(into.bytes, into.written.count);
  block->data_offset = streamed;
  append(data, length);
  append_check(it, block->check, block->offset);
  block->length = streamed - block->offset;
  if (words[0] != 0) {
    CHECK(tcpclkit_read_block_data(&made->blocks[0], block, data, length, text, sizeof text,
                                   &written) == TCPCLKIT_OK);
    CHECK(written == strlen(words) && memcmp(text, words, written) == 0);
  }
  count(35, block->block_type & 15, block->check, length);
  return 1;
}

/* Makes a bundle. Returns whether all of it was written. */
static int make_bundle(struct source *it, struct made *made) {
  static const uint8_t first = TCPCLKIT_BUNDLE_FIRST, last = TCPCLKIT_BUNDLE_LAST;
  size_t others = draw_byte(it);
  uint64_t step = 1 + draw_byte(it) % 9, number = 2 + draw_byte(it) % 30;
  int goes_down = others % 2;
  others = others < 240 ? others % 5 : others - 240 + 48; /* at most 63 */
  streamed = 0;
  append(&first, 1);
  if (!make_primary(it, made))
    return 0;
  for (made->count = 1; made->count <= others + 1; made->count++) {
    struct tcpclkit_block *block = &made->blocks[made->count];
    uint8_t choice = draw_byte(it);
    int is_payload = made->count == others + 1;
    memset(block, 0, sizeof *block);
    block->kind = choice == 255 ? choice : TCPCLKIT_BLOCK_CANONICAL;
    block->block_type = is_payload ? 1 : choice % 2 ? 6u + choice % 7 : draw(it);
    block->number = is_payload ? 1
                    : goes_down ? UINT64_MAX - made->count * step
                                : number + made->count * step;
    block->flags = draw(it);
    block->check = choice % 64 == 63 ? draw(it) : choice % 3;
    if (!append_block(it, block, made))
      return 0;
  }
  append(&last, 1);
  return 1;
}

static void compare_eids(const struct tcpclkit_eid *one, const struct tcpclkit_eid *other,
                         const uint8_t *one_name, const uint8_t *other_name) {
  SAME(*one, *other);
  CHECK(memcmp(one_name, other_name, one->name_length) == 0);
}

static void describe_back(const struct made *made) {
  static uint8_t names[3][TCPCLKIT_EID_LIMIT];
  const struct tcpclkit_bundle *wanted = &made->bundle;
  const struct tcpclkit_block *payload = &made->blocks[made->count - 1];
  struct tcpclkit_bundle it;
  CHECK(tcpclkit_describe_bundle(stream, streamed, names[0], TCPCLKIT_EID_LIMIT, names[1],
                                 TCPCLKIT_EID_LIMIT, names[2], TCPCLKIT_EID_LIMIT, &it) ==
        TCPCLKIT_OK);
  CHECK(it.primary_whole == 1 && it.primary_fields == (wanted->is_fragment ? 10 : 8));
  CHECK(it.flags == wanted->flags && it.time == wanted->time && it.sequence == wanted->sequence);
  CHECK(it.lifetime == wanted->lifetime && it.is_fragment == wanted->is_fragment);
  CHECK(it.fragment_offset == wanted->fragment_offset);
  CHECK(it.fragment_total == wanted->fragment_total);
  compare_eids(&it.destination, &wanted->destination, names[0], made->names[0]);
  compare_eids(&it.source, &wanted->source, names[1], made->names[1]);
  compare_eids(&it.report_to, &wanted->report_to, names[2], made->names[2]);
  CHECK(it.blocks == made->count - 1 && it.payload_length == payload->data_length);
  CHECK(it.verdict.has_payload && it.verdict.payload_offset == payload->data_offset);
}

/* Writes a bundle, describes it, and takes it block by block. */
static void ask_made_bundle(struct source it) {
  static struct made made;
  static struct tcpclkit_scan scan;
  struct tcpclkit_block block;
  size_t at = 0, found = 0, size, piece;
  uint64_t taken;
  uint32_t status = TCPCLKIT_GOING_ON;
  if (!make_bundle(&it, &made))
    return;
  describe_back(&made);
  ask_eid(&made.bundle.destination, made.names[0], draw_below(&it, 1200));
  ask_eid(&made.bundle.source, made.names[1], draw_below(&it, 1200));
  size = 1 + draw_below(&it, 9000) + streamed / 400;
  CHECK(tcpclkit_start_scan(&scan) == TCPCLKIT_OK);
  while (status == TCPCLKIT_GOING_ON) {
    piece = least(streamed - at, size);
    status = tcpclkit_next_block(&scan, stream + at, piece, &taken, &block);
    at += taken;
    CHECK(taken > 0);
    if (block.kind == 0)
      continue;
    CHECK(found < made.count);
    SAME(block, made.blocks[found]);
    found++;
  }
  CHECK(status == TCPCLKIT_OK && found == made.count && at == streamed);
  count(36, made.count, made.check, streamed);
}

/* A primary block that was accepted is written again, in no more bytes, and in the same bytes if
 * there are as many. */
static void ask_rewritten_primary(const uint8_t *bytes, const struct tcpclkit_bundle *it,
                                  const struct tcpclkit_block *block, const uint8_t *to,
                                  const uint8_t *from, const uint8_t *reports, size_t room) {
  uint32_t status;
  WRITE(status, room % 999,
        tcpclkit_write_primary(it, block->check, to, it->destination.name_length, from,
                               it->source.name_length, reports, it->report_to.name_length, INTO));
  CHECK(status == TCPCLKIT_OK && into.written.count <= block->length);
  if (into.written.count == block->length)
    CHECK(memcmp(into.bytes, bytes + block->offset, block->length) == 0);
}

/* So is the head of a block, and its check field. */
static void ask_rewritten_block(const uint8_t *bytes, const struct tcpclkit_block *it,
                                size_t room) {
  const size_t head = it->data_offset - it->offset, end = it->data_offset + it->data_length;
  const size_t field = it->offset + it->length - end;
  struct tcpclkit_crc fed;
  uint32_t status;
  WRITE(status, room % 60, tcpclkit_write_block_head(it, INTO));
  CHECK(status == TCPCLKIT_OK && into.written.count <= head);
  if (into.written.count == head)
    CHECK(memcmp(into.bytes, bytes + it->offset, head) == 0);
  if (it->check == TCPCLKIT_CHECK_NONE)
    return;
  CHECK(tcpclkit_start_check(&fed, it->check) == TCPCLKIT_OK);
  CHECK(tcpclkit_feed_check(&fed, bytes + it->offset, end - it->offset) == TCPCLKIT_OK);
  WRITE(status, room % 7, tcpclkit_write_check(&fed, INTO));
  CHECK(status == TCPCLKIT_OK && into.written.count <= field);
  if (into.written.count == field)
    CHECK(memcmp(into.bytes, bytes + end, field) == 0);
}

#endif
