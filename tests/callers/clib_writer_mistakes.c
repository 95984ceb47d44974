/*
 * Calls the functions of the C library that write messages and bundles, judge answers, or read and
 * write their texts, as a careless caller does: null pointers, lengths that are too great, numbers
 * that do not fit, and fields that are left from another message.
 */
#include "clib_writers.h"

/* A call that is refused writes nothing into the slice, and 0 in the struct. */
#define REFUSES(call, status)                                         \
  do {                                                                \
    writing.room = sizeof writing.bytes;                              \
    memset(writing.bytes, MARK, sizeof writing.bytes);                \
    memset(&writing.written, MARK, sizeof writing.written);           \
    CHECK((call) == (status));                                        \
    CHECK(IS_MARKED(writing.bytes));                                  \
    CHECK(writing.written.count == 0 && writing.written.needed == 0); \
  } while (0)

/* -- null pointers and lengths */

/* What a writer reads: slices, and structs, which have no length. */
struct given {
  const void *start;
  size_t length;
  int is_struct;
};

struct writer {
  uint32_t (*call)(const struct given *given, uint8_t *bytes, size_t room,
                   struct tcpclkit_written *written);
  size_t count;
  struct given given[4];
};

#define CALL(name)                                                             \
  static uint32_t name(const struct given *given, uint8_t *bytes, size_t room, \
                       struct tcpclkit_written *written)
#define INTO bytes, room, written
#define A(type, number) ((const struct tcpclkit_##type *)given[number].start)
#define S(number) (const uint8_t *)given[number].start, given[number].length

CALL(contact) {
  (void)given;
  return tcpclkit_write_contact(1, INTO);
}
CALL(item) { return tcpclkit_write_item(1, 2, S(0), INTO); }
CALL(message) { return tcpclkit_write_message(A(message, 0), S(1), S(2), INTO); }
CALL(primary) {
  return tcpclkit_write_primary(A(bundle, 0), TCPCLKIT_CHECK_CRC16, S(1), S(2), S(3), INTO);
}
CALL(block_head) { return tcpclkit_write_block_head(A(block, 0), INTO); }
CALL(check) { return tcpclkit_write_check(A(crc, 0), INTO); }
CALL(eid) { return tcpclkit_write_eid(A(eid, 0), S(1), INTO); }
CALL(age) {
  (void)given;
  return tcpclkit_write_age(5, INTO);
}
CALL(hop_count) {
  (void)given;
  return tcpclkit_write_hop_count(30, 2, INTO);
}

static struct tcpclkit_message init;
static struct tcpclkit_bundle fields;
static const struct tcpclkit_block age_block = {2, 0, 0, 7, 2, 0, 1, 0, 1, 0};
static struct tcpclkit_crc begun;
static const struct tcpclkit_eid no_eid = {TCPCLKIT_EID_DTN_NONE, 0, 0, 0, 0};
static const uint8_t some[5] = {0, 0, 1, 0, 0};

#define STRUCT(it) {it, 0, 1}
#define SLICE {some, sizeof some, 0}
#define NO_MORE {NULL, 0, 0}

static const struct writer writers[] = {
    {contact, 0, {NO_MORE, NO_MORE, NO_MORE, NO_MORE}},
    {item, 1, {SLICE, NO_MORE, NO_MORE, NO_MORE}},
    {message, 3, {STRUCT(&init), SLICE, SLICE, NO_MORE}},
    {primary, 4, {STRUCT(&fields), SLICE, SLICE, SLICE}},
    {block_head, 1, {STRUCT(&age_block), NO_MORE, NO_MORE, NO_MORE}},
    {check, 1, {STRUCT(&begun), NO_MORE, NO_MORE, NO_MORE}},
    {eid, 2, {STRUCT(&no_eid), SLICE, NO_MORE, NO_MORE}},
    {age, 0, {NO_MORE, NO_MORE, NO_MORE, NO_MORE}},
    {hop_count, 0, {NO_MORE, NO_MORE, NO_MORE, NO_MORE}},
};

#define BYTES writing.bytes
#define WRITTEN &writing.written

static void null_pointers(const struct writer *it) {
  struct given given[4];
  size_t each;
  CHECK(it->call(it->given, BYTES, sizeof BYTES, WRITTEN) == TCPCLKIT_OK);
  REFUSES(it->call(it->given, NULL, 1, WRITTEN), TCPCLKIT_NULL);
  REFUSES(it->call(it->given, BYTES, SIZE_MAX, WRITTEN), TCPCLKIT_RANGE);
  REFUSES(it->call(it->given, BYTES, (size_t)PTRDIFF_MAX + 1, WRITTEN), TCPCLKIT_RANGE);
  REFUSES(it->call(it->given, NULL, SIZE_MAX, WRITTEN), TCPCLKIT_RANGE);
  memset(BYTES, MARK, sizeof BYTES);
  LEAVES(it->call(it->given, BYTES, sizeof BYTES, NULL), TCPCLKIT_NULL, BYTES);
  /* an empty slice, for which a null pointer may be lent */
  CHECK(it->call(it->given, NULL, 0, WRITTEN) == TCPCLKIT_TOO_SMALL);
  CHECK(writing.written.count == 0 && writing.written.needed > 0);
  for (each = 0; each < it->count; each++) {
    memcpy(given, it->given, sizeof given);
    given[each].start = NULL;
    REFUSES(it->call(given, BYTES, sizeof BYTES, WRITTEN), TCPCLKIT_NULL);
    if (given[each].is_struct)
      continue;
    given[each].length = 0;
    CHECK(it->call(given, BYTES, sizeof BYTES, WRITTEN) == TCPCLKIT_OK);
    given[each].length = SIZE_MAX;
    REFUSES(it->call(given, BYTES, sizeof BYTES, WRITTEN), TCPCLKIT_RANGE);
    given[each].start = some;
    REFUSES(it->call(given, BYTES, sizeof BYTES, WRITTEN), TCPCLKIT_RANGE);
    given[each].length = (size_t)PTRDIFF_MAX + 1;
    REFUSES(it->call(given, BYTES, sizeof BYTES, WRITTEN), TCPCLKIT_RANGE);
  }
}

static void writers_and_null(void) {
  size_t row;
  init = message_of(TCPCLKIT_SESS_INIT, 0, 0);
  fields.destination = fields.source = fields.report_to = no_eid;
  tcpclkit_start_check(&begun, TCPCLKIT_CHECK_CRC32);
  for (row = 0; row < sizeof writers / sizeof *writers; row++)
    null_pointers(&writers[row]);
}

/* The functions that write no message and no bundle. */
static void others_and_null(void) {
  const struct tcpclkit_message ack = message_of(TCPCLKIT_XFER_ACK, 0, 7);
  struct tcpclkit_sent sent;
  struct tcpclkit_crc check;
  struct tcpclkit_eid found;
  uint8_t text[30];
  const uint8_t *none = (const uint8_t *)"dtn:none";
  uint64_t number = 7;
  memset(&sent, MARK, sizeof sent);
  memset(&check, MARK, sizeof check);
  memset(&found, MARK, sizeof found);
  memset(text, MARK, sizeof text);
  LEAVES(tcpclkit_judge_answer(&sent, NULL), TCPCLKIT_NULL, sent);
  CHECK(tcpclkit_judge_answer(NULL, &ack) == TCPCLKIT_NULL);
  CHECK(tcpclkit_start_check(NULL, 1) == TCPCLKIT_NULL);
  CHECK(tcpclkit_feed_check(NULL, some, 1) == TCPCLKIT_NULL);
  LEAVES(tcpclkit_feed_check(&check, NULL, 1), TCPCLKIT_NULL, check);
  LEAVES(tcpclkit_feed_check(&check, some, SIZE_MAX), TCPCLKIT_RANGE, check);
  CHECK(tcpclkit_end_check(NULL, &number) == TCPCLKIT_NULL && number == 0);
  CHECK(tcpclkit_end_check(&begun, NULL) == TCPCLKIT_NULL);
  LEAVES(tcpclkit_read_eid_text(NULL, 1, &found, text, 9), TCPCLKIT_NULL, found);
  LEAVES(tcpclkit_read_eid_text(none, SIZE_MAX, &found, text, 9), TCPCLKIT_RANGE, found);
  LEAVES(tcpclkit_read_eid_text(none, 8, &found, NULL, 1), TCPCLKIT_NULL, found);
  LEAVES(tcpclkit_read_eid_text(none, 8, &found, text, SIZE_MAX), TCPCLKIT_RANGE, found);
  LEAVES(tcpclkit_read_eid_text(none, 8, NULL, text, 9), TCPCLKIT_NULL, text);
  CHECK(tcpclkit_read_eid_text(NULL, 0, &found, text, 9) == TCPCLKIT_RANGE && found.kind == 0);
  number = 7;
  LEAVES(tcpclkit_write_reason_text(3, 0, text, 9, NULL), TCPCLKIT_NULL, text);
  LEAVES(tcpclkit_write_report_reason_text(0, text, 9, NULL), TCPCLKIT_NULL, text);
  LEAVES(tcpclkit_write_block_type_text(1, text, 9, NULL), TCPCLKIT_NULL, text);
  CHECK(tcpclkit_write_reason_text(3, 0, NULL, 1, &number) == TCPCLKIT_NULL);
  CHECK(tcpclkit_write_report_reason_text(0, NULL, 1, &number) == TCPCLKIT_NULL);
  CHECK(tcpclkit_write_block_type_text(1, NULL, 1, &number) == TCPCLKIT_NULL);
  LEAVES(tcpclkit_write_reason_text(3, 0, text, SIZE_MAX, &number), TCPCLKIT_RANGE, text);
  LEAVES(tcpclkit_write_report_reason_text(0, text, SIZE_MAX, &number), TCPCLKIT_RANGE, text);
  LEAVES(tcpclkit_write_block_type_text(1, text, SIZE_MAX, &number), TCPCLKIT_RANGE, text);
  CHECK(number == 7);
}

/* -- numbers of messages */

/* The numbers of a message, in an order of this test, and the greatest that each may be. */
enum {
  FLAGS, REASON, HEADER, ID, ACKNOWLEDGED, KEEPALIVE, SEGMENT_MRU, TRANSFER_MRU, DATA, NUMBERS
};

static uint64_t *number_of(struct tcpclkit_message *it, int number) {
  uint64_t *const numbers[] = {&it->flags, &it->reason, &it->header, &it->id, &it->acknowledged,
                               &it->keepalive, &it->segment_mru, &it->transfer_mru,
                               &it->data_length};
  return numbers[number];
}

static const uint64_t greatest[] = {255, 255, 255, UINT64_MAX, UINT64_MAX,
                                    65535, UINT64_MAX, UINT64_MAX, UINT64_MAX};

/* Whether a kind has a number (RFC 9174 sections 4.6, 5.1.2, 5.2.2 to 5.2.4, and 6.1). */
static int has_number(uint64_t kind, int number) {
  static const unsigned kinds[] = {0,
                                   1u << FLAGS | 1u << ID | 1u << DATA,
                                   1u << FLAGS | 1u << ID | 1u << ACKNOWLEDGED,
                                   1u << REASON | 1u << ID,
                                   0,
                                   1u << FLAGS | 1u << REASON,
                                   1u << REASON | 1u << HEADER,
                                   1u << KEEPALIVE | 1u << SEGMENT_MRU | 1u << TRANSFER_MRU};
  return kinds[kind] >> number & 1;
}

static int is_answer(uint64_t kind) {
  return kind == TCPCLKIT_XFER_ACK || kind == TCPCLKIT_XFER_REFUSE;
}

/* Writes the message without parts, and judges it as an answer to a transfer of which all may have
 * been sent, whatever the transfer is. */
static void is_message(const struct tcpclkit_message *it, int is) {
  struct tcpclkit_sent sent = {it->id, UINT64_MAX, 1, 0, MARK}, before = sent;
  if (is)
    CHECK(tcpclkit_write_message(it, NULL, 0, NULL, 0, BYTES, sizeof BYTES, WRITTEN) ==
          TCPCLKIT_OK);
  else
    REFUSES(tcpclkit_write_message(it, NULL, 0, NULL, 0, BYTES, sizeof BYTES, WRITTEN),
            TCPCLKIT_RANGE);
  if (is && is_answer(it->kind)) {
    CHECK(tcpclkit_judge_answer(&sent, it) != TCPCLKIT_RANGE && sent.fault != MARK);
  } else {
    CHECK(tcpclkit_judge_answer(&sent, it) == TCPCLKIT_RANGE);
    CHECK(memcmp(&sent, &before, sizeof sent) == 0);
  }
}

/* Each number of each kind: none, one that every field has room for, the greatest, and more. */
static void numbers_of_messages(void) {
  uint64_t kind;
  int number, bit;
  for (kind = 1; kind <= 7; kind++)
    for (number = 0; number < NUMBERS; number++) {
      struct tcpclkit_message it = message_of(kind, 0, 0);
      const int has = has_number(kind, number);
      is_message(&it, 1);
      for (bit = 0; bit < 64; bit++) {
        *number_of(&it, number) = (uint64_t)1 << bit;
        is_message(&it, has && (uint64_t)1 << bit <= greatest[number]);
      }
      *number_of(&it, number) = greatest[number];
      is_message(&it, has);
      *number_of(&it, number) = UINT64_MAX;
      is_message(&it, has && greatest[number] == UINT64_MAX);
    }
}

/* Kinds of no message, also with the numbers of one. */
static void kinds_of_messages(void) {
  static const uint64_t kinds[] = {0, 8, 9, 0x64, 255, 256, 257, 0x100000001, UINT64_MAX};
  size_t row;
  for (row = 0; row < sizeof kinds / sizeof *kinds; row++) {
    struct tcpclkit_message it = message_of(kinds[row], 0, 0);
    is_message(&it, 0);
    it.flags = it.id = 1;
    is_message(&it, 0);
  }
}

/* A node ID and items for messages that lack them. */
static void parts_of_messages(void) {
  uint64_t kind, flags;
  for (kind = 1; kind <= 7; kind++)
    for (flags = 0; flags < (has_number(kind, FLAGS) ? 4u : 1u); flags++) {
      const struct tcpclkit_message it = message_of(kind, flags, 0);
      const int has_node = kind == TCPCLKIT_SESS_INIT;
      const int has_items = has_node || (kind == TCPCLKIT_XFER_SEGMENT && flags & 2);
      if (!has_node)
        REFUSES(tcpclkit_write_message(&it, some, 1, NULL, 0, BYTES, sizeof BYTES, WRITTEN),
                TCPCLKIT_RANGE);
      if (!has_items)
        REFUSES(tcpclkit_write_message(&it, NULL, 0, some, 5, BYTES, sizeof BYTES, WRITTEN),
                TCPCLKIT_RANGE);
      CHECK(tcpclkit_write_message(&it, some, has_node, some, has_items ? 5 : 0, BYTES,
                                   sizeof BYTES, WRITTEN) == TCPCLKIT_OK);
    }
}

static void numbers_of_items(void) {
  static uint8_t value[65532];
  int bit;
  REFUSES(tcpclkit_write_item(0, 1, value, sizeof value, BYTES, sizeof BYTES, WRITTEN),
          TCPCLKIT_RANGE);
  for (bit = 8; bit < 64; bit++) {
    REFUSES(tcpclkit_write_contact((uint64_t)1 << bit, BYTES, sizeof BYTES, WRITTEN),
            TCPCLKIT_RANGE);
    REFUSES(tcpclkit_write_item((uint64_t)1 << bit, 1, some, 1, BYTES, sizeof BYTES, WRITTEN),
            TCPCLKIT_RANGE);
    REFUSES(tcpclkit_write_total((uint64_t)1 << bit, 1, BYTES, sizeof BYTES, WRITTEN),
            TCPCLKIT_RANGE);
    if (bit >= 16)
      REFUSES(tcpclkit_write_item(0, (uint64_t)1 << bit, some, 1, BYTES, sizeof BYTES, WRITTEN),
              TCPCLKIT_RANGE);
  }
}

/* What was sent, where `whole` is no 0 and no 1. */
static void wrong_sent(void) {
  const struct tcpclkit_message ack = message_of(TCPCLKIT_XFER_ACK, 0, 7);
  struct tcpclkit_sent sent = {7, 9, 0, 0, MARK}, before;
  int bit;
  for (bit = 1; bit < 64; bit++) {
    sent.whole = (uint64_t)1 << bit;
    before = sent;
    CHECK(tcpclkit_judge_answer(&sent, &ack) == TCPCLKIT_RANGE);
    CHECK(memcmp(&sent, &before, sizeof sent) == 0);
  }
}

/* -- numbers of bundles */

static void wrong_eids(void) {
  static const uint8_t name[TCPCLKIT_EID_LIMIT + 1] = {0};
  static const struct {
    uint64_t kind, name_length;
    size_t length; /* of the slice */
  } rows[] = {
      {0, 0, 0}, {5, 0, 0}, {257, 0, 0}, {UINT64_MAX, 0, 0},
      {TCPCLKIT_EID_DTN, 4, 3}, {TCPCLKIT_EID_DTN, 3, 4}, {TCPCLKIT_EID_DTN, 0, 1},
      {TCPCLKIT_EID_DTN, TCPCLKIT_EID_LIMIT + 1, TCPCLKIT_EID_LIMIT + 1},
  };
  size_t row, which;
  for (row = 0; row < sizeof rows / sizeof *rows; row++) {
    struct tcpclkit_eid it = no_eid;
    it.kind = rows[row].kind;
    it.name_length = rows[row].name_length;
    REFUSES(tcpclkit_write_eid(&it, name, rows[row].length, BYTES, sizeof BYTES, WRITTEN),
            TCPCLKIT_RANGE);
    for (which = 0; which < 3; which++) {
      struct tcpclkit_bundle bad = fields;
      *(which == 0 ? &bad.destination : which == 1 ? &bad.source : &bad.report_to) = it;
      REFUSES(tcpclkit_write_primary(&bad, 0, name, which == 0 ? rows[row].length : 0, name,
                                     which == 1 ? rows[row].length : 0, name,
                                     which == 2 ? rows[row].length : 0, BYTES, sizeof BYTES,
                                     WRITTEN),
              TCPCLKIT_RANGE);
    }
  }
}

static uint32_t write_fields(const struct tcpclkit_bundle *it, uint64_t check) {
  return tcpclkit_write_primary(it, check, NULL, 0, NULL, 0, NULL, 0, BYTES, sizeof BYTES,
                                WRITTEN);
}

/* Flags, fragments and check types that do not go together. */
static void wrong_primary_blocks(void) {
  uint64_t flags, is_fragment, offset, total, check;
  for (flags = 0; flags < 4; flags++)
    for (is_fragment = 0; is_fragment < 4; is_fragment++)
      for (offset = 0; offset < 2; offset++)
        for (total = 0; total < 2; total++)
          for (check = 0; check < 5; check++) {
            struct tcpclkit_bundle it = fields;
            it.flags = flags;
            it.is_fragment = is_fragment;
            it.fragment_offset = offset;
            it.fragment_total = total;
            if (is_fragment <= 1 && is_fragment == (flags & 1) && check <= 2 &&
                (is_fragment == 1 || (offset == 0 && total == 0)))
              CHECK(write_fields(&it, check) == TCPCLKIT_OK);
            else
              REFUSES(write_fields(&it, check), TCPCLKIT_RANGE);
          }
  REFUSES(write_fields(&fields, 256), TCPCLKIT_RANGE);
  REFUSES(write_fields(&fields, UINT64_MAX), TCPCLKIT_RANGE);
}

static void wrong_blocks(void) {
  static const uint64_t values[] = {0, 1, 2, 3, 257, UINT64_MAX};
  size_t kind, type, number, check;
  for (kind = 0; kind < 6; kind++)
    for (type = 0; type < 6; type++)
      for (number = 0; number < 6; number++)
        for (check = 0; check < 6; check++) {
          const struct tcpclkit_block it = {values[kind], 0, 0, values[type], values[number], 0,
                                            values[check], 0, 5, 0};
          if (it.kind == TCPCLKIT_BLOCK_CANONICAL && it.number != 0 && it.check <= 2 &&
              (it.block_type == 1) == (it.number == 1))
            CHECK(tcpclkit_write_block_head(&it, BYTES, sizeof BYTES, WRITTEN) == TCPCLKIT_OK);
          else
            REFUSES(tcpclkit_write_block_head(&it, BYTES, sizeof BYTES, WRITTEN), TCPCLKIT_RANGE);
        }
}

/* Memory that is no check: each call refuses it, and leaves it as it is. */
static void wrong_checks(void) {
  static const struct tcpclkit_crc wrong[] = {
      {0, 0}, {3, 0}, {257, 0}, {UINT64_MAX, 0}, {1, 0x10000}, {1, UINT64_MAX},
      {2, 0x100000000}, {2, UINT64_MAX}};
  static const uint64_t kinds[] = {0, 3, 257, 0x100000001, UINT64_MAX};
  struct tcpclkit_crc it;
  uint64_t value;
  size_t row;
  for (row = 0; row < sizeof wrong / sizeof *wrong; row++) {
    it = wrong[row];
    CHECK(tcpclkit_feed_check(&it, some, sizeof some) == TCPCLKIT_RANGE);
    CHECK(memcmp(&it, &wrong[row], sizeof it) == 0);
    CHECK(tcpclkit_feed_check(&it, NULL, 0) == TCPCLKIT_RANGE);
    value = MARK;
    CHECK(tcpclkit_end_check(&it, &value) == TCPCLKIT_RANGE && value == 0);
    REFUSES(tcpclkit_write_check(&it, BYTES, sizeof BYTES, WRITTEN), TCPCLKIT_RANGE);
    CHECK(memcmp(&it, &wrong[row], sizeof it) == 0);
  }
  for (row = 0; row < sizeof kinds / sizeof *kinds; row++) {
    memset(&it, MARK, sizeof it);
    CHECK(tcpclkit_start_check(&it, kinds[row]) == TCPCLKIT_RANGE);
    CHECK(it.kind == 0 && it.state == 0);
  }
}

/* -- texts */

static void wrong_reasons(void) {
  uint64_t number = 7, kind;
  uint8_t text[30];
  int bit;
  memset(text, MARK, sizeof text);
  for (kind = 0; kind < 300; kind++)
    if (kind != TCPCLKIT_XFER_REFUSE && kind != TCPCLKIT_SESS_TERM && kind != TCPCLKIT_MSG_REJECT)
      LEAVES(tcpclkit_write_reason_text(kind, 1, text, sizeof text, &number), TCPCLKIT_RANGE, text);
  for (bit = 8; bit < 64; bit++) {
    LEAVES(tcpclkit_write_reason_text(3, (uint64_t)1 << bit, text, sizeof text, &number),
           TCPCLKIT_RANGE, text);
    LEAVES(tcpclkit_write_reason_text(((uint64_t)1 << bit) + 3, 1, text, sizeof text, &number),
           TCPCLKIT_RANGE, text);
  }
  CHECK(number == 7);
}

void test_writer_mistakes(void) {
  writers_and_null();
  others_and_null();
  numbers_of_messages();
  kinds_of_messages();
  parts_of_messages();
  numbers_of_items();
  wrong_sent();
  wrong_eids();
  wrong_primary_blocks();
  wrong_blocks();
  wrong_checks();
  wrong_reasons();
}
