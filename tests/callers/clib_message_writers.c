/*
 * Calls the functions of the C library that write messages, and the one that judges answers. The
 * bytes are those of examples/every-message.tcpcl, or follow from the figures of RFC 9174.
 */
#include "clib_writers.h"

struct writing writing;

void has_written(uint32_t status, const void *wanted, size_t size) {
  const int fits = writing.room >= size;
  CHECK(status == (fits ? TCPCLKIT_OK : TCPCLKIT_TOO_SMALL));
  CHECK(writing.written.count == (fits ? size : 0) && writing.written.needed == size);
  CHECK(!fits || memcmp(writing.bytes, wanted, size) == 0);
  CHECK(is_marked(writing.bytes + (fits ? size : 0), sizeof writing.bytes - (fits ? size : 0)));
}

/* -- contact headers and items */

static void contacts(void) {
  static const uint64_t flags[] = {0, 1, 0x80, 255};
  uint8_t wanted[] = {'d', 't', 'n', '!', 4, 0};
  struct tcpclkit_contact contact;
  size_t row;
  for (row = 0; row < sizeof flags / sizeof *flags; row++) {
    wanted[5] = (uint8_t)flags[row];
    WRITES(tcpclkit_write_contact(flags[row], ROOM), wanted, TCPCLKIT_CONTACT_LENGTH);
    CHECK(tcpclkit_read_contact(writing.bytes, 6, &contact) == TCPCLKIT_OK);
    CHECK(contact.flags == flags[row]);
  }
}

/* Two items of a session, the first of them critical, and a Transfer Length item of 34 bytes. */
#define CRITICAL_ITEM 0x01, 0x12, 0x34, 0x00, 0x01, 0xaa
#define EMPTY_ITEM 0x00, 0xab, 0xcd, 0x00, 0x00
#define TOTAL_ITEM 0x00, 0x00, 0x01, 0x00, 0x08, 0, 0, 0, 0, 0, 0, 0, 0x22
static const uint8_t session_items[] = {CRITICAL_ITEM, EMPTY_ITEM}, total_item[] = {TOTAL_ITEM};

static const struct {
  uint64_t flags, item_type;
  size_t length; /* of the item, whose value comes after 5 bytes */
  uint8_t bytes[13];
} item_rows[] = {
    {1, 0x1234, 6, {CRITICAL_ITEM}},
    {0, 0xabcd, 5, {EMPTY_ITEM}},
    {0, 1, TCPCLKIT_TOTAL_LENGTH, {TOTAL_ITEM}},
    {255, 0, 5, {0xff, 0x00, 0x00, 0x00, 0x00}},
    {0, 65535, 7, {0x00, 0xff, 0xff, 0x00, 0x02, 0x00, 0xff}},
};

static void items(void) {
  size_t row;
  for (row = 0; row < sizeof item_rows / sizeof *item_rows; row++)
    WRITES(tcpclkit_write_item(item_rows[row].flags, item_rows[row].item_type,
                               item_rows[row].bytes + TCPCLKIT_ITEM_LENGTH,
                               item_rows[row].length - TCPCLKIT_ITEM_LENGTH, ROOM),
           item_rows[row].bytes, item_rows[row].length);
  WRITES(tcpclkit_write_item(0, 0xabcd, NULL, 0, ROOM), session_items + 6, 5);
}

/* Transfer Length items, one of them critical. tcpclkit_read_announced reads their lengths. */
static const struct {
  uint64_t flags, total;
  uint8_t bytes[TCPCLKIT_TOTAL_LENGTH];
} total_rows[] = {
    {0, 34, {TOTAL_ITEM}},
    {1, 0, {0x01, 0x00, 0x01, 0x00, 0x08}},
    {0, 0x0102030405060708, {0x00, 0x00, 0x01, 0x00, 0x08, 1, 2, 3, 4, 5, 6, 7, 8}},
    {255, UINT64_MAX,
     {0xff, 0x00, 0x01, 0x00, 0x08, 0xff, 0xff, 0xff, 0xff, 0xff, 0xff, 0xff, 0xff}},
};

static void totals(void) {
  struct tcpclkit_message segment = message_of(TCPCLKIT_XFER_SEGMENT, TCPCLKIT_SEGMENT_START, 7);
  struct tcpclkit_announced announced;
  struct tcpclkit_written written;
  uint8_t bytes[TCPCLKIT_START_LENGTH + TCPCLKIT_TOTAL_LENGTH];
  size_t row;
  for (row = 0; row < sizeof total_rows / sizeof *total_rows; row++) {
    WRITES(tcpclkit_write_total(total_rows[row].flags, total_rows[row].total, ROOM),
           total_rows[row].bytes, TCPCLKIT_TOTAL_LENGTH);
    CHECK(tcpclkit_write_message(&segment, NULL, 0, writing.bytes, TCPCLKIT_TOTAL_LENGTH, bytes,
                                 sizeof bytes, &written) == TCPCLKIT_OK);
    CHECK(tcpclkit_read_message(bytes, sizeof bytes, 0, &segment) == TCPCLKIT_OK);
    CHECK(tcpclkit_read_announced(bytes, sizeof bytes, &segment, &announced) == TCPCLKIT_OK);
    CHECK(announced.kind == TCPCLKIT_ANNOUNCED_TOTAL && announced.total == total_rows[row].total);
  }
}

/* The longest item, and one that no list has room for. */
static void longest_item(void) {
  static uint8_t value[65532], bytes[65536];
  struct tcpclkit_written written;
  memset(value, 0x77, sizeof value);
  CHECK(tcpclkit_write_item(255, 65535, value, 65531, bytes, 65535, &written) ==
        TCPCLKIT_TOO_SMALL);
  CHECK(written.count == 0 && written.needed == 65536 && bytes[0] == 0);
  CHECK(tcpclkit_write_item(255, 65535, value, 65531, bytes, 65536, &written) == TCPCLKIT_OK);
  CHECK(written.count == 65536 && written.needed == 65536);
  CHECK(memcmp(bytes, "\xff\xff\xff\xff\xfb", 5) == 0 && memcmp(bytes + 5, value, 65531) == 0);
  CHECK(tcpclkit_write_item(255, 65535, value, 65532, bytes, 65536, &written) == TCPCLKIT_RANGE);
  CHECK(written.count == 0 && written.needed == 0);
}

/* -- messages */

/* The node ID and the items of a message. */
enum part { NO_PARTS, NO_ITEMS, BOTH, TOTAL };

static const struct {
  uint64_t kind, flags, reason, header, id, acknowledged, keepalive, segment_mru, transfer_mru;
  uint64_t data_length;
  enum part parts;
  size_t length;
  uint8_t bytes[48];
} message_rows[] = {
    /* examples/every-message.tcpcl */
    {TCPCLKIT_SESS_INIT, 0, 0, 0, 0, 0, 60, 65536, 1048576, 0, BOTH,
     TCPCLKIT_SESS_INIT_LENGTH + 7 + sizeof session_items,
     {0x07, 0x00, 0x3c, 0, 0, 0, 0, 0, 1, 0, 0, 0, 0, 0, 0, 0, 0x10, 0, 0, 0x00, 0x07, 'i', 'p',
      'n', ':', '1', '.', '0', 0, 0, 0, 0x0b, CRITICAL_ITEM, EMPTY_ITEM}},
    {TCPCLKIT_XFER_SEGMENT, TCPCLKIT_SEGMENT_START, 0, 0, 0, 0, 0, 0, 0, 17, TOTAL,
     TCPCLKIT_START_LENGTH + TCPCLKIT_TOTAL_LENGTH,
     {0x01, 0x02, 0, 0, 0, 0, 0, 0, 0, 0, 0, 0, 0, 0x0d, TOTAL_ITEM, 0, 0, 0, 0, 0, 0, 0, 0x11}},
    {TCPCLKIT_XFER_SEGMENT, TCPCLKIT_SEGMENT_END, 0, 0, 0, 0, 0, 0, 0, 17, NO_PARTS,
     TCPCLKIT_SEGMENT_LENGTH, {0x01, 0x01, 0, 0, 0, 0, 0, 0, 0, 0, 0, 0, 0, 0, 0, 0, 0, 0x11}},
    {TCPCLKIT_XFER_ACK, 1, 0, 0, 0, 34, 0, 0, 0, 0, NO_PARTS, TCPCLKIT_ACK_LENGTH,
     {0x02, 0x01, 0, 0, 0, 0, 0, 0, 0, 0, 0, 0, 0, 0, 0, 0, 0, 0x22}},
    {TCPCLKIT_XFER_REFUSE, 0, 2, 0, 0, 0, 0, 0, 0, 0, NO_PARTS, TCPCLKIT_REFUSE_LENGTH,
     {0x03, 0x02}},
    {TCPCLKIT_KEEPALIVE, 0, 0, 0, 0, 0, 0, 0, 0, 0, NO_PARTS, TCPCLKIT_KEEPALIVE_LENGTH, {0x04}},
    {TCPCLKIT_SESS_TERM, 1, 3, 0, 0, 0, 0, 0, 0, 0, NO_PARTS, TCPCLKIT_SESS_TERM_LENGTH,
     {0x05, 0x01, 0x03}},
    {TCPCLKIT_MSG_REJECT, 0, 1, 0x16, 0, 0, 0, 0, 0, 0, NO_PARTS, TCPCLKIT_MSG_REJECT_LENGTH,
     {0x06, 0x01, 0x16}},
    {TCPCLKIT_SESS_TERM, 0, 0x7f, 0, 0, 0, 0, 0, 0, 0, NO_PARTS, TCPCLKIT_SESS_TERM_LENGTH,
     {0x05, 0x00, 0x7f}},
    /* messages without a node ID, without items, and without data */
    {TCPCLKIT_SESS_INIT, 0, 0, 0, 0, 0, 0, 0, 0, 0, NO_PARTS, TCPCLKIT_SESS_INIT_LENGTH, {0x07}},
    {TCPCLKIT_SESS_INIT, 0, 0, 0, 0, 0, 0x1234, 0, 0, 0, NO_ITEMS, TCPCLKIT_SESS_INIT_LENGTH + 7,
     {0x07, 0x12, 0x34, 0, 0, 0, 0, 0, 0, 0, 0, 0, 0, 0, 0, 0, 0, 0, 0, 0x00, 0x07, 'i', 'p', 'n',
      ':', '1', '.', '0'}},
    {TCPCLKIT_XFER_SEGMENT, 3, 0, 0, 5, 0, 0, 0, 0, 0, NO_PARTS, TCPCLKIT_START_LENGTH,
     {0x01, 0x03, 0, 0, 0, 0, 0, 0, 0, 5}},
    /* each byte of each number, and the greatest numbers */
    {TCPCLKIT_XFER_SEGMENT, 0xfd, 0, 0, 0x0102030405060708, 0, 0, 0, 0, 0x1112131415161718,
     NO_PARTS, TCPCLKIT_SEGMENT_LENGTH,
     {0x01, 0xfd, 1, 2, 3, 4, 5, 6, 7, 8, 0x11, 0x12, 0x13, 0x14, 0x15, 0x16, 0x17, 0x18}},
    {TCPCLKIT_XFER_SEGMENT, 0xff, 0, 0, UINT64_MAX, 0, 0, 0, 0, UINT64_MAX, NO_PARTS,
     TCPCLKIT_START_LENGTH,
     {0x01, 0xff, 0xff, 0xff, 0xff, 0xff, 0xff, 0xff, 0xff, 0xff, 0, 0, 0, 0, 0xff, 0xff, 0xff,
      0xff, 0xff, 0xff, 0xff, 0xff}},
    {TCPCLKIT_XFER_ACK, 0xff, 0, 0, 0x0102030405060708, 0x1112131415161718, 0, 0, 0, 0, NO_PARTS,
     TCPCLKIT_ACK_LENGTH,
     {0x02, 0xff, 1, 2, 3, 4, 5, 6, 7, 8, 0x11, 0x12, 0x13, 0x14, 0x15, 0x16, 0x17, 0x18}},
    {TCPCLKIT_XFER_REFUSE, 0, 255, 0, 0x0102030405060708, 0, 0, 0, 0, 0, NO_PARTS,
     TCPCLKIT_REFUSE_LENGTH, {0x03, 0xff, 1, 2, 3, 4, 5, 6, 7, 8}},
    {TCPCLKIT_SESS_TERM, 255, 255, 0, 0, 0, 0, 0, 0, 0, NO_PARTS, TCPCLKIT_SESS_TERM_LENGTH,
     {0x05, 0xff, 0xff}},
    {TCPCLKIT_MSG_REJECT, 0, 255, 255, 0, 0, 0, 0, 0, 0, NO_PARTS, TCPCLKIT_MSG_REJECT_LENGTH,
     {0x06, 0xff, 0xff}},
    {TCPCLKIT_SESS_INIT, 0, 0, 0, 0, 0, 65535, 0x0102030405060708, 0x1112131415161718, 0, NO_PARTS,
     TCPCLKIT_SESS_INIT_LENGTH,
     {0x07, 0xff, 0xff, 1, 2, 3, 4, 5, 6, 7, 8, 0x11, 0x12, 0x13, 0x14, 0x15, 0x16, 0x17, 0x18}},
};
enum { MESSAGES = sizeof message_rows / sizeof *message_rows };

static struct tcpclkit_message message_in(size_t row) {
  struct tcpclkit_message it = message_of(message_rows[row].kind, message_rows[row].flags,
                                          message_rows[row].id);
  it.reason = message_rows[row].reason;
  it.header = message_rows[row].header;
  it.acknowledged = message_rows[row].acknowledged;
  it.keepalive = message_rows[row].keepalive;
  it.segment_mru = message_rows[row].segment_mru;
  it.transfer_mru = message_rows[row].transfer_mru;
  it.data_length = message_rows[row].data_length;
  return it;
}

/* Writes the message of a row. */
static uint32_t write_row(size_t row, const struct tcpclkit_message *it) {
  const enum part parts = message_rows[row].parts;
  const int has_node = parts == NO_ITEMS || parts == BOTH;
  const uint8_t *list = parts == BOTH ? session_items : total_item;
  const size_t size = parts == BOTH ? sizeof session_items : parts == TOTAL ? 13 : 0;
  return tcpclkit_write_message(it, has_node ? (const uint8_t *)"ipn:1.0" : NULL,
                                has_node ? 7 : 0, size > 0 ? list : NULL, size, ROOM);
}

/* What was written is read as it was written, and written again as it was read. */
static void is_read_back(size_t row, const struct tcpclkit_message *wanted) {
  const uint8_t *bytes = message_rows[row].bytes;
  const size_t length = message_rows[row].length;
  struct tcpclkit_message it, plain;
  uint32_t status = tcpclkit_read_message(bytes, length, 0, &it);
  CHECK(status == (wanted->data_length > 0 ? TCPCLKIT_DATA_TRUNCATED : TCPCLKIT_OK));
  CHECK(it.data_offset == length);
  WRITES(tcpclkit_write_message(&it, bytes + it.node_offset, (size_t)it.node_length,
                                bytes + it.items_offset, (size_t)it.items_length, ROOM),
         bytes, length);
  plain = it;
  memset(&plain.fault, 0, sizeof plain.fault);
  plain.node_offset = plain.node_length = plain.items_offset = plain.items_length = 0;
  plain.data_offset = plain.data_seen = plain.next = 0;
  CHECK(memcmp(&plain, wanted, sizeof plain) == 0);
}

static void messages(void) {
  size_t row;
  for (row = 0; row < MESSAGES; row++) {
    struct tcpclkit_message it = message_in(row);
    WRITES(write_row(row, &it), message_rows[row].bytes, message_rows[row].length);
    is_read_back(row, &it);
    /* These fields are not read. */
    memset(&it.fault, MARK, sizeof it.fault);
    it.node_offset = it.node_length = it.items_offset = it.items_length = UINT64_MAX;
    it.data_offset = it.data_seen = it.next = UINT64_MAX;
    WRITES(write_row(row, &it), message_rows[row].bytes, message_rows[row].length);
  }
}

/* -- longest and refused lists and node IDs */

/* The longest head: a SESS_INIT with the longest node ID and the longest list. */
static void longest_head(void) {
  static uint8_t node[TCPCLKIT_NODE_ID_LIMIT + 1], list[65537], head[TCPCLKIT_HEAD_LIMIT + 1];
  static const struct tcpclkit_written none = {0, 0};
  const struct tcpclkit_message init = message_of(TCPCLKIT_SESS_INIT, 0, 0);
  struct tcpclkit_written written;
  struct tcpclkit_message it;
  size_t room;
  memset(node, 'n', sizeof node);
  memset(list, 'v', sizeof list);
  memcpy(list, "\x00\x00\x02\xff\xfb", 5); /* an item whose value has 65,531 bytes */
  for (room = TCPCLKIT_HEAD_LIMIT - 1; room <= TCPCLKIT_HEAD_LIMIT; room++) {
    const int fits = room == TCPCLKIT_HEAD_LIMIT;
    memset(head, MARK, sizeof head);
    CHECK(tcpclkit_write_message(&init, node, TCPCLKIT_NODE_ID_LIMIT, list, 65536, head, room,
                                 &written) == (fits ? TCPCLKIT_OK : TCPCLKIT_TOO_SMALL));
    CHECK(written.count == (fits ? room : 0) && written.needed == TCPCLKIT_HEAD_LIMIT);
    CHECK(fits || IS_MARKED(head));
  }
  CHECK(head[0] == 7 && memcmp(head + 19, "\x04\x00", 2) == 0 && head[TCPCLKIT_HEAD_LIMIT] == MARK);
  CHECK(memcmp(head + 21, node, TCPCLKIT_NODE_ID_LIMIT) == 0);
  CHECK(memcmp(head + 1045, "\x00\x01\x00\x00", 4) == 0 && memcmp(head + 1049, list, 65536) == 0);
  CHECK(tcpclkit_read_message(head, TCPCLKIT_HEAD_LIMIT, 0, &it) == TCPCLKIT_OK);
  CHECK(it.node_length == TCPCLKIT_NODE_ID_LIMIT && it.items_length == 65536);
  memset(head, MARK, sizeof head);
  LEAVES(tcpclkit_write_message(&init, node, sizeof node, NULL, 0, head, sizeof head, &written),
         TCPCLKIT_RANGE, head);
  CHECK(memcmp(&written, &none, sizeof none) == 0);
  LEAVES(tcpclkit_write_message(&init, NULL, 0, list, 65535, head, sizeof head, &written),
         TCPCLKIT_RANGE, head);
  /* two items: of 65,531 and of 5 bytes, and then of one byte more */
  memcpy(list, "\x00\x00\x02\xff\xf6", 5);
  memset(list + 65531, 0, 5);
  CHECK(tcpclkit_write_message(&init, NULL, 0, list, 65536, head, sizeof head, &written) ==
        TCPCLKIT_OK);
  memcpy(list, "\x00\x00\x02\xff\xf7", 5);
  memset(list + 65532, 0, 5);
  memset(head, MARK, sizeof head);
  LEAVES(tcpclkit_write_message(&init, NULL, 0, list, 65537, head, sizeof head, &written),
         TCPCLKIT_RANGE, head);
  CHECK(memcmp(&written, &none, sizeof none) == 0);
}

/* Lists of 64 items, of 65, and of bytes that are no items, for both kinds that have lists. */
static void lists(void) {
  static const uint8_t list[65 * TCPCLKIT_ITEM_LENGTH] = {0};
  static const uint64_t kinds[] = {TCPCLKIT_SESS_INIT, TCPCLKIT_XFER_SEGMENT};
  struct tcpclkit_written written;
  uint8_t bytes[400];
  size_t at, length;
  for (at = 0; at < 2; at++) {
    const int is_segment = kinds[at] == TCPCLKIT_XFER_SEGMENT;
    const struct tcpclkit_message it = message_of(kinds[at], is_segment ? 2 : 0, 0);
    for (length = 0; length <= sizeof list; length++) {
      const int is_list = length % TCPCLKIT_ITEM_LENGTH == 0 && length < sizeof list;
      const size_t size =
          length + (is_segment ? TCPCLKIT_START_LENGTH : TCPCLKIT_SESS_INIT_LENGTH);
      CHECK(tcpclkit_write_message(&it, NULL, 0, list, length, bytes, sizeof bytes, &written) ==
            (is_list ? TCPCLKIT_OK : TCPCLKIT_RANGE));
      CHECK(written.count == (is_list ? size : 0) && written.needed == written.count);
    }
  }
}

/* -- answers to a transfer */

/* The transfer 7, with segments of 100, 200, 500 and 1000 bytes (RFC 9174 section 5.2.3). */
static const struct {
  uint64_t kind, flags, id, acknowledged; /* of the answer */
  uint64_t length, whole;                 /* what was sent */
  uint64_t fault;
} answer_rows[] = {
    {TCPCLKIT_XFER_ACK, 2, 7, 100, 100, 0, TCPCLKIT_NO_FAULT},
    {TCPCLKIT_XFER_ACK, 2, 7, 301, 300, 0, TCPCLKIT_ANSWER_LENGTH_NOT_SENT},
    {TCPCLKIT_XFER_ACK, 0, 7, 300, 300, 0, TCPCLKIT_NO_FAULT},
    {TCPCLKIT_XFER_ACK, 0, 7, 299, 800, 0, TCPCLKIT_ANSWER_LENGTH_FALLS},
    {TCPCLKIT_XFER_ACK, 0, 7, 300, 800, 0, TCPCLKIT_NO_FAULT},
    {TCPCLKIT_XFER_ACK, 0, 8, 800, 800, 0, TCPCLKIT_ANSWER_OTHER_TRANSFER},
    {TCPCLKIT_XFER_ACK, 1, 7, 800, 800, 0, TCPCLKIT_ANSWER_END_TOO_EARLY},
    {TCPCLKIT_XFER_ACK, 0, 7, 800, 800, 0, TCPCLKIT_NO_FAULT},
    {TCPCLKIT_XFER_ACK, 0, 7, UINT64_MAX, 1800, 1, TCPCLKIT_ANSWER_LENGTH_NOT_SENT},
    {TCPCLKIT_XFER_ACK, 1, 7, 800, 1800, 1, TCPCLKIT_ANSWER_END_TOO_EARLY},
    {TCPCLKIT_XFER_ACK, 0xfe, 7, 900, 1800, 1, TCPCLKIT_NO_FAULT},
    {TCPCLKIT_XFER_REFUSE, 0, 6, 0, 1800, 1, TCPCLKIT_ANSWER_OTHER_TRANSFER},
    {TCPCLKIT_XFER_REFUSE, 0, 7, 0, 1800, 1, TCPCLKIT_NO_FAULT},
    {TCPCLKIT_XFER_ACK, 1, 7, 1800, 1800, 1, TCPCLKIT_NO_FAULT},
    {TCPCLKIT_XFER_ACK, 0xff, 7, 1800, 1800, 1, TCPCLKIT_NO_FAULT},
    {TCPCLKIT_XFER_ACK, 0, 7, 0, 1800, 1, TCPCLKIT_ANSWER_LENGTH_FALLS},
};

static void answers(void) {
  struct tcpclkit_sent sent = {7, 0, 0, 0, 0}, wanted;
  size_t row;
  for (row = 0; row < sizeof answer_rows / sizeof *answer_rows; row++) {
    struct tcpclkit_message it =
        message_of(answer_rows[row].kind, answer_rows[row].flags, answer_rows[row].id);
    const int is_fault = answer_rows[row].fault != TCPCLKIT_NO_FAULT;
    it.acknowledged = answer_rows[row].acknowledged;
    sent.length = answer_rows[row].length;
    sent.whole = answer_rows[row].whole;
    wanted = sent;
    wanted.fault = answer_rows[row].fault;
    if (!is_fault && it.kind == TCPCLKIT_XFER_ACK)
      wanted.acknowledged = it.acknowledged;
    CHECK(tcpclkit_judge_answer(&sent, &it) == (is_fault ? TCPCLKIT_FAULT : TCPCLKIT_OK));
    CHECK(memcmp(&sent, &wanted, sizeof sent) == 0);
  }
  /* of a transfer without data, END acknowledges the whole, which has no bytes */
  memset(&sent, 0, sizeof sent);
  sent.id = UINT64_MAX;
  wanted = sent;
  {
    const struct tcpclkit_message end = message_of(TCPCLKIT_XFER_ACK, 3, UINT64_MAX);
    CHECK(tcpclkit_judge_answer(&sent, &end) == TCPCLKIT_FAULT);
    CHECK(sent.fault == TCPCLKIT_ANSWER_END_TOO_EARLY);
    sent.whole = wanted.whole = 1;
    CHECK(tcpclkit_judge_answer(&sent, &end) == TCPCLKIT_OK);
    CHECK(memcmp(&sent, &wanted, sizeof sent) == 0);
  }
}

/* What the stack of the writers is measured with. Its variables are static, so that they are not on
 * it. */
void call_message_writers(void) {
  static struct tcpclkit_message init;
  static struct tcpclkit_sent sent = {7, 0, 0, 0, 0};
  static struct tcpclkit_written written;
  static uint8_t node[TCPCLKIT_NODE_ID_LIMIT], bytes[2000];
  tcpclkit_write_contact(0, bytes, sizeof bytes, &written);
  tcpclkit_write_item(0, 1, node, 8, bytes, sizeof bytes, &written);
  tcpclkit_write_total(0, 8, bytes, sizeof bytes, &written);
  init.kind = TCPCLKIT_SESS_INIT;
  tcpclkit_write_message(&init, node, sizeof node, session_items, sizeof session_items, bytes,
                         sizeof bytes, &written);
  init.kind = TCPCLKIT_XFER_ACK;
  init.id = 7;
  tcpclkit_judge_answer(&sent, &init);
}

void test_message_writers(void) {
  contacts();
  items();
  totals();
  longest_item();
  messages();
  longest_head();
  lists();
  answers();
}
