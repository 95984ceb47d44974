/* Calls the functions of the C library for recordings: messages, their items, and their order. */
#include "clib.h"

static void messages(void) {
  struct tcpclkit_contact contact;
  struct tcpclkit_message message;
  uint8_t other[sizeof recording];
  CHECK(tcpclkit_read_contact(recording, sizeof recording, &contact) == TCPCLKIT_OK);
  CHECK(contact.flags == 0);
  CHECK(tcpclkit_read_contact(recording, TCPCLKIT_CONTACT_LENGTH, &contact) == TCPCLKIT_OK);
  CHECK(tcpclkit_read_contact(recording, 5, &contact) == TCPCLKIT_TRUNCATED);
  CHECK(contact.fault.code == TCPCLKIT_WIRE_TRUNCATED && contact.fault.offset == 0);
  CHECK(tcpclkit_read_contact(NULL, 0, &contact) == TCPCLKIT_TRUNCATED);
  memcpy(other, recording, sizeof recording);
  other[4] = 3;
  CHECK(tcpclkit_read_contact(other, sizeof other, &contact) == TCPCLKIT_FAULT);
  CHECK(contact.fault.code == TCPCLKIT_WIRE_BAD_VERSION && contact.fault.number == 3);
  CHECK(tcpclkit_read_message(recording, sizeof recording, TCPCLKIT_CONTACT_LENGTH, &message) ==
        TCPCLKIT_OK);
  CHECK(message.kind == TCPCLKIT_SESS_INIT && message.keepalive == 60);
  CHECK(message.segment_mru == 65536 && message.transfer_mru == 1048576);
  CHECK(message.node_length == 7 && begins(recording + message.node_offset, "ipn:1.0"));
  CHECK(message.items_length == 0 && message.data_length == 0 && message.next == 38);
  CHECK(tcpclkit_read_message(recording, sizeof recording, 38, &message) == TCPCLKIT_OK);
  CHECK(message.kind == TCPCLKIT_XFER_SEGMENT && message.id == 0);
  CHECK(message.flags == (TCPCLKIT_SEGMENT_START | TCPCLKIT_SEGMENT_END));
  CHECK(message.data_offset == 60 && message.data_length == 34 && message.next == 94);
  CHECK(message.data_seen == 34 && message.fault.code == TCPCLKIT_NO_FAULT);
  CHECK(tcpclkit_read_message(recording, sizeof recording, 94, &message) == TCPCLKIT_END);
  CHECK(tcpclkit_read_message(recording, sizeof recording, 95, &message) == TCPCLKIT_RANGE);
  CHECK(tcpclkit_read_message(recording, sizeof recording, UINT64_MAX, &message) == TCPCLKIT_RANGE);
  CHECK(tcpclkit_read_message(recording, 93, 38, &message) == TCPCLKIT_DATA_TRUNCATED);
  CHECK(message.data_offset == 60 && message.data_length == 34 && message.data_seen == 33);
  CHECK(message.fault.code == TCPCLKIT_WIRE_TRUNCATED && message.fault.number == 0);
  CHECK(message.fault.offset == 38);
  /* A loop that passes over the status ends at `next`. */
  CHECK(message.next == 94);
  CHECK(tcpclkit_read_message(recording, 93, message.next, &message) == TCPCLKIT_RANGE);
  memcpy(other, recording, sizeof recording);
  memset(other + 52, 0xff, 8);
  CHECK(tcpclkit_read_message(other, sizeof other, 38, &message) == TCPCLKIT_DATA_TRUNCATED);
  CHECK(message.data_length == UINT64_MAX && message.data_seen == 34);
  CHECK(message.next == UINT64_MAX);
  CHECK(tcpclkit_read_message(recording, 59, 38, &message) == TCPCLKIT_TRUNCATED);
  CHECK(message.fault.code == TCPCLKIT_WIRE_TRUNCATED && message.fault.offset == 38);
  CHECK(tcpclkit_read_message(recording, sizeof recording, 0, &message) == TCPCLKIT_FAULT);
  CHECK(message.fault.code == TCPCLKIT_WIRE_UNKNOWN_TYPE && message.fault.number == 0x64);
  CHECK(tcpclkit_read_message(NULL, 0, 0, &message) == TCPCLKIT_END);
  CHECK(tcpclkit_read_message(NULL, 1, 0, &message) == TCPCLKIT_NULL);
}

static void items(void) {
  static const uint8_t other[] = {1, 0, 2, 0, 3, 'a', 'b', 'c'};
  struct tcpclkit_message message, list;
  struct tcpclkit_item item;
  uint64_t end;
  CHECK(tcpclkit_read_message(announcing, sizeof announcing, 0, &message) ==
        TCPCLKIT_DATA_TRUNCATED);
  CHECK(message.items_offset == 14 && message.items_length == 13 && message.data_length == 3);
  CHECK(message.flags == TCPCLKIT_SEGMENT_START);
  end = message.items_offset + message.items_length;
  CHECK(tcpclkit_read_item(announcing, sizeof announcing, &message, 14, &item) == TCPCLKIT_OK);
  CHECK(item.flags == 1 && item.item_type == 1 && item.value_offset == 19 &&
        item.value_length == 8);
  CHECK(item.has_total == 1 && item.total == 256 && item.next == end);
  CHECK(tcpclkit_read_item(announcing, sizeof announcing, &message, end, &item) == TCPCLKIT_END);
  CHECK(tcpclkit_read_item(announcing, sizeof announcing, &message, 13, &item) == TCPCLKIT_RANGE);
  CHECK(tcpclkit_read_item(announcing, sizeof announcing, &message, end + 1, &item) ==
        TCPCLKIT_RANGE);
  CHECK(tcpclkit_read_item(announcing, 26, &message, 14, &item) == TCPCLKIT_RANGE);
  /* the same item in the list of a session, which has no total */
  list = message;
  list.kind = TCPCLKIT_SESS_INIT;
  CHECK(tcpclkit_read_item(announcing, sizeof announcing, &list, 14, &item) == TCPCLKIT_OK);
  CHECK(item.item_type == 1 && item.value_length == 8 && item.has_total == 0 && item.total == 0);
  /* lists that no message has */
  list.kind = TCPCLKIT_XFER_ACK;
  CHECK(tcpclkit_read_item(announcing, sizeof announcing, &list, 14, &item) == TCPCLKIT_RANGE);
  list.kind = 0;
  CHECK(tcpclkit_read_item(announcing, sizeof announcing, &list, 14, &item) == TCPCLKIT_RANGE);
  list = message;
  list.items_length = 12;
  CHECK(tcpclkit_read_item(announcing, sizeof announcing, &list, 14, &item) == TCPCLKIT_FAULT);
  CHECK(item.fault.code == TCPCLKIT_WIRE_ITEMS_OVERRUN && item.fault.offset == 14);
  list.items_length = UINT64_MAX;
  CHECK(tcpclkit_read_item(announcing, sizeof announcing, &list, 14, &item) == TCPCLKIT_RANGE);
  list.items_offset = UINT64_MAX;
  list.items_length = 1;
  CHECK(tcpclkit_read_item(announcing, sizeof announcing, &list, 0, &item) == TCPCLKIT_RANGE);
  list = message_of(TCPCLKIT_XFER_SEGMENT, 0, 0);
  list.items_length = sizeof other;
  CHECK(tcpclkit_read_item(other, sizeof other, &list, 0, &item) == TCPCLKIT_OK);
  CHECK(item.flags == 1 && item.item_type == 2 && item.value_length == 3 && item.has_total == 0);
  list.items_length = 0;
  CHECK(tcpclkit_read_item(NULL, 0, &list, 0, &item) == TCPCLKIT_END);
}

/* Each offset in a list, and one before it and after it. In an item there may seem to be another
 * one. It ends in the list, or it is a fault. */
static void wrong_offsets(void) {
  struct tcpclkit_message message;
  struct tcpclkit_item item;
  const uint64_t start = 14, end = 27;
  uint64_t offset;
  uint32_t status;
  CHECK(tcpclkit_read_message(announcing, sizeof announcing, 0, &message) ==
        TCPCLKIT_DATA_TRUNCATED);
  for (offset = 0; offset <= sizeof announcing + 1; offset++) {
    memset(&item, MARK, sizeof item);
    status = tcpclkit_read_item(announcing, sizeof announcing, &message, offset, &item);
    if (offset < start || offset > end) {
      CHECK(status == TCPCLKIT_RANGE && IS_MARKED(item));
    } else if (offset == end) {
      CHECK(status == TCPCLKIT_END && IS_MARKED(item));
    } else if (status == TCPCLKIT_OK) {
      CHECK(item.value_offset == offset + 5 && item.next == offset + 5 + item.value_length);
      CHECK(item.next <= end);
    } else {
      CHECK(status == TCPCLKIT_FAULT && item.fault.code == TCPCLKIT_WIRE_ITEMS_OVERRUN);
      CHECK(item.fault.offset == offset && item.next == 0 && item.value_length == 0);
    }
  }
  memset(&item, MARK, sizeof item);
  LEAVES(tcpclkit_read_item(announcing, sizeof announcing, &message, UINT64_MAX, &item),
         TCPCLKIT_RANGE, item);
}

/* A segment with these items, each of four numbers: the type, the length, and the last two bytes of
 * a value of 8 bytes, of which it has as many as it says. */
static size_t with_items(uint8_t *bytes, const uint8_t (*items)[4], size_t rows) {
  size_t row, at = 14;
  memset(bytes, 0, 14);
  bytes[0] = TCPCLKIT_XFER_SEGMENT;
  bytes[1] = TCPCLKIT_SEGMENT_START;
  for (row = 0; row < rows; row++) {
    uint8_t value[8] = {0, 0, 0, 0, 0, 0, items[row][2], items[row][3]};
    const uint8_t head[5] = {0, 0, items[row][0], 0, items[row][1]};
    memcpy(bytes + at, head, 5);
    memcpy(bytes + at + 5, value, items[row][1]);
    at += 5u + items[row][1];
  }
  bytes[12] = (uint8_t)((at - 14) >> 8);
  bytes[13] = (uint8_t)(at - 14);
  memset(bytes + at, 0, 8);
  return at + 8;
}

static void announces(const uint8_t (*items)[4], size_t rows, uint64_t kind, uint64_t total) {
  uint8_t bytes[64 * 13 + 22];
  struct tcpclkit_message message;
  struct tcpclkit_announced it;
  size_t length = with_items(bytes, items, rows);
  memset(&it, MARK, sizeof it);
  CHECK(tcpclkit_read_message(bytes, length, 0, &message) == TCPCLKIT_OK);
  CHECK(tcpclkit_read_announced(bytes, length, &message, &it) == TCPCLKIT_OK);
  CHECK(it.kind == kind && it.total == total);
}

static void announcements(void) {
  static const uint8_t one[][4] = {{1, 8, 1, 2}}, short_one[][4] = {{1, 7, 0, 2}};
  static const uint8_t other[][4] = {{2, 8, 1, 2}}, after[][4] = {{3, 0, 0, 0}, {1, 8, 0, 9}};
  static const uint8_t two[][4] = {{1, 8, 1, 2}, {2, 1, 0, 0}, {1, 8, 1, 2}};
  static const uint8_t no_length[][4] = {{1, 8, 1, 2}, {1, 0, 0, 0}};
  static const uint8_t zeros[65 * 5] = {0};
  static uint8_t many[64][4];
  struct tcpclkit_message message, list;
  struct tcpclkit_announced it;
  announces(one, 0, TCPCLKIT_ANNOUNCED_NONE, 0);
  announces(one, 1, TCPCLKIT_ANNOUNCED_TOTAL, 258);
  announces(short_one, 1, TCPCLKIT_ANNOUNCED_BADLY, 0);
  announces(other, 1, TCPCLKIT_ANNOUNCED_NONE, 0);
  announces(after, 2, TCPCLKIT_ANNOUNCED_TOTAL, 9);
  announces(two, 3, TCPCLKIT_ANNOUNCED_BADLY, 0);
  announces(no_length, 2, TCPCLKIT_ANNOUNCED_BADLY, 0);
  memcpy(many[63], one[0], 4);
  announces((const uint8_t (*)[4])many, 64, TCPCLKIT_ANNOUNCED_TOTAL, 258);
  /* a segment without START */
  list = message_of(TCPCLKIT_XFER_SEGMENT, 0, 0);
  CHECK(tcpclkit_read_announced(NULL, 0, &list, &it) == TCPCLKIT_OK && it.kind == 0);
  /* what a caller may get wrong */
  CHECK(tcpclkit_read_message(announcing, sizeof announcing, 0, &message) ==
        TCPCLKIT_DATA_TRUNCATED);
  CHECK(tcpclkit_read_announced(announcing, sizeof announcing, &message, &it) == TCPCLKIT_OK);
  CHECK(it.kind == TCPCLKIT_ANNOUNCED_TOTAL && it.total == 256);
  memset(&it, MARK, sizeof it);
  LEAVES(tcpclkit_read_announced(announcing, 26, &message, &it), TCPCLKIT_RANGE, it);
  list = message;
  list.items_length = 12;
  LEAVES(tcpclkit_read_announced(announcing, 35, &list, &it), TCPCLKIT_RANGE, it);
  list = message;
  list.kind = TCPCLKIT_SESS_INIT;
  LEAVES(tcpclkit_read_announced(announcing, 35, &list, &it), TCPCLKIT_RANGE, it);
  list = message_of(TCPCLKIT_XFER_SEGMENT, 2, 0);
  list.items_length = 65 * 5;
  LEAVES(tcpclkit_read_announced(zeros, sizeof zeros, &list, &it), TCPCLKIT_RANGE, it);
  for (list = message, list.kind = 0; list.kind < 300; list.kind++)
    if (list.kind != TCPCLKIT_XFER_SEGMENT)
      LEAVES(tcpclkit_read_announced(announcing, 35, &list, &it), TCPCLKIT_RANGE, it);
  list = message;
  list.items_offset = UINT64_MAX;
  LEAVES(tcpclkit_read_announced(announcing, 35, &list, &it), TCPCLKIT_RANGE, it);
  list.items_offset = 14;
  list.items_length = UINT64_MAX;
  LEAVES(tcpclkit_read_announced(announcing, 35, &list, &it), TCPCLKIT_RANGE, it);
  LEAVES(tcpclkit_read_announced(NULL, 1, &message, &it), TCPCLKIT_NULL, it);
  LEAVES(tcpclkit_read_announced(announcing, 35, NULL, &it), TCPCLKIT_NULL, it);
  CHECK(tcpclkit_read_announced(announcing, 35, &message, NULL) == TCPCLKIT_NULL);
}

/* A message of each kind that `messages` does not have, and a further segment of a transfer. */
static void kinds(void) {
  static const uint8_t ack[] = {2, 3, 0, 0, 0, 0, 0, 0, 0, 4, 0, 0, 0, 0, 0, 0, 0, 5};
  static const uint8_t refuse[] = {3, 4, 0, 0, 0, 0, 0, 0, 0, 5}, keepalive[] = {4};
  static const uint8_t term[] = {5, 1, 4}, reject[] = {6, 2, 0x16};
  static const uint8_t more[] = {1, 1, 0, 0, 0, 0, 0, 0, 0, 9, 0, 0, 0, 0, 0, 0, 0, 0};
  struct tcpclkit_message it;
  struct tcpclkit_item item;
  CHECK(tcpclkit_read_message(ack, sizeof ack, 0, &it) == TCPCLKIT_OK &&
        it.kind == TCPCLKIT_XFER_ACK);
  CHECK(it.flags == 3 && it.id == 4 && it.acknowledged == 5 && it.next == sizeof ack);
  CHECK(tcpclkit_read_message(refuse, sizeof refuse, 0, &it) == TCPCLKIT_OK);
  CHECK(it.kind == TCPCLKIT_XFER_REFUSE && it.reason == 4 && it.id == 5);
  CHECK(tcpclkit_read_message(keepalive, 1, 0, &it) == TCPCLKIT_OK &&
        it.kind == TCPCLKIT_KEEPALIVE);
  CHECK(it.data_offset == 1 && it.data_length == 0 && it.next == 1);
  CHECK(tcpclkit_read_message(term, sizeof term, 0, &it) == TCPCLKIT_OK);
  CHECK(it.kind == TCPCLKIT_SESS_TERM && it.flags == 1 && it.reason == 4);
  CHECK(tcpclkit_read_message(reject, sizeof reject, 0, &it) == TCPCLKIT_OK);
  CHECK(it.kind == TCPCLKIT_MSG_REJECT && it.reason == 2 && it.header == 0x16);
  CHECK(tcpclkit_read_message(more, sizeof more, 0, &it) == TCPCLKIT_OK && it.id == 9);
  CHECK(it.flags == TCPCLKIT_SEGMENT_END && it.items_length == 0 && it.next == sizeof more);
  CHECK(tcpclkit_read_item(more, sizeof more, &it, it.items_offset, &item) == TCPCLKIT_END);
}

/* A node ID without bytes, and lists without items, are where the caller may ask for them. */
static void empty_parts(void) {
  static const uint8_t init[] = {0x07, 0, 60, 0, 0, 0, 0, 0, 0, 0, 9, 0, 0, 0, 0, 0,
                                 0,    0, 9,  0, 0, 0, 0, 0, 0};
  static const uint8_t start[] = {0x01, 0x02, 0, 0, 0, 0, 0, 0, 0, 5, 0, 0, 0, 0,
                                  0,    0,    0, 0, 0, 0, 0, 0};
  struct tcpclkit_message message;
  struct tcpclkit_item item;
  CHECK(tcpclkit_read_message(init, sizeof init, 0, &message) == TCPCLKIT_OK);
  CHECK(message.node_offset == 21 && message.node_length == 0);
  CHECK(message.items_offset == 25 && message.items_length == 0 && message.next == 25);
  CHECK(tcpclkit_read_item(init, sizeof init, &message, 25, &item) == TCPCLKIT_END);
  CHECK(tcpclkit_read_message(start, sizeof start, 0, &message) == TCPCLKIT_OK);
  CHECK(message.items_offset == 14 && message.items_length == 0 && message.next == 22);
  CHECK(tcpclkit_read_item(start, sizeof start, &message, 14, &item) == TCPCLKIT_END);
}

/* The longest head: a SESS_INIT with the longest node ID and the longest list of items. */
static void longest_head(void) {
  static uint8_t head[TCPCLKIT_HEAD_LIMIT];
  struct tcpclkit_message message;
  head[0] = TCPCLKIT_SESS_INIT;
  head[19] = TCPCLKIT_NODE_ID_LIMIT >> 8;
  head[1046] = 65536 >> 16; /* the length of the list, in 32 bits */
  head[1052] = 65531 >> 8;  /* the length of its one item, in 16 bits */
  head[1053] = 65531 & 255;
  CHECK(tcpclkit_read_message(head, sizeof head, 0, &message) == TCPCLKIT_OK);
  CHECK(message.node_length == TCPCLKIT_NODE_ID_LIMIT && message.items_length == 65536);
  CHECK(message.next == TCPCLKIT_HEAD_LIMIT);
  CHECK(tcpclkit_read_message(head, sizeof head - 1, 0, &message) == TCPCLKIT_TRUNCATED);
}

/* Bytes that are no contact header: a fault once there are as many as a contact header has. */
static void wrong_contacts(void) {
  static const uint8_t wrong[] = {'x', 'x', 'x', 'x', 'x', 'x'};
  struct tcpclkit_contact contact;
  size_t length;
  CHECK(tcpclkit_read_contact(NULL, 0, &contact) == TCPCLKIT_TRUNCATED);
  for (length = 0; length < sizeof wrong; length++)
    CHECK(tcpclkit_read_contact(wrong, length, &contact) == TCPCLKIT_TRUNCATED);
  CHECK(tcpclkit_read_contact(wrong, length, &contact) == TCPCLKIT_FAULT);
  CHECK(contact.fault.code == TCPCLKIT_WIRE_BAD_MAGIC);
}

/* A transfer after a SESS_TERM: by the call that refuses it, and by the one that goes on. An
 * XFER_ACK passes before a SESS_INIT. */
static void refused_transfers(void) {
  struct tcpclkit_order one, other;
  struct tcpclkit_turn turn;
  tcpclkit_start_order(&one);
  CHECK(judge(&one, TCPCLKIT_XFER_ACK, 0, 0, &turn) == TCPCLKIT_OK && one.initiated == 0);
  CHECK(judge(&one, TCPCLKIT_KEEPALIVE, 0, 0, &turn) == TCPCLKIT_OK && one.initiated == 0);
  CHECK(judge(&one, TCPCLKIT_SESS_INIT, 0, 0, &turn) == TCPCLKIT_OK);
  CHECK(judge(&one, TCPCLKIT_SESS_TERM, 0, 0, &turn) == TCPCLKIT_OK);
  other = one;
  CHECK(judge(&one, TCPCLKIT_XFER_SEGMENT, 2, 7, &turn) == TCPCLKIT_FAULT);
  CHECK(turn.fault == TCPCLKIT_ORDER_START_AFTER_SESS_TERM);
  CHECK(judge(&one, TCPCLKIT_XFER_SEGMENT, 0, 7, &turn) == TCPCLKIT_FAULT);
  CHECK(turn.fault == TCPCLKIT_ORDER_NO_SUCH_OPEN_TRANSFER);
  CHECK(take(&other, TCPCLKIT_XFER_SEGMENT, 2, 7, &turn) == TCPCLKIT_FAULT);
  CHECK(turn.fault == TCPCLKIT_ORDER_START_AFTER_SESS_TERM && turn.turn == TCPCLKIT_TURN_BEGIN);
  CHECK(take(&other, TCPCLKIT_XFER_SEGMENT, 1, 7, &turn) == TCPCLKIT_OK);
  CHECK(turn.turn == TCPCLKIT_TURN_CONTINUE && turn.last == 1);
}

static void orders(void) {
  const struct tcpclkit_order none = {0, 0, 0, 0};
  struct tcpclkit_order order;
  struct tcpclkit_turn turn;
  memset(&order, MARK, sizeof order);
  CHECK(tcpclkit_start_order(NULL) == TCPCLKIT_NULL);
  CHECK(tcpclkit_start_order(&order) == TCPCLKIT_OK && memcmp(&order, &none, sizeof none) == 0);
  CHECK(judge(&order, TCPCLKIT_XFER_SEGMENT, 3, 1, &turn) == TCPCLKIT_FAULT);
  CHECK(turn.fault == TCPCLKIT_ORDER_SEGMENT_BEFORE_SESS_INIT);
  CHECK(judge(&order, TCPCLKIT_SESS_INIT, 0, 0, &turn) == TCPCLKIT_OK);
  CHECK(turn.turn == TCPCLKIT_TURN_OTHER && order.initiated == 1);
  CHECK(judge(&order, TCPCLKIT_SESS_INIT, 0, 0, &turn) == TCPCLKIT_FAULT);
  CHECK(turn.fault == TCPCLKIT_ORDER_SECOND_SESS_INIT);
  CHECK(judge(&order, TCPCLKIT_XFER_SEGMENT, 2, 7, &turn) == TCPCLKIT_OK);
  CHECK(turn.turn == TCPCLKIT_TURN_BEGIN && turn.last == 0 && turn.abandons == 0);
  CHECK(order.is_open == 1 && order.transfer == 7);
  CHECK(judge(&order, TCPCLKIT_XFER_SEGMENT, 2, 7, &turn) == TCPCLKIT_FAULT);
  CHECK(turn.fault == TCPCLKIT_ORDER_START_REPEATS_OPEN_ID);
  CHECK(judge(&order, TCPCLKIT_XFER_SEGMENT, 0, 7, &turn) == TCPCLKIT_OK);
  CHECK(turn.turn == TCPCLKIT_TURN_CONTINUE && turn.last == 0);
  CHECK(judge(&order, TCPCLKIT_XFER_SEGMENT, 0, 8, &turn) == TCPCLKIT_FAULT);
  CHECK(turn.fault == TCPCLKIT_ORDER_NO_SUCH_OPEN_TRANSFER && order.transfer == 7);
  CHECK(judge(&order, TCPCLKIT_XFER_SEGMENT, 3, 8, &turn) == TCPCLKIT_OK);
  CHECK(turn.abandons == 1 && turn.abandoned == 7 && turn.last == 1 && order.is_open == 0);
  CHECK(judge(&order, TCPCLKIT_XFER_SEGMENT, 3, 9, &turn) == TCPCLKIT_OK);
  CHECK(turn.turn == TCPCLKIT_TURN_BEGIN && turn.last == 1 && turn.abandons == 0);
  CHECK(judge(&order, TCPCLKIT_SESS_TERM, 0, 0, &turn) == TCPCLKIT_OK);
  CHECK(judge(&order, TCPCLKIT_XFER_SEGMENT, 2, 9, &turn) == TCPCLKIT_FAULT);
  CHECK(turn.fault == TCPCLKIT_ORDER_START_AFTER_SESS_TERM);
  CHECK(judge(&order, 0, 0, 0, &turn) == TCPCLKIT_RANGE);
  CHECK(judge(&order, 8, 0, 0, &turn) == TCPCLKIT_RANGE);
  CHECK(judge(&order, TCPCLKIT_KEEPALIVE, 256, 0, &turn) == TCPCLKIT_RANGE);
  order.initiated = 2;
  CHECK(judge(&order, TCPCLKIT_KEEPALIVE, 0, 0, &turn) == TCPCLKIT_RANGE);
  CHECK(judge(NULL, TCPCLKIT_KEEPALIVE, 0, 0, &turn) == TCPCLKIT_NULL);
}

/* An order that was not started, and kinds, flags and bits that no message and no order has. Neither
 * the order nor the turn is written. */
static void wrong_orders(void) {
  static const uint64_t kinds[] = {0, 8, 0x64, 255, 256, UINT64_MAX};
  static const uint64_t flags[] = {256, 257, UINT32_MAX, UINT64_MAX};
  struct tcpclkit_order order, before;
  struct tcpclkit_turn turn;
  size_t at;
  uint64_t kind;
  memset(&turn, MARK, sizeof turn);
  memset(&order, MARK, sizeof order);
  for (kind = 1; kind <= 7; kind++) {
    LEAVES(judge(&order, kind, 0, 1, &turn), TCPCLKIT_RANGE, turn);
    LEAVES(take(&order, kind, 0, 1, &turn), TCPCLKIT_RANGE, turn);
  }
  CHECK(IS_MARKED(order));
  tcpclkit_start_order(&order);
  CHECK(judge(&order, TCPCLKIT_SESS_INIT, 0, 0, &turn) == TCPCLKIT_OK);
  CHECK(judge(&order, TCPCLKIT_XFER_SEGMENT, 2, 7, &turn) == TCPCLKIT_OK);
  before = order;
  memset(&turn, MARK, sizeof turn);
  for (at = 0; at < sizeof kinds / sizeof *kinds; at++) {
    LEAVES(judge(&order, kinds[at], 2, 9, &turn), TCPCLKIT_RANGE, turn);
    LEAVES(take(&order, kinds[at], 2, 9, &turn), TCPCLKIT_RANGE, turn);
  }
  for (at = 0; at < sizeof flags / sizeof *flags; at++)
    for (kind = 1; kind <= 7; kind++) {
      LEAVES(judge(&order, kind, flags[at], 9, &turn), TCPCLKIT_RANGE, turn);
      LEAVES(take(&order, kind, flags[at], 9, &turn), TCPCLKIT_RANGE, turn);
    }
  CHECK(memcmp(&order, &before, sizeof order) == 0);
  for (at = 0; at < 3; at++) {
    order = before;
    *(at == 0 ? &order.initiated : at == 1 ? &order.terminated : &order.is_open) = 2;
    LEAVES(judge(&order, TCPCLKIT_XFER_SEGMENT, 1, 7, &turn), TCPCLKIT_RANGE, turn);
    LEAVES(take(&order, TCPCLKIT_XFER_SEGMENT, 1, 7, &turn), TCPCLKIT_RANGE, turn);
  }
  /* Only three fields of the message are read, and reserved flags change nothing. */
  order = before;
  CHECK(judge(&order, TCPCLKIT_XFER_SEGMENT, 0xfd, 7, &turn) == TCPCLKIT_OK);
  CHECK(turn.turn == TCPCLKIT_TURN_CONTINUE && turn.last == 1 && order.is_open == 0);
}

/* A session that goes on after each fault of its order. */
static void takes(void) {
  static const struct {
    uint64_t kind, flags, id;
    struct tcpclkit_turn turn;
    int is_open;
  } steps[] = {
      {TCPCLKIT_XFER_SEGMENT, 0, 1, {TCPCLKIT_ORDER_SEGMENT_BEFORE_SESS_INIT, 3, 0, 0, 0}, 0},
      {TCPCLKIT_XFER_SEGMENT, 2, 1, {TCPCLKIT_ORDER_SEGMENT_BEFORE_SESS_INIT, 1, 0, 0, 0}, 1},
      {TCPCLKIT_SESS_INIT, 0, 0, {TCPCLKIT_NO_FAULT, 0, 0, 0, 0}, 1},
      {TCPCLKIT_SESS_INIT, 0, 0, {TCPCLKIT_ORDER_SECOND_SESS_INIT, 0, 0, 0, 0}, 1},
      {TCPCLKIT_XFER_SEGMENT, 2, 1, {TCPCLKIT_ORDER_START_REPEATS_OPEN_ID, 1, 0, 1, 1}, 1},
      {TCPCLKIT_XFER_SEGMENT, 0, 2, {TCPCLKIT_ORDER_NO_SUCH_OPEN_TRANSFER, 3, 0, 0, 0}, 1},
      {TCPCLKIT_XFER_SEGMENT, 0, 1, {TCPCLKIT_NO_FAULT, 2, 0, 0, 0}, 1},
      {TCPCLKIT_SESS_TERM, 0, 0, {TCPCLKIT_NO_FAULT, 0, 0, 0, 0}, 1},
      {TCPCLKIT_XFER_SEGMENT, 3, 5, {TCPCLKIT_ORDER_START_AFTER_SESS_TERM, 1, 1, 1, 1}, 0},
      {TCPCLKIT_KEEPALIVE, 0, 0, {TCPCLKIT_NO_FAULT, 0, 0, 0, 0}, 0},
  };
  struct tcpclkit_order order = {0, 0, 0, 0}, before;
  struct tcpclkit_turn turn;
  size_t at;
  for (at = 0; at < sizeof steps / sizeof *steps; at++) {
    uint32_t status = steps[at].turn.fault == 0 ? TCPCLKIT_OK : TCPCLKIT_FAULT;
    memset(&turn, MARK, sizeof turn);
    CHECK(take(&order, steps[at].kind, steps[at].flags, steps[at].id, &turn) ==
          status);
    CHECK(memcmp(&turn, &steps[at].turn, sizeof turn) == 0);
    CHECK((int)order.is_open == steps[at].is_open);
  }
  before = order;
  memset(&turn, MARK, sizeof turn);
  LEAVES(take(&order, 0, 0, 0, &turn), TCPCLKIT_RANGE, turn);
  LEAVES(take(&order, 8, 0, 0, &turn), TCPCLKIT_RANGE, turn);
  LEAVES(take(&order, TCPCLKIT_KEEPALIVE, 256, 0, &turn), TCPCLKIT_RANGE, turn);
  CHECK(memcmp(&order, &before, sizeof order) == 0);
  CHECK(take(&order, TCPCLKIT_KEEPALIVE, 0, 0, NULL) == TCPCLKIT_NULL);
  CHECK(take(NULL, TCPCLKIT_KEEPALIVE, 0, 0, &turn) == TCPCLKIT_NULL);
}

void test_recordings(void) {
  messages();
  items();
  wrong_offsets();
  announcements();
  kinds();
  empty_parts();
  longest_head();
  wrong_contacts();
  refused_transfers();
  orders();
  wrong_orders();
  takes();
}
