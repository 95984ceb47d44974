/*
 * What is written is read back: the driver makes a session of its input, writes it with the
 * functions of the C library, and reads it. It also writes again what it read elsewhere.
 */
#ifndef TCPCLKIT_WRITING_H
#define TCPCLKIT_WRITING_H

#include "driver.h"

/* -- what the input decides */

/* Bytes of the input from which numbers are drawn. After the last one, each number is 0. */
struct source {
  const uint8_t *bytes;
  size_t length, at;
};

static uint8_t draw_byte(struct source *it) {
  return it->at < it->length ? it->bytes[it->at++] : 0;
}

/* A number below a limit. */
static size_t draw_below(struct source *it, size_t limit) {
  size_t high = draw_byte(it);
  return (high << 8 | draw_byte(it)) % limit;
}

/* A number of any size, or one beside which the length of a head or of a field changes. */
static uint64_t draw(struct source *it) {
  static const uint64_t edges[] = {0,     1,     23,         24,         255,       256,
                                   65535, 65536, 4294967295, 4294967296, UINT64_MAX};
  uint8_t choice = draw_byte(it);
  uint64_t number = 0;
  if (choice & 0x80)
    return edges[choice % (sizeof edges / sizeof *edges)];
  for (choice &= 7; choice > 0; choice--)
    number = number << 8 | draw_byte(it);
  return number;
}

/* A number that mostly fits in a field with this limit, and else is any number. */
static uint64_t draw_fitting(struct source *it, uint64_t limit) {
  uint64_t number = draw(it);
  return limit < UINT64_MAX && number % 8 > 0 ? number % (limit + 1) : number;
}

/* Bytes of the input, which begins again after its end. They stay until the next call but one. */
static const uint8_t *draw_bytes(struct source *it, size_t length) {
  static uint8_t drawn[2][1 << 16];
  static int turn;
  uint8_t *bytes = drawn[turn ^= 1];
  size_t at, size, from = draw_byte(it);
  CHECK(length <= sizeof drawn[0]);
  memset(bytes, 0, length);
  for (at = 0; at < length && it->length > 0; at += size, from = 0) {
    from %= it->length;
    size = least(length - at, it->length - from);
    memcpy(bytes + at, it->bytes + from, size);
  }
  return bytes;
}

/* -- one call that writes */

/* Where a call writes, and what it says. */
static struct {
  uint8_t *bytes;
  size_t room;
  struct tcpclkit_written written;
} into;

#define INTO into.bytes, into.room, &into.written

static void lend_room(int which, size_t room, int fill) {
  into.room = room;
  into.bytes = lend(which, room, fill);
  memset(&into.written, fill, sizeof into.written);
}

/* What a call wrote: all, or nothing. */
static void check_written(uint32_t status, int which, int fill) {
  const struct tcpclkit_written *it = &into.written;
  give_back(which, into.room);
  keeps_rest(into.bytes, into.room, it->count, fill);
  if (status == TCPCLKIT_OK)
    CHECK(it->count == it->needed && it->count <= into.room && it->count > 0);
  else
    CHECK(it->count == 0 && (status == TCPCLKIT_TOO_SMALL ? it->needed > into.room
                                                          : it->needed == 0));
}

/* Makes a call into a room of this size. If the room is large enough, it makes the call again into
 * one that lacks a byte. Then it makes the call into a room of the size that is needed. `into` is
 * that of the last call. */
#define WRITE(status, first, call)                                             \
  do {                                                                         \
    uint64_t needed_;                                                          \
    uint32_t before_;                                                          \
    lend_room(FIRST, first, 0x11);                                             \
    before_ = (call);                                                          \
    check_written(before_, FIRST, 0x11);                                       \
    needed_ = into.written.needed;                                             \
    if (before_ == TCPCLKIT_OK) {                                              \
      lend_room(FIRST, needed_ - 1, 0xee);                                     \
      CHECK((call) == TCPCLKIT_TOO_SMALL && into.written.needed == needed_);   \
      check_written(TCPCLKIT_TOO_SMALL, FIRST, 0xee);                          \
    }                                                                          \
    lend_room(FIRST, before_ == TCPCLKIT_RANGE ? 99 : needed_, 0xee);          \
    (status) = (call);                                                         \
    check_written(status, FIRST, 0xee);                                        \
    CHECK((status) == (before_ == TCPCLKIT_RANGE ? before_ : TCPCLKIT_OK));    \
    CHECK(into.written.needed == needed_);                                     \
    count(30, status, before_, needed_);                                       \
  } while (0)

/* What was written so far. */
static uint8_t stream[MOST];
static size_t streamed;

static int has_room(size_t length) { return length <= sizeof stream - streamed; }

static void append(const uint8_t *bytes, size_t length) {
  CHECK(has_room(length));
  memcpy(stream + streamed, bytes, length);
  streamed += length;
}

/* -- messages */

#define SENT 40
#define LISTED 66

struct list {
  struct tcpclkit_item items[LISTED]; /* offsets are those in `bytes` */
  size_t count, length;
  uint8_t bytes[LIST_MOST + 70000];
};

struct sent {
  struct tcpclkit_message message; /* as it was written */
  size_t at, head, node_length;
  uint8_t node[TCPCLKIT_NODE_ID_LIMIT];
  struct list *list;
};

/* Writes items one after another. There may be too many of them, or too many bytes. */
static void draw_items(struct source *it, struct list *list) {
  size_t items = draw_byte(it), length;
  items = items < 200 ? items % 4 : items < 250 ? items % 9 : 60 + items % 7;
  list->count = list->length = 0;
  while (list->count < items && list->length <= LIST_MOST) {
    struct tcpclkit_item *item = &list->items[list->count];
    uint32_t status;
    const uint8_t *value;
    memset(item, 0, sizeof *item);
    item->flags = draw_fitting(it, 255);
    item->item_type = draw_byte(it) & 1 ? 1 : draw_fitting(it, 65535);
    length = draw_byte(it);
    length = length < 100 ? 8 : length < 250 ? length % 50 : 65526 + length % 10;
    value = draw_bytes(it, length);
    WRITE(status, draw_below(it, 80), tcpclkit_write_item(item->flags, item->item_type, value,
                                                          length, INTO));
    CHECK((status == TCPCLKIT_OK) ==
          (item->flags <= 255 && item->item_type <= 65535 && length <= 65531));
    if (status != TCPCLKIT_OK)
      continue;
    CHECK(into.written.count == TCPCLKIT_ITEM_LENGTH + length);
    memcpy(list->bytes + list->length, into.bytes, into.written.count);
    item->value_offset = list->length + 5;
    item->value_length = length;
    list->length += into.written.count;
    item->next = list->length;
    list->count++;
  }
}

/* Whether each number fits in its field, and is 0 where the kind has no field for it. */
static int fits_message(const struct tcpclkit_message *it) {
  struct tcpclkit_message other = *it;
  uint64_t kind = it->kind;
  int is_ack = kind == TCPCLKIT_XFER_ACK, is_init = kind == TCPCLKIT_SESS_INIT;
  int is_segment = kind == TCPCLKIT_XFER_SEGMENT, is_refuse = kind == TCPCLKIT_XFER_REFUSE;
  int is_term = kind == TCPCLKIT_SESS_TERM, is_reject = kind == TCPCLKIT_MSG_REJECT;
  if (kind < 1 || kind > 7 || it->flags > 255 || it->reason > 255 || it->header > 255 ||
      it->keepalive > 65535)
    return 0;
  if (is_ack || is_segment || is_term)
    other.flags = 0;
  if (is_refuse || is_term || is_reject)
    other.reason = 0;
  if (is_reject)
    other.header = 0;
  if (is_ack || is_segment || is_refuse)
    other.id = 0;
  if (is_ack)
    other.acknowledged = 0;
  if (is_init)
    other.keepalive = other.segment_mru = other.transfer_mru = 0;
  if (is_segment)
    other.data_length = 0;
  return !(other.flags | other.reason | other.header | other.id | other.acknowledged |
           other.keepalive | other.segment_mru | other.transfer_mru | other.data_length);
}

/* The numbers of a message. Some are of fields that its kind does not have. */
static void draw_numbers(struct source *it, struct tcpclkit_message *message) {
  uint8_t more = draw_byte(it);
  int has_any = more > 240;
  uint64_t kind;
  memset(message, has_any ? 0 : more, sizeof *message);
  message->kind = kind = has_any ? draw_fitting(it, 8) : 1u + more % 7;
#define FIELD(field, limit, kinds) \
  message->field = (kinds) || (has_any && draw_byte(it) > 240) ? draw_fitting(it, limit) : 0
  FIELD(flags, 255, kind == 1 || kind == 2 || kind == 5);
  FIELD(reason, 255, kind == 3 || kind == 5 || kind == 6);
  FIELD(header, 255, kind == 6);
  FIELD(id, UINT64_MAX, kind == 1 || kind == 2 || kind == 3);
  FIELD(acknowledged, UINT64_MAX, kind == 2);
  FIELD(keepalive, 65535, kind == 7);
  FIELD(segment_mru, UINT64_MAX, kind == 7);
  FIELD(transfer_mru, UINT64_MAX, kind == 7);
  FIELD(data_length, 300, kind == 1);
#undef FIELD
}

enum outcome { REFUSED, NO_ROOM, SENT_LAST, SENT_ONE };

/* Writes the next message and its data. No message follows one whose data is not all there. */
static enum outcome send_message(struct source *it, struct sent *sent) {
  struct tcpclkit_message *message = &sent->message;
  const uint8_t *node;
  size_t node_length = 0, items_length = 0, wrong = draw_byte(it), data;
  int has_items;
  uint32_t status;
  draw_numbers(it, message);
  has_items = message->kind == TCPCLKIT_SESS_INIT ||
              (message->kind == TCPCLKIT_XFER_SEGMENT && message->flags & 2);
  sent->list->count = sent->list->length = 0;
  if (has_items || wrong > 240)
    draw_items(it, sent->list);
  items_length = sent->list->length - (wrong % 32 == 31 && sent->list->length > 0);
  if (message->kind == TCPCLKIT_SESS_INIT || wrong > 247)
    node_length = wrong % 8 ? wrong % 40 : 1000u + draw_byte(it) % 50;
  node = draw_bytes(it, node_length);
  WRITE(status, draw_below(it, wrong % 4 ? 100 : 1200),
        tcpclkit_write_message(message, node, node_length, sent->list->bytes, items_length, INTO));
  CHECK((status == TCPCLKIT_OK) ==
        (fits_message(message) &&
         (message->kind == TCPCLKIT_SESS_INIT ? node_length <= TCPCLKIT_NODE_ID_LIMIT
                                              : node_length == 0) &&
         (has_items ? items_length == sent->list->length && items_length <= LIST_MOST &&
                          sent->list->count <= 64
                    : items_length == 0)));
  count(31, status, message->kind, items_length);
  if (status != TCPCLKIT_OK)
    return REFUSED;
  CHECK(into.written.count <= TCPCLKIT_HEAD_LIMIT);
  data = message->data_length <= 65536 ? message->data_length : 300;
  if (!has_room(into.written.count + data))
    return NO_ROOM;
  sent->at = streamed;
  sent->head = into.written.count;
  sent->node_length = node_length;
  memcpy(sent->node, node, node_length);
  append(into.bytes, sent->head);
  append(draw_bytes(it, data), data);
  return data == message->data_length ? SENT_ONE : SENT_LAST;
}

/* The fields of a message that both a reader and a writer have. */
static struct tcpclkit_message plain(struct tcpclkit_message it) {
  memset(&it.fault, 0, sizeof it.fault);
  it.node_offset = it.node_length = it.items_offset = it.items_length = 0;
  it.data_offset = it.data_seen = it.next = 0;
  return it;
}

static void read_items_back(const struct sent *sent, const struct tcpclkit_message *message) {
  const struct list *list = sent->list;
  struct tcpclkit_item it;
  uint64_t offset = message->items_offset;
  size_t at;
  for (at = 0; at < list->count; at++, offset = it.next) {
    const struct tcpclkit_item *item = &list->items[at];
    CHECK(tcpclkit_read_item(stream, streamed, message, offset, &it) == TCPCLKIT_OK);
    CHECK(it.flags == item->flags && it.item_type == item->item_type);
    CHECK(it.value_length == item->value_length);
    CHECK(memcmp(stream + it.value_offset, list->bytes + item->value_offset,
                 it.value_length) == 0);
    CHECK(it.next == message->items_offset + item->next);
  }
  CHECK(tcpclkit_read_item(stream, streamed, message, offset, &it) == TCPCLKIT_END ||
        (message->kind != TCPCLKIT_SESS_INIT && message->kind != TCPCLKIT_XFER_SEGMENT));
}

static uint64_t read_message_back(const struct sent *sent) {
  struct tcpclkit_message it, same, wanted;
  uint32_t status = tcpclkit_read_message(stream, streamed, sent->at, &it);
  CHECK(status == TCPCLKIT_OK || (status == TCPCLKIT_DATA_TRUNCATED && it.next > streamed));
  same = plain(it);
  wanted = plain(sent->message);
  SAME(same, wanted);
  CHECK(it.data_offset == sent->at + sent->head && it.node_length == sent->node_length);
  CHECK(it.items_length == sent->list->length);
  CHECK(memcmp(stream + it.node_offset, sent->node, sent->node_length) == 0);
  CHECK(memcmp(stream + it.items_offset, sent->list->bytes, it.items_length) == 0);
  read_items_back(sent, &it);
  return it.next;
}

/* Writes a contact header and messages, and reads them. */
static void ask_session(struct source it) {
  static struct list lists[SENT];
  static struct sent sent[SENT];
  struct tcpclkit_contact contact;
  struct tcpclkit_message message;
  uint64_t flags = draw_fitting(&it, 255), next = TCPCLKIT_CONTACT_LENGTH;
  size_t at, messages = 0;
  uint32_t status;
  enum outcome outcome = REFUSED;
  streamed = 0;
  WRITE(status, draw_below(&it, 9), tcpclkit_write_contact(flags, INTO));
  CHECK((status == TCPCLKIT_OK) == (flags <= 255));
  if (status != TCPCLKIT_OK)
    return;
  append(into.bytes, into.written.count);
  while (messages < SENT && it.at < it.length && (outcome == REFUSED || outcome == SENT_ONE)) {
    sent[messages].list = &lists[messages];
    outcome = send_message(&it, &sent[messages]);
    messages += outcome == SENT_ONE || outcome == SENT_LAST;
  }
  CHECK(tcpclkit_read_contact(stream, streamed, &contact) == TCPCLKIT_OK);
  CHECK(contact.flags == flags);
  for (at = 0; at < messages; at++) {
    CHECK(next == sent[at].at);
    next = read_message_back(&sent[at]);
  }
  if (next == streamed)
    CHECK(tcpclkit_read_message(stream, streamed, next, &message) == TCPCLKIT_END);
  count(32, messages, 0, streamed);
}

/* A message that was read is written as it was. No two messages have the same bytes. */
static void ask_rewritten(const uint8_t *bytes, uint64_t offset,
                          const struct tcpclkit_message *it, size_t room) {
  uint32_t status;
  WRITE(status, room % 99,
        tcpclkit_write_message(it, bytes + it->node_offset, it->node_length,
                               bytes + it->items_offset, it->items_length, INTO));
  CHECK(status == TCPCLKIT_OK && into.written.count == it->data_offset - offset);
  CHECK(memcmp(into.bytes, bytes + offset, into.written.count) == 0);
}

/* An answer is judged by what was sent, as RFC 9174 section 5.2.3 says. */
static void ask_answer(const struct tcpclkit_message *it, const uint64_t *numbers) {
  struct tcpclkit_sent sent = {numbers[0] % 5 ? it->id : numbers[1],
                               numbers[3] % 2 ? numbers[2] : it->acknowledged + numbers[2] % 3,
                               numbers[4] % 9 / 4,
                               numbers[5] % 2 ? numbers[1] : it->acknowledged / 2, 0x11};
  struct tcpclkit_sent before = sent;
  int is_ack = it->kind == TCPCLKIT_XFER_ACK;
  uint64_t fault = TCPCLKIT_NO_FAULT;
  uint32_t status = tcpclkit_judge_answer(&sent, it);
  if (before.id != it->id)
    fault = TCPCLKIT_ANSWER_OTHER_TRANSFER;
  else if (is_ack && it->acknowledged < before.acknowledged)
    fault = TCPCLKIT_ANSWER_LENGTH_FALLS;
  else if (is_ack && it->acknowledged > before.length)
    fault = TCPCLKIT_ANSWER_LENGTH_NOT_SENT;
  else if (is_ack && it->flags & 1 && !(before.whole && it->acknowledged == before.length))
    fault = TCPCLKIT_ANSWER_END_TOO_EARLY;
  if ((!is_ack && it->kind != TCPCLKIT_XFER_REFUSE) || before.whole > 1) {
    CHECK(status == TCPCLKIT_RANGE);
  } else {
    CHECK(status == (fault == TCPCLKIT_NO_FAULT ? TCPCLKIT_OK : TCPCLKIT_FAULT));
    before.fault = fault;
    if (is_ack && fault == TCPCLKIT_NO_FAULT)
      before.acknowledged = it->acknowledged;
  }
  SAME(sent, before);
  count(33, status, fault, it->acknowledged);
}

/* -- names */

/* A name is cut to its room. The call writes `size` bytes of `text` at most, and their number. */
#define ASK_NAME(most, room, call)                                               \
  do {                                                                           \
    uint64_t written = 7, whole;                                                 \
    size_t size = most;                                                          \
    uint8_t *text = lend(FIRST, size, 0x11), *name = text;                       \
    uint32_t status = (call), again;                                             \
    give_back(FIRST, size);                                                      \
    CHECK(status == TCPCLKIT_OK || (status == TCPCLKIT_RANGE && written == 7));  \
    keeps_rest(name, size, status == TCPCLKIT_OK ? written : 0, 0x11);           \
    whole = written;                                                             \
    text = lend(SECOND, size = (room) % 40, 0x11);                               \
    again = (call);                                                              \
    give_back(SECOND, size);                                                     \
    keeps_rest(text, size, status == TCPCLKIT_OK ? written : 0, 0x11);           \
    CHECK(status == TCPCLKIT_OK || (again == TCPCLKIT_RANGE && written == 7));   \
    if (status == TCPCLKIT_OK) {                                                 \
      CHECK(again == (whole > size ? TCPCLKIT_TOO_SMALL : TCPCLKIT_OK));         \
      CHECK(written == least(whole, size) && memcmp(text, name, written) == 0);  \
    }                                                                            \
    count(37, status, most, whole);                                              \
  } while (0)

static void ask_names(const uint64_t *numbers) {
  ASK_NAME(20, numbers[0],
           tcpclkit_write_reason_text(numbers[1] % 9, numbers[2] % 260, text, size, &written));
  ASK_NAME(34, numbers[0],
           tcpclkit_write_report_reason_text(numbers[1] >> numbers[2] % 64, text, size, &written));
  ASK_NAME(21, numbers[0],
           tcpclkit_write_block_type_text(numbers[1] >> numbers[2] % 64, text, size, &written));
}

#endif
