/*
 * Calls each function with two of its arguments in the same bytes, whichever two they are. If the
 * call writes one of the two, it answers TCPCLKIT_RANGE and leaves all as it was.
 */
#include "clib.h"

#include <stdio.h>

/* What a call does with an argument. One that is CLEARED is 0 after a refusal, unless it is one of
 * the two. */
enum role { READ, WRITTEN, CLEARED };

struct argument {
  size_t length;
  enum role role;
  size_t step;         /* what the address is a multiple of */
  const void *content; /* what is there before the call, or NULL for marks */
};

enum { MOST = 6 };

struct call {
  const char *name;
  uint32_t (*make)(uint8_t *const *at, const struct argument *lent);
  size_t count;
  struct argument lent[MOST];
};

/* -- what the arguments contain */

static struct tcpclkit_scan scan;
static struct tcpclkit_message message;
static struct tcpclkit_order order;
static struct tcpclkit_unpack_options unpack_options;
static struct tcpclkit_blocks_options blocks_options;
static struct tcpclkit_check_options check_options;
static struct tcpclkit_pack_options pack_options;
static struct tcpclkit_more_options more_options;
static struct tcpclkit_message ack, init;
static struct tcpclkit_bundle fields;
static struct tcpclkit_crc begun;
static const uint8_t zero[] = {0};
static const struct tcpclkit_sent sent = {7, 0, 0, 0, 0};
static const struct tcpclkit_eid eid = {TCPCLKIT_EID_DTN, 0, 0, 0, 4};
static const struct tcpclkit_block primary = {1, 1, 21, 0, 0, 4, 0, 0, 0, 0};
static const struct tcpclkit_block counting = {2, 32, 9, 10, 3, 0, 0, 38, 3, 3};

static void make_contents(void) {
  uint64_t taken;
  tcpclkit_start_scan(&scan);
  tcpclkit_feed_scan(&scan, named, 20, &taken);
  tcpclkit_read_message(announcing, sizeof announcing, 0, &message);
  tcpclkit_start_order(&order);
  tcpclkit_unpack_defaults(&unpack_options);
  tcpclkit_blocks_defaults(&blocks_options);
  tcpclkit_check_defaults(&check_options);
  tcpclkit_pack_defaults(&pack_options);
  tcpclkit_more_defaults(&more_options);
  ack = message_of(TCPCLKIT_XFER_ACK, 0, 7);
  init = message_of(TCPCLKIT_SESS_INIT, 0, 0);
  fields.destination = fields.source = fields.report_to = eid;
  tcpclkit_start_check(&begun, TCPCLKIT_CHECK_CRC32);
}

/* -- the calls */

#define STRUCT(type, role, content) {sizeof(struct tcpclkit_##type), role, 8, content}
#define NUMBER(role) {sizeof(uint64_t), role, 8, NULL}
#define BYTES(content) {sizeof content, READ, 1, content}
#define ROOM(length) {length, WRITTEN, 1, NULL}

#define CALL(name) static uint32_t name(uint8_t *const *at, const struct argument *lent)
#define A(type, number) ((struct tcpclkit_##type *)(void *)at[number])
#define N(number) ((uint64_t *)(void *)at[number])
#define S(number) at[number], lent[number].length

CALL(judge_bundle) { return tcpclkit_judge_bundle(S(1), A(verdict, 0)); }
CALL(describe_bundle) {
  return tcpclkit_describe_bundle(S(4), S(1), S(2), S(3), A(bundle, 0));
}
CALL(feed_scan) { return tcpclkit_feed_scan(A(scan, 0), S(2), N(1)); }
CALL(next_block) { return tcpclkit_next_block(A(scan, 0), S(3), N(1), A(block, 2)); }
CALL(judge_block) {
  (void)lent;
  return tcpclkit_judge_block(A(scan, 1), A(block, 0));
}
CALL(judge_scan) {
  (void)lent;
  return tcpclkit_judge_scan(A(scan, 1), A(verdict, 0));
}
CALL(end_scan) {
  (void)lent;
  return tcpclkit_end_scan(A(scan, 1), 20, A(verdict, 0));
}
CALL(describe_scan) {
  return tcpclkit_describe_scan(A(scan, 4), S(1), S(2), S(3), A(bundle, 0));
}
CALL(read_contact) { return tcpclkit_read_contact(S(1), A(contact, 0)); }
CALL(read_message) { return tcpclkit_read_message(S(1), 0, A(message, 0)); }
CALL(read_item) { return tcpclkit_read_item(S(1), A(message, 2), 14, A(item, 0)); }
CALL(read_announced) { return tcpclkit_read_announced(S(1), A(message, 2), A(announced, 0)); }
CALL(judge_message) {
  (void)lent;
  return tcpclkit_judge_message(A(order, 0), A(message, 2), A(turn, 1));
}
CALL(take_message) {
  (void)lent;
  return tcpclkit_take_message(A(order, 0), A(message, 2), A(turn, 1));
}
CALL(write_fault_text) { return tcpclkit_write_fault_text(1, 0, S(0), N(1)); }
CALL(write_eid_text) { return tcpclkit_write_eid_text(A(eid, 2), S(3), S(0), N(1)); }
CALL(read_block_data) {
  return tcpclkit_read_block_data(A(block, 2), A(block, 3), S(4), S(0), N(1));
}
CALL(list) { return tcpclkit_list(S(3), S(0), S(1), A(run, 2)); }
CALL(unpack) { return tcpclkit_unpack(S(3), A(unpack_options, 4), S(0), S(1), A(run, 2)); }
CALL(blocks) { return tcpclkit_blocks(S(3), A(blocks_options, 4), S(0), S(1), A(run, 2)); }
CALL(check) { return tcpclkit_check(S(3), A(check_options, 4), S(0), S(1), A(run, 2)); }
CALL(pack) { return tcpclkit_pack(S(3), A(pack_options, 4), S(5), S(0), S(1), A(run, 2)); }
CALL(pack_more) { return tcpclkit_pack_more(S(3), A(more_options, 4), S(0), S(1), A(run, 2)); }
CALL(judge_answer) {
  (void)lent;
  return tcpclkit_judge_answer(A(sent, 0), A(message, 1));
}
CALL(write_contact) { return tcpclkit_write_contact(0, S(0), A(written, 1)); }
CALL(write_item) { return tcpclkit_write_item(0, 1, S(2), S(0), A(written, 1)); }
CALL(write_total) { return tcpclkit_write_total(0, 1, S(0), A(written, 1)); }
CALL(write_message) {
  return tcpclkit_write_message(A(message, 2), S(3), S(4), S(0), A(written, 1));
}
CALL(write_primary) {
  return tcpclkit_write_primary(A(bundle, 2), 2, S(3), S(4), S(5), S(0), A(written, 1));
}
CALL(write_block_head) { return tcpclkit_write_block_head(A(block, 2), S(0), A(written, 1)); }
CALL(feed_check) { return tcpclkit_feed_check(A(crc, 0), S(1)); }
CALL(end_check) {
  (void)lent;
  return tcpclkit_end_check(A(crc, 1), N(0));
}
CALL(write_check) { return tcpclkit_write_check(A(crc, 2), S(0), A(written, 1)); }
CALL(write_eid) { return tcpclkit_write_eid(A(eid, 2), S(3), S(0), A(written, 1)); }
CALL(write_age) { return tcpclkit_write_age(5, S(0), A(written, 1)); }
CALL(write_hop_count) { return tcpclkit_write_hop_count(30, 2, S(0), A(written, 1)); }
CALL(read_eid_text) { return tcpclkit_read_eid_text(S(2), A(eid, 0), S(1)); }
CALL(write_reason_text) { return tcpclkit_write_reason_text(3, 2, S(0), N(1)); }
CALL(write_report_reason_text) { return tcpclkit_write_report_reason_text(1, S(0), N(1)); }
CALL(write_block_type_text) { return tcpclkit_write_block_type_text(7, S(0), N(1)); }

static const uint8_t node[7] = {'i', 'p', 'n', ':', '1', '.', '0'};
static const uint8_t name[4] = {'/', '/', 'b', 'c'};
static const uint8_t hops[3] = {0x82, 4, 1};
static const uint8_t item[5] = {0, 1, 2, 0, 0};
static const uint8_t text[8] = {'d', 't', 'n', ':', '/', '/', 'b', 'c'};

#define NAMES ROOM(9), ROOM(9), ROOM(9)
#define TEXTS ROOM(400), ROOM(200), STRUCT(run, WRITTEN, NULL)
/* What each writer of messages and bundles writes. */
#define INTO(room) ROOM(room), STRUCT(written, CLEARED, NULL)

static const struct call calls[] = {
    {"judge_bundle", judge_bundle, 2, {STRUCT(verdict, WRITTEN, NULL), BYTES(bundle)}},
    {"describe_bundle", describe_bundle, 5,
     {STRUCT(bundle, WRITTEN, NULL), NAMES, BYTES(reported)}},
    {"feed_scan", feed_scan, 3, {STRUCT(scan, WRITTEN, &scan), NUMBER(CLEARED), BYTES(bundle)}},
    {"next_block", next_block, 4,
     {STRUCT(scan, WRITTEN, &scan), NUMBER(CLEARED), STRUCT(block, CLEARED, NULL),
      BYTES(bundle)}},
    {"judge_block", judge_block, 2, {STRUCT(block, CLEARED, NULL), STRUCT(scan, READ, &scan)}},
    {"judge_scan", judge_scan, 2, {STRUCT(verdict, WRITTEN, NULL), STRUCT(scan, READ, &scan)}},
    {"end_scan", end_scan, 2, {STRUCT(verdict, WRITTEN, NULL), STRUCT(scan, READ, &scan)}},
    {"describe_scan", describe_scan, 5,
     {STRUCT(bundle, WRITTEN, NULL), NAMES, STRUCT(scan, READ, &scan)}},
    {"read_contact", read_contact, 2, {STRUCT(contact, WRITTEN, NULL), BYTES(recording)}},
    {"read_message", read_message, 2, {STRUCT(message, WRITTEN, NULL), BYTES(announcing)}},
    {"read_item", read_item, 3,
     {STRUCT(item, WRITTEN, NULL), BYTES(announcing), STRUCT(message, READ, &message)}},
    {"read_announced", read_announced, 3,
     {STRUCT(announced, WRITTEN, NULL), BYTES(announcing), STRUCT(message, READ, &message)}},
    {"judge_message", judge_message, 3,
     {STRUCT(order, WRITTEN, &order), STRUCT(turn, WRITTEN, NULL),
      STRUCT(message, READ, &message)}},
    {"take_message", take_message, 3,
     {STRUCT(order, WRITTEN, &order), STRUCT(turn, WRITTEN, NULL),
      STRUCT(message, READ, &message)}},
    {"write_fault_text", write_fault_text, 2, {ROOM(64), NUMBER(WRITTEN)}},
    {"write_eid_text", write_eid_text, 4,
     {ROOM(99), NUMBER(WRITTEN), STRUCT(eid, READ, &eid), BYTES(name)}},
    {"read_block_data", read_block_data, 5,
     {ROOM(99), NUMBER(WRITTEN), STRUCT(block, READ, &primary), STRUCT(block, READ, &counting),
      BYTES(hops)}},
    {"list", list, 4, {TEXTS, BYTES(recording)}},
    {"unpack", unpack, 5,
     {TEXTS, BYTES(recording), STRUCT(unpack_options, READ, &unpack_options)}},
    {"blocks", blocks, 5,
     {TEXTS, BYTES(recording), STRUCT(blocks_options, READ, &blocks_options)}},
    {"check", check, 5, {TEXTS, BYTES(recording), STRUCT(check_options, READ, &check_options)}},
    {"pack", pack, 6,
     {TEXTS, BYTES(bundle), STRUCT(pack_options, READ, &pack_options), BYTES(node)}},
    {"pack_more", pack_more, 5,
     {TEXTS, BYTES(bundle), STRUCT(more_options, READ, &more_options)}},
    {"judge_answer", judge_answer, 2,
     {STRUCT(sent, WRITTEN, &sent), STRUCT(message, READ, &ack)}},
    {"write_contact", write_contact, 2, {INTO(9)}},
    {"write_item", write_item, 3, {INTO(19), BYTES(hops)}},
    {"write_total", write_total, 2, {INTO(19)}},
    {"write_message", write_message, 5,
     {INTO(99), STRUCT(message, READ, &init), BYTES(node), BYTES(item)}},
    {"write_primary", write_primary, 6,
     {INTO(99), STRUCT(bundle, READ, &fields), BYTES(name), BYTES(name), BYTES(name)}},
    {"write_block_head", write_block_head, 3, {INTO(54), STRUCT(block, READ, &counting)}},
    /* Over the check, its own bytes leave its numbers in range. Over its end, so does a byte 00. */
    {"feed_check", feed_check, 2, {STRUCT(crc, WRITTEN, &begun), {sizeof begun, READ, 1, &begun}}},
    {"feed_check", feed_check, 2, {STRUCT(crc, WRITTEN, &begun), BYTES(zero)}},
    {"end_check", end_check, 2, {NUMBER(CLEARED), STRUCT(crc, READ, &begun)}},
    {"write_check", write_check, 3, {INTO(5), STRUCT(crc, READ, &begun)}},
    {"write_eid", write_eid, 4, {INTO(9), STRUCT(eid, READ, &eid), BYTES(name)}},
    {"write_age", write_age, 2, {INTO(9)}},
    {"write_hop_count", write_hop_count, 2, {INTO(27)}},
    {"read_eid_text", read_eid_text, 3, {STRUCT(eid, WRITTEN, NULL), ROOM(9), BYTES(text)}},
    {"write_reason_text", write_reason_text, 2, {ROOM(20), NUMBER(WRITTEN)}},
    {"write_report_reason_text", write_report_reason_text, 2, {ROOM(34), NUMBER(WRITTEN)}},
    {"write_block_type_text", write_block_type_text, 2, {ROOM(21), NUMBER(WRITTEN)}},
};

/* -- where the arguments are */

/* Each argument has a place of its own, with room for the longest one before it and after it. */
#define PLACE (3 * sizeof(struct tcpclkit_scan))

static union {
  uint64_t aligned;
  uint8_t bytes[MOST * PLACE];
} memory, before;

/* Puts the arguments into the memory. One of them is moved by some bytes to the place of another. */
static void put_arguments(const struct call *call, uint8_t **at, size_t fixed, size_t moved,
                          ptrdiff_t shift) {
  size_t each;
  memset(&memory, MARK, sizeof memory);
  for (each = 0; each < call->count; each++) {
    at[each] = memory.bytes + each * PLACE + sizeof(struct tcpclkit_scan);
    if (each == moved && fixed != moved)
      at[each] = memory.bytes + fixed * PLACE + sizeof(struct tcpclkit_scan) + shift;
  }
  for (each = 0; each < call->count; each++)
    if (call->lent[each].content != NULL)
      memcpy(at[each], call->lent[each].content, call->lent[each].length);
  before = memory;
}

static void check_call(const struct call *call, int holds, const char *what) {
  char words[99];
  sprintf(words, "%.20s: %.70s", call->name, what);
  count(holds, __FILE__, __LINE__, words);
}

/* Two arguments overlap by these bytes, so the call is refused. */
static void is_refused(const struct call *call, size_t fixed, size_t moved, ptrdiff_t shift) {
  uint8_t *at[MOST];
  size_t each;
  put_arguments(call, at, fixed, moved, shift);
  check_call(call, call->make(at, call->lent) == TCPCLKIT_RANGE, "the status of an overlap");
  for (each = 0; each < call->count; each++)
    if (call->lent[each].role == CLEARED && each != fixed && each != moved)
      memset(before.bytes + (at[each] - memory.bytes), 0, call->lent[each].length);
  check_call(call, memcmp(&memory, &before, sizeof memory) == 0, "what an overlap leaves");
}

/* One argument ends where another begins, so the call is made. */
static void is_made(const struct call *call, size_t fixed, size_t moved, ptrdiff_t shift,
                    uint32_t status) {
  uint8_t *at[MOST];
  put_arguments(call, at, fixed, moved, shift);
  check_call(call, call->make(at, call->lent) == status, "the status of neighbours");
}

/* Tries two arguments, of which the call writes at least one. */
static void overlap(const struct call *call, size_t one, size_t other, uint32_t status) {
  const int is_fixed = call->lent[one].step >= call->lent[other].step;
  const size_t fixed = is_fixed ? one : other, moved = is_fixed ? other : one;
  const ptrdiff_t longest = (ptrdiff_t)call->lent[fixed].length;
  const ptrdiff_t length = (ptrdiff_t)call->lent[moved].length;
  const ptrdiff_t step = (ptrdiff_t)call->lent[moved].step;
  is_refused(call, fixed, moved, 0);
  is_refused(call, fixed, moved, longest - step);
  is_refused(call, fixed, moved, step - length);
  is_made(call, fixed, moved, longest, status);
  is_made(call, fixed, moved, -length, status);
}

void test_overlaps(void) {
  uint8_t *at[MOST];
  size_t row, one, other;
  make_contents();
  for (row = 0; row < sizeof calls / sizeof *calls; row++) {
    const struct call *call = calls + row;
    uint32_t status;
    put_arguments(call, at, 0, 0, 0);
    status = call->make(at, call->lent);
    check_call(call, status != TCPCLKIT_RANGE && status != TCPCLKIT_NULL, "the status");
    for (one = 0; one < call->count; one++)
      for (other = one + 1; other < call->count; other++)
        if (call->lent[one].role != READ || call->lent[other].role != READ)
          overlap(call, one, other, status);
  }
}
