/*
 * Runs the code that the header shows. tests/gate/clib takes each piece of it from the comments of
 * include/tcpclkit.h as it is, and writes it to a file shown_N.h, where N counts from 1.
 */
#include "clib.h"

/* The bytes that come, how many of them came, and how many may come at a time. */
static struct {
  const uint8_t *bytes;
  size_t length, came, size;
} coming;

static void will_come(const uint8_t *bytes, size_t length, size_t size) {
  coming.bytes = bytes;
  coming.length = length;
  coming.came = 0;
  coming.size = size;
}

/* Returns where the next bytes are, of which there are at most `most`, and their number. */
static const uint8_t *next_bytes(size_t most, size_t *count) {
  const uint8_t *start = coming.bytes + coming.came;
  const size_t left = coming.length - coming.came;
  *count = left < most ? left : most;
  *count = *count < coming.size ? *count : coming.size;
  coming.came += *count;
  return start;
}

/* The same, into a buffer. */
static size_t receive_into(uint8_t *buffer, size_t most) {
  size_t count;
  const uint8_t *start = next_bytes(most, &count);
  memcpy(buffer, start, count);
  return count;
}

/* What was used so far. */
static struct {
  uint8_t bytes[200];
  size_t length, times;
} used_so_far;

static void use_bytes(const uint8_t *bytes, uint64_t length) {
  CHECK(used_so_far.length + length <= sizeof used_so_far.bytes);
  memcpy(used_so_far.bytes + used_so_far.length, bytes, (size_t)length);
  used_so_far.length += (size_t)length;
  used_so_far.times++;
}

static int has_used(const char *bytes, size_t length) {
  return used_so_far.length == length && memcmp(used_so_far.bytes, bytes, length) == 0;
}

static void use_none(void) { memset(&used_so_far, 0, sizeof used_so_far); }

/* -- a bundle in one slice */

static uint64_t refused_code, refused_offset;
static int needs_more;

static void shown_verdict(const uint8_t *bytes, size_t length) {
  use_none();
  refused_code = 0;
  needs_more = 0;
#define use(payload, size) use_bytes(payload, size)
#define read_more() (needs_more = 1)
#define refuse(code, offset) (refused_code = (code), refused_offset = (offset))
#include "shown_1.h"
#undef use
#undef read_more
#undef refuse
}

static void verdicts(void) {
  size_t length;
  shown_verdict(bundle, BUNDLE_LENGTH);
  CHECK(has_used("hello", 5) && !needs_more && refused_code == 0);
  for (length = 0; length < BUNDLE_LENGTH; length++) {
    shown_verdict(bundle, length);
    CHECK(has_used("", 0) && needs_more && refused_code == 0);
  }
  shown_verdict(bundle, sizeof bundle);
  CHECK(refused_code == TCPCLKIT_BUNDLE_TRAILING && refused_offset == BUNDLE_LENGTH);
  CHECK(has_used("", 0) && !needs_more);
}

/* -- a scan */

static uint32_t shown_scan(struct tcpclkit_verdict *found) {
  uint8_t piece[sizeof several];
  size_t length;
#define receive(room) receive_into(room, sizeof(room))
#include "shown_2.h"
#undef receive
  *found = verdict;
  return status;
}

static void scans(void) {
  uint8_t longer[sizeof several + 5] = {0}, bad[sizeof several];
  struct tcpclkit_verdict found, whole;
  size_t size, length;
  memcpy(longer, several, sizeof several);
  memcpy(bad, several, sizeof bad);
  bad[30] ^= 1;
  for (size = 1; size <= sizeof several; size++) {
    for (length = 0; length <= sizeof longer; length++) {
      will_come(longer, length, size);
      CHECK(shown_scan(&found) == tcpclkit_judge_bundle(longer, length, &whole));
      CHECK(memcmp(&found, &whole, sizeof found) == 0 && coming.came == length);
    }
    will_come(bad, sizeof bad, size);
    CHECK(shown_scan(&found) == TCPCLKIT_FAULT);
    CHECK(found.fault.code == TCPCLKIT_BUNDLE_CHECK_DIFFERS && found.fault.offset == 29);
  }
}

/* -- the data of blocks */

static uint64_t used_types[60];

static void use_block(const struct tcpclkit_block *block, const uint8_t *bytes, uint64_t length) {
  used_types[used_so_far.times] = block->block_type;
  use_bytes(bytes, length);
}

/* Hands on the data of the blocks. Returns the last status. */
static uint32_t shown_blocks(void) {
  struct tcpclkit_scan scan;
  struct tcpclkit_block block;
  const uint8_t *at = coming.bytes;
  size_t left = 0;
  uint32_t status;
  use_none();
  tcpclkit_start_scan(&scan);
#define use(block, bytes, length) use_block(block, bytes, length)
#define receive(start) (*(start) = next_bytes(coming.size, &left), left)
#include "shown_3.h"
#undef use
#undef receive
  return status;
}

static void blocks(void) {
  size_t size, length;
  for (size = 1; size <= sizeof several; size++) {
    for (length = 0; length < sizeof several; length++) {
      static const size_t places[] = {28, 38, 39, 40, 47, 48};
      size_t data = 0;
      while (data < 6 && places[data] < length)
        data++;
      will_come(several, length, size);
      CHECK(shown_blocks() == TCPCLKIT_GOING_ON && has_used("\x05\x82\x04\x01hi", data));
    }
    will_come(several, sizeof several, size);
    CHECK(shown_blocks() == TCPCLKIT_OK && has_used("\x05\x82\x04\x01hi", 6));
    CHECK(used_types[0] == 7 && used_types[used_so_far.times - 1] == 1);
    CHECK(size > 1 || used_so_far.times == 6);
    will_come(bundle, sizeof bundle, size);
    CHECK(shown_blocks() == TCPCLKIT_OK && has_used("hello", 5));
  }
}

/* -- a receiver whose ring is smaller than a segment */

static uint32_t code_of(const struct tcpclkit_fault *fault) { return (uint32_t)fault->code; }

/* Receives the messages of a session. Returns 0, or the code of the first fault. */
static uint32_t shown_messages(void) {
  uint8_t buffer[40];
  uint32_t status;
  use_none();
#define use(message, bytes, length) use_bytes(bytes, length)
#define refuse(fault) code_of(fault)
#define disorder(code) (uint32_t)(code)
#define receive(start, room) receive_into(start, room)
#define truncated() (uint32_t)TCPCLKIT_WIRE_TRUNCATED
#include "shown_4.h"
#undef use
#undef refuse
#undef disorder
#undef receive
#undef truncated
}

static void messages(void) {
  const uint8_t *start = recording + TCPCLKIT_CONTACT_LENGTH;
  const size_t length = sizeof recording - TCPCLKIT_CONTACT_LENGTH;
  const char *data = (const char *)bundle;
  size_t size, cut;
  for (size = 1; size < 50; size++) {
    will_come(start, length, size);
    CHECK(shown_messages() == 0 && has_used(data, BUNDLE_LENGTH));
    for (cut = 0; cut < length; cut++) {
      will_come(start, cut, size);
      CHECK(shown_messages() == (cut == 0 || cut == 32 ? 0u : (uint32_t)TCPCLKIT_WIRE_TRUNCATED));
      CHECK(has_used(data, cut < 54 ? 0 : cut - 54));
    }
    will_come(start + 32, length - 32, size);
    CHECK(shown_messages() == TCPCLKIT_ORDER_SEGMENT_BEFORE_SESS_INIT && has_used("", 0));
    will_come(recording, length, size);
    CHECK(shown_messages() == TCPCLKIT_WIRE_UNKNOWN_TYPE && has_used("", 0));
  }
}

/* -- the items of a message */

static void use_item(const struct tcpclkit_item *item) {
  CHECK(item->value_length == (used_so_far.times == 0 ? 8u : 0u));
  used_so_far.times++;
}

static void items(void) {
  static const uint8_t bytes[] = {0x01, 0x02, 0, 0, 0, 0, 0, 0, 0, 5, 0, 0, 0, 0x12, 1, 0, 1, 0, 8,
                                  0,    0,    0, 0, 0, 0, 1, 0, 0, 0, 2, 0, 0, 0,    0, 0, 0, 0, 0,
                                  0,    0};
  const size_t length = sizeof bytes;
  struct tcpclkit_message message;
  struct tcpclkit_item item;
  uint64_t offset;
  use_none();
  CHECK(tcpclkit_read_message(bytes, length, 0, &message) == TCPCLKIT_OK);
#define use(item) use_item(item)
#include "shown_5.h"
#undef use
  CHECK(used_so_far.times == 2 && offset == message.items_offset + message.items_length);
}

/* -- an acknowledgment */

static void acknowledgments(void) {
  static const uint8_t wanted[] = {0x02, 0x03, 0, 0, 0, 0, 0, 0, 0, 0, 0, 0, 0, 0, 0, 0, 0, 0x22};
  struct tcpclkit_message segment;
  struct tcpclkit_written written;
  uint8_t bytes[TCPCLKIT_ACK_LENGTH];
  CHECK(tcpclkit_read_message(recording, sizeof recording, 38, &segment) == TCPCLKIT_OK);
  {
    const uint64_t received = segment.data_length;
    use_none();
#define send(bytes, count) use_bytes(bytes, count)
#include "shown_6.h"
#undef send
  }
  CHECK(has_used((const char *)wanted, sizeof wanted) && used_so_far.times == 1);
}

/* -- a block whose data comes in pieces */

static void write_shown(const struct tcpclkit_block block) {
  struct tcpclkit_written written;
  struct tcpclkit_crc check;
  uint8_t bytes[TCPCLKIT_BLOCK_HEAD_ROOM], piece[sizeof several];
  size_t length;
  use_none();
#define send(bytes, count) use_bytes(bytes, count)
#define next_piece(room) receive_into(room, sizeof(room))
#include "shown_7.h"
#undef send
#undef next_piece
}

/* Each block of a bundle with a block of each check type. */
static void written_blocks(void) {
  struct tcpclkit_scan scan;
  struct tcpclkit_block block;
  uint64_t taken;
  size_t at = 0, size, blocks = 0;
  tcpclkit_start_scan(&scan);
  while (tcpclkit_next_block(&scan, several + at, sizeof several - at, &taken, &block) ==
         TCPCLKIT_GOING_ON) {
    at += (size_t)taken;
    for (size = 1; size <= 4 && block.kind == TCPCLKIT_BLOCK_CANONICAL; size++) {
      will_come(several + block.data_offset, (size_t)block.data_length, size);
      write_shown(block);
      CHECK(has_used((const char *)several + block.offset, (size_t)block.length));
    }
    blocks++;
  }
  CHECK(blocks == 4);
}

void test_shown(void) {
  verdicts();
  scans();
  blocks();
  messages();
  items();
  acknowledgments();
  written_blocks();
}
