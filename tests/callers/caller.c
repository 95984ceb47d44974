/*
 * Does what tests/gate/library-callers asks for on standard input, with the C library.
 *
 * A job is a line, `NAME NUMBER.. LENGTH`, and LENGTH bytes. The answer is a line, `STATUS OUTPUT
 * REPORT`, and the bytes of two texts, as long as OUTPUT and REPORT say. The jobs are:
 *
 *   show    the blocks of the bundle that the bytes begin with, and its fault if there is one
 *   judge   the verdict on the bytes, where the payload is, and further fields of a good bundle
 *   read    what `list` writes of a recording, made of its messages
 *   walk    what `unpack` writes of a recording, made of its messages and bundles
 *   go-on   what `unpack --keep-going` writes
 *   answers what the answers of a recording do to a transfer with this ID and this length, which is
 *           whole if the third number is 1: the offset of each, its fault, and the length that is
 *           acknowledged
 *   rewrite a recording, read and written message by message, up to its first fault
 *   rebuild a good bundle, read and written block by block; each block has the type of check values
 *           that the number says, or if it is 3 that of the bundle
 *   texts   the names of the number that is the length; and if the text is that of an endpoint ID,
 *           the text again, and a bundle that has the endpoint ID wherever it can have one
 *   list, unpack, blocks, check, pack, more   the tools; NUMBER.. are the options in the order of
 *           their struct. The bytes of `pack` begin with the node ID, and its last number is the
 *           length of that.
 */
#include <inttypes.h>
#include <stdarg.h>
#include <stdio.h>
#include <stdlib.h>
#include <string.h>

#include <tcpclkit.h>

enum { NUMBERS = 8 };

/* A text that grows. */
struct text {
  uint8_t *bytes;
  size_t length, room;
};

struct job {
  char name[16];
  uint64_t numbers[NUMBERS];
  const uint8_t *bytes;
  size_t length;
};

/* The two texts of an answer. */
static struct text output, report;

static void die(const char *why) {
  fprintf(stderr, "caller: %s\n", why);
  exit(2);
}

static void make_room(struct text *text, size_t more) {
  if (text->room - text->length >= more)
    return;
  text->room = 2 * (text->length + more);
  text->bytes = realloc(text->bytes, text->room);
  if (text->bytes == NULL)
    die("out of memory");
}

static void put_bytes(struct text *text, const uint8_t *bytes, size_t length) {
  make_room(text, length);
  if (length > 0)
    memcpy(text->bytes + text->length, bytes, length);
  text->length += length;
}

/* Appends words of less than 500 bytes. */
static void put(struct text *text, const char *format, ...) {
  char words[500];
  va_list values;
  int length;
  va_start(values, format);
  length = vsnprintf(words, sizeof words, format, values);
  va_end(values);
  put_bytes(text, (const uint8_t *)words, (size_t)length);
}

static void put_escaped(struct text *text, const uint8_t *bytes, uint64_t length) {
  uint64_t at;
  for (at = 0; at < length; at++) {
    if (bytes[at] > 0x20 && bytes[at] < 0x7f && bytes[at] != '\\')
      put_bytes(text, bytes + at, 1);
    else
      put(text, "\\x%02x", bytes[at]);
  }
}

static void put_eid(struct text *text, const struct tcpclkit_eid *eid, const uint8_t *name) {
  uint64_t written;
  make_room(text, 4100);
  if (tcpclkit_write_eid_text(eid, name, (size_t)eid->name_length, text->bytes + text->length, 4100,
                              &written) != TCPCLKIT_OK)
    die("no text of an endpoint ID");
  text->length += written;
}

/* The words of a fault: the code of a bundle's fault, and of any other the line. */
static void put_fault(struct text *text, const struct tcpclkit_fault *fault) {
  uint8_t words[64];
  uint64_t written;
  if (tcpclkit_write_fault_text(fault->code, fault->number, words, sizeof words, &written) !=
      TCPCLKIT_OK)
    die("no text of a fault");
  if (fault->code > 100)
    put(text, "bad=%.*s byte=%" PRIu64, (int)strcspn((char *)words, " "), words, fault->offset);
  else
    put(text, "tcpclkit: byte %" PRIu64 ": %.*s\n", fault->offset, (int)written, words);
}

/* -- bundles */

static void put_identity(struct text *text, const struct tcpclkit_bundle *it,
                         const uint8_t *destination, const uint8_t *source) {
  put(text, "good source=");
  put_eid(text, &it->source, source);
  put(text, " time=%" PRIu64 " sequence=%" PRIu64 " destination=", it->time, it->sequence);
  put_eid(text, &it->destination, destination);
  put(text, " payload=%" PRIu64, it->payload_length);
  if (it->is_fragment)
    put(text, " fragment=%" PRIu64 "/%" PRIu64, it->fragment_offset, it->fragment_total);
}

/* Appends the judgement of a bundle as `unpack` writes it. Returns whether the bundle is good. */
static int put_judgement(struct text *text, const uint8_t *bytes, size_t length,
                         struct tcpclkit_bundle *it) {
  uint8_t destination[TCPCLKIT_EID_LIMIT], source[TCPCLKIT_EID_LIMIT];
  uint8_t report_to[TCPCLKIT_EID_LIMIT];
  uint32_t status = tcpclkit_describe_bundle(bytes, length, destination, sizeof destination, source,
                                             sizeof source, report_to, sizeof report_to, it);
  if (status == TCPCLKIT_OK)
    put_identity(text, it, destination, source);
  else if (status == TCPCLKIT_FAULT || status == TCPCLKIT_TRUNCATED)
    put_fault(text, &it->verdict.fault);
  else
    die("a bundle has another status");
  return status == TCPCLKIT_OK;
}

/* Appends a line with the fields of the primary block that come before its first fault. */
static void put_primary(struct text *text, const struct job *job) {
  uint8_t destination[TCPCLKIT_EID_LIMIT], source[TCPCLKIT_EID_LIMIT];
  uint8_t report_to[TCPCLKIT_EID_LIMIT];
  struct tcpclkit_bundle it;
  tcpclkit_describe_bundle(job->bytes, job->length, destination, sizeof destination, source,
                           sizeof source, report_to, sizeof report_to, &it);
  put(text, "primary accepted=%" PRIu64 " whole=%" PRIu64, it.primary_fields, it.primary_whole);
  if (it.primary_fields >= 2)
    put(text, " flags=%" PRIu64, it.flags);
  if (it.primary_fields >= 4) {
    put(text, " destination=");
    put_eid(text, &it.destination, destination);
  }
  if (it.primary_fields >= 5) {
    put(text, " source=");
    put_eid(text, &it.source, source);
  }
  if (it.primary_fields >= 6) {
    put(text, " report-to=");
    put_eid(text, &it.report_to, report_to);
  }
  if (it.primary_fields >= 7)
    put(text, " creation=%" PRIu64 "/%" PRIu64, it.time, it.sequence);
  if (it.primary_fields >= 8)
    put(text, " lifetime=%" PRIu64, it.lifetime);
  if (it.primary_fields >= 10)
    put(text, " fragment=%" PRIu64 "/%" PRIu64, it.fragment_offset, it.fragment_total);
  put(text, "\n");
}

/* Feeds the bytes to a scan in pieces. What it has found is what the bytes that it took are. */
static void compare_scan(const struct job *job) {
  enum { LIMIT = TCPCLKIT_EID_LIMIT };
  uint8_t names[6][LIMIT] = {{0}};
  struct tcpclkit_bundle it, same;
  struct tcpclkit_scan scan;
  size_t at = 0, size = 1 + job->length % 13;
  uint64_t taken;
  uint32_t status;
  memset(&it, 0, sizeof it);
  memset(&same, 0, sizeof same);
  tcpclkit_start_scan(&scan);
  do {
    size_t piece = job->length - at < size ? job->length - at : size;
    status = tcpclkit_feed_scan(&scan, job->bytes + at, piece, &taken);
    at += (size_t)taken;
  } while (status == TCPCLKIT_TRUNCATED && at < job->length);
  if (tcpclkit_describe_scan(&scan, names[0], LIMIT, names[1], LIMIT, names[2], LIMIT, &it) !=
          status ||
      tcpclkit_describe_bundle(job->bytes, at, names[3], LIMIT, names[4], LIMIT, names[5], LIMIT,
                               &same) != status ||
      memcmp(&it, &same, sizeof it) != 0 || memcmp(names[0], names[3], 3 * LIMIT) != 0)
    die("the bytes in pieces are another bundle");
  memset(&it.verdict, 0, sizeof it.verdict);
  if (tcpclkit_end_scan(&scan, job->length, &it.verdict) !=
          tcpclkit_judge_bundle(job->bytes, job->length, &same.verdict) ||
      memcmp(&it.verdict, &same.verdict, sizeof it.verdict) != 0)
    die("the verdict at the end differs from that on all bytes");
}

static int judge(const struct job *job) {
  struct tcpclkit_bundle it;
  struct tcpclkit_verdict same;
  int is_good = put_judgement(&output, job->bytes, job->length, &it);
  if ((tcpclkit_judge_bundle(job->bytes, job->length, &same) == TCPCLKIT_OK) != is_good ||
      memcmp(&same, &it.verdict, sizeof same) != 0)
    die("the verdict differs from that of tcpclkit_describe_bundle");
  compare_scan(job);
  put(&output, "\n");
  if (same.has_payload)
    put(&output, "payload %" PRIu64 " %" PRIu64 "\n", same.payload_offset, same.payload_seen);
  if (is_good)
    put(&output, "flags=%" PRIu64 " lifetime=%" PRIu64 " blocks=%" PRIu64 "\n", it.flags,
        it.lifetime, it.blocks);
  put_primary(&output, job);
  return is_good ? 0 : 1;
}

/* Appends the line of a block. */
static void put_block(struct text *text, const struct tcpclkit_block *it) {
  if (it->kind == TCPCLKIT_BLOCK_PRIMARY)
    put(text, "primary");
  else
    put(text, "block type=%" PRIu64 " number=%" PRIu64 " data-at=%" PRIu64 " data-length=%" PRIu64,
        it->block_type, it->number, it->data_offset, it->data_length);
  put(text, " at=%" PRIu64 " length=%" PRIu64 " flags=%" PRIu64 " check=%" PRIu64 "\n", it->offset,
      it->length, it->flags, it->check);
}

/* Whether a block that went on is the one that ends next. */
static int is_begun(const struct tcpclkit_block *begun, const struct tcpclkit_block *ended) {
  struct tcpclkit_block same = *ended;
  same.length = 0;
  same.data_seen = begun->data_seen;
  return begun->data_seen <= begun->data_length && memcmp(begun, &same, sizeof same) == 0;
}

/* Takes the bytes block by block, in pieces of this size. Returns whether the bundle is good. */
static int put_blocks(struct text *text, const struct job *job, size_t size) {
  struct tcpclkit_verdict verdict;
  struct tcpclkit_block block, begun = {0, 0, 0, 0, 0, 0, 0, 0, 0, 0};
  struct tcpclkit_scan scan;
  size_t at = 0;
  uint64_t taken;
  uint32_t status;
  tcpclkit_start_scan(&scan);
  do {
    size_t piece = job->length - at < size ? job->length - at : size;
    status = tcpclkit_next_block(&scan, job->bytes + at, piece, &taken, &block);
    at += (size_t)taken;
    if (block.kind != 0) {
      if (begun.kind != 0 && !is_begun(&begun, &block))
        die("a block ends as another one than it began");
      put_block(text, &block);
    }
    tcpclkit_judge_block(&scan, &begun);
  } while (status == TCPCLKIT_TRUNCATED && taken > 0);
  if (tcpclkit_judge_scan(&scan, &verdict) != status)
    die("a scan that was taken block by block has another status");
  if (status != TCPCLKIT_OK) {
    put_fault(text, &verdict.fault);
    put(text, "\n");
  }
  return status == TCPCLKIT_OK;
}

/* Appends the name of a reason. `kind` is that of the message that has it. */
static void put_reason_name(struct text *text, uint64_t kind, uint64_t reason) {
  uint8_t name[20];
  uint64_t length;
  if (tcpclkit_write_reason_text(kind, reason, name, sizeof name, &length) != TCPCLKIT_OK)
    die("a reason has no name");
  put_bytes(text, name, (size_t)length);
}

/* Appends the name of a block type. */
static void put_type_name(struct text *text, uint64_t block_type) {
  uint8_t name[21];
  uint64_t length;
  if (tcpclkit_write_block_type_text(block_type, name, sizeof name, &length) != TCPCLKIT_OK)
    die("a block type has no name");
  put_bytes(text, name, (size_t)length);
}

/* Appends the end of the line that `blocks` has for a block, from `data-at` on. */
static void put_words(struct text *text, const struct job *job,
                      const struct tcpclkit_block *primary, const struct tcpclkit_block *it) {
  uint8_t words[4500];
  uint64_t length;
  if (tcpclkit_read_block_data(primary, it, job->bytes + it->data_offset, (size_t)it->data_length,
                               words, sizeof words, &length) != TCPCLKIT_OK)
    die("the data of a block has another status");
  put(text, " data-at=%" PRIu64 " data-length=%" PRIu64 "%s", it->data_offset, it->data_length,
      length > 0 ? " " : "");
  put_bytes(text, words, (size_t)length);
  put(text, "\n");
}

/* Returns what follows some words in the lines of the tool. */
static const char *after(const char *lines, struct text *words) {
  const char *found;
  put_bytes(words, (const uint8_t *)"", 1);
  found = strstr(lines, (const char *)words->bytes);
  if (found == NULL)
    die("the words of a block are not those of its line");
  return found + words->length - 1;
}

/* Compares what the data of the blocks says with the lines of the tool, one after another. */
static void compare_words(const struct job *job) {
  const struct tcpclkit_blocks_options bundles = {sizeof bundles, 0, 0, 0, 1};
  struct text lines = {NULL, 0, 0}, ends = {NULL, 0, 0};
  struct tcpclkit_block block, primary;
  struct tcpclkit_scan scan;
  struct tcpclkit_run run;
  uint64_t taken, at = 0;
  const char *line;
  tcpclkit_blocks(job->bytes, job->length, &bundles, NULL, 0, NULL, TCPCLKIT_UNWANTED, &run);
  make_room(&lines, (size_t)run.output_length + 1);
  tcpclkit_blocks(job->bytes, job->length, &bundles, lines.bytes, lines.room, NULL,
                  TCPCLKIT_UNWANTED, &run);
  lines.bytes[run.output_length] = 0;
  line = (const char *)lines.bytes;
  tcpclkit_start_scan(&scan);
  for (;;) {
    tcpclkit_next_block(&scan, job->bytes + at, job->length - at, &taken, &block);
    at += taken;
    if (block.kind == 0)
      break;
    if (block.kind == TCPCLKIT_BLOCK_PRIMARY) {
      primary = block;
      continue;
    }
    ends.length = 0;
    put(&ends, " at=%" PRIu64 " length=%" PRIu64 " type=%" PRIu64 "/", block.offset, block.length,
        block.block_type);
    put_type_name(&ends, block.block_type);
    put(&ends, " flags=");
    line = after(line, &ends);
    ends.length = 0;
    put_words(&ends, job, &primary, &block);
    line = after(line, &ends);
  }
  free(lines.bytes);
  free(ends.bytes);
}

static int show(const struct job *job) {
  struct text same = {NULL, 0, 0};
  int is_good = put_blocks(&output, job, job->length + 1);
  if (put_blocks(&same, job, 1 + job->length % 13) != is_good || same.length != output.length ||
      (same.length > 0 && memcmp(same.bytes, output.bytes, same.length) != 0))
    die("the blocks in pieces are others");
  compare_words(job);
  free(same.bytes);
  return is_good ? 0 : 1;
}

/* -- messages */

/* Appends the number of items and each of them. */
static void put_items(struct text *text, const struct job *job,
                      const struct tcpclkit_message *message) {
  struct text listed = {NULL, 0, 0};
  struct tcpclkit_item item;
  uint64_t count = 0;
  item.next = message->items_offset;
  while (tcpclkit_read_item(job->bytes, job->length, message, item.next, &item) == TCPCLKIT_OK) {
    put(&listed, " item=%02x:%04x:%" PRIu64, (unsigned)item.flags, (unsigned)item.item_type,
        item.value_length);
    count++;
  }
  put(text, " items=%" PRIu64, count);
  put_bytes(text, listed.bytes, listed.length);
  free(listed.bytes);
}

static void put_segment(const struct job *job, const struct tcpclkit_message *it) {
  put(&output, "xfer-segment flags=%02x id=%" PRIu64, (unsigned)it->flags, it->id);
  if (it->flags & TCPCLKIT_SEGMENT_START)
    put_items(&output, job, it);
  put(&output, " length=%" PRIu64, it->data_length);
}

static void put_init(const struct job *job, const struct tcpclkit_message *it) {
  put(&output, "sess-init keepalive=%" PRIu64 " segment-mru=%" PRIu64, it->keepalive,
      it->segment_mru);
  put(&output, " transfer-mru=%" PRIu64 " node=", it->transfer_mru);
  put_escaped(&output, job->bytes + it->node_offset, it->node_length);
  put_items(&output, job, it);
}

/* Appends the reason of a message with its name. */
static void put_reason(const struct tcpclkit_message *it) {
  put(&output, " reason=%02x/", (unsigned)it->reason);
  put_reason_name(&output, it->kind, it->reason);
}

/* Appends the line of a message. */
static void put_message(const struct job *job, uint64_t offset, const struct tcpclkit_message *it) {
  unsigned flags = (unsigned)it->flags;
  put(&output, "%" PRIu64 " ", offset);
  if (it->kind == TCPCLKIT_XFER_SEGMENT)
    put_segment(job, it);
  else if (it->kind == TCPCLKIT_XFER_ACK)
    put(&output, "xfer-ack flags=%02x id=%" PRIu64 " length=%" PRIu64, flags, it->id,
        it->acknowledged);
  else if (it->kind == TCPCLKIT_XFER_REFUSE) {
    put(&output, "xfer-refuse");
    put_reason(it);
    put(&output, " id=%" PRIu64, it->id);
  } else if (it->kind == TCPCLKIT_KEEPALIVE)
    put(&output, "keepalive");
  else if (it->kind == TCPCLKIT_SESS_TERM) {
    put(&output, "sess-term flags=%02x", flags);
    put_reason(it);
  } else if (it->kind == TCPCLKIT_MSG_REJECT) {
    put(&output, "msg-reject");
    put_reason(it);
    put(&output, " header=%02x", (unsigned)it->header);
  } else
    put_init(job, it);
  put(&output, "\n");
}

/* Reads the contact header. Returns its flags, or -1 after it has appended a fault. */
static int read_contact(const struct job *job) {
  struct tcpclkit_contact it;
  if (tcpclkit_read_contact(job->bytes, job->length, &it) == TCPCLKIT_OK)
    return (int)it.flags;
  put_fault(&report, &it.fault);
  return -1;
}

static int read_messages(const struct job *job) {
  struct tcpclkit_message it;
  uint64_t offset = TCPCLKIT_CONTACT_LENGTH;
  uint32_t status;
  int flags = read_contact(job);
  if (flags < 0)
    return 3;
  put(&output, "0 contact version=4 flags=%02x\n", (unsigned)flags);
  while ((status = tcpclkit_read_message(job->bytes, job->length, offset, &it)) == TCPCLKIT_OK) {
    put_message(job, offset, &it);
    offset = it.next;
  }
  if (status == TCPCLKIT_END)
    return 0;
  put_fault(&report, &it.fault);
  return 3;
}

/* -- transfers */

/* The transfer that is open, or was the last one. */
struct transfer {
  uint64_t id;
  struct tcpclkit_announced announced;
  size_t start; /* of its data in the output */
  int is_open;
};

/* Notes what the items of a first segment announce. */
static void begin(struct transfer *transfer, const struct job *job,
                  const struct tcpclkit_message *message) {
  memset(transfer, 0, sizeof *transfer);
  transfer->id = message->id;
  transfer->start = output.length;
  if (tcpclkit_read_announced(job->bytes, job->length, message, &transfer->announced) !=
      TCPCLKIT_OK)
    die("a message that was read announces nothing");
}

/* Appends the line of a transfer that is over. Returns whether the transfer is good. */
static int put_transfer(const struct transfer *it) {
  struct tcpclkit_bundle bundle;
  size_t length = output.length - it->start;
  int is_good = 0;
  put(&report, "transfer %" PRIu64 " start=%zu written=%zu length=%zu ", it->id, it->start, length,
      length);
  if (it->is_open)
    put(&report, "abandoned");
  else if (it->announced.kind == TCPCLKIT_ANNOUNCED_BADLY)
    put(&report, "bad-length-item");
  else if (it->announced.kind == TCPCLKIT_ANNOUNCED_TOTAL && it->announced.total != length)
    put(&report, "length-differs announced=%" PRIu64, it->announced.total);
  else
    is_good = put_judgement(&report, output.bytes == NULL ? NULL : output.bytes + it->start, length,
                            &bundle);
  put(&report, "\n");
  return is_good;
}

/* Takes a message. Returns the exit status that it leads to: 1, or 3 at a fault. If the walk goes on
 * after faults of the order, they lead to 1. */
static int take(struct transfer *transfer, struct tcpclkit_order *order, const struct job *job,
                uint64_t offset, const struct tcpclkit_message *it, int is_cut, int goes_on) {
  struct tcpclkit_turn turn;
  struct tcpclkit_fault fault = {0, 0, 0};
  int status = 0;
  uint32_t judged = goes_on ? tcpclkit_take_message(order, it, &turn)
                            : tcpclkit_judge_message(order, it, &turn);
  if (judged != TCPCLKIT_OK) {
    fault.code = turn.fault;
    fault.offset = offset;
    put_fault(&report, &fault);
    if (!goes_on)
      return 3;
    status = 1;
  }
  if (turn.turn == TCPCLKIT_TURN_OTHER || turn.turn == TCPCLKIT_TURN_STRAY)
    return status;
  if (turn.turn == TCPCLKIT_TURN_BEGIN) {
    if (turn.abandons && !put_transfer(transfer))
      status = 1;
    begin(transfer, job, it);
  }
  put_bytes(&output, job->bytes + it->data_offset, it->data_seen);
  transfer->is_open = !turn.last;
  if (!is_cut && turn.last && !put_transfer(transfer))
    status = 1;
  return status;
}

static int walk(const struct job *job, int goes_on) {
  struct tcpclkit_order order;
  struct transfer transfer = {0, {0, 0}, 0, 0};
  struct tcpclkit_message it;
  uint64_t offset = TCPCLKIT_CONTACT_LENGTH;
  uint32_t status;
  int ended = read_contact(job) < 0 ? 3 : 0, taken;
  if (ended == 3)
    return 3;
  tcpclkit_start_order(&order);
  for (;;) {
    status = tcpclkit_read_message(job->bytes, job->length, offset, &it);
    if (status == TCPCLKIT_END)
      return transfer.is_open && !put_transfer(&transfer) ? 1 : ended;
    if (status != TCPCLKIT_OK && status != TCPCLKIT_DATA_TRUNCATED)
      break;
    taken = take(&transfer, &order, job, offset, &it, status != TCPCLKIT_OK, goes_on);
    if (taken == 3)
      return 3;
    if (status != TCPCLKIT_OK)
      break;
    ended = taken == 1 ? 1 : ended;
    offset = it.next;
  }
  put_fault(&report, &it.fault);
  return 3;
}

/* -- answers */

static int answers(const struct job *job) {
  struct tcpclkit_sent sent = {job->numbers[0], job->numbers[1], job->numbers[2], 0, 0};
  struct tcpclkit_contact contact;
  struct tcpclkit_message it;
  uint64_t offset = TCPCLKIT_CONTACT_LENGTH;
  uint32_t status;
  if (tcpclkit_read_contact(job->bytes, job->length, &contact) != TCPCLKIT_OK)
    return 0;
  while (tcpclkit_read_message(job->bytes, job->length, offset, &it) == TCPCLKIT_OK) {
    status = tcpclkit_judge_answer(&sent, &it);
    if (it.kind == TCPCLKIT_XFER_ACK || it.kind == TCPCLKIT_XFER_REFUSE) {
      if (status != (sent.fault == TCPCLKIT_NO_FAULT ? TCPCLKIT_OK : TCPCLKIT_FAULT))
        die("an answer has another status");
      put(&output, "%" PRIu64 " %" PRIu64 " %" PRIu64 "\n", offset, sent.fault,
          sent.acknowledged);
    } else if (status != TCPCLKIT_RANGE) {
      die("a message that is no answer has another status");
    }
    offset = it.next;
  }
  return 0;
}

/* -- writing */

static struct tcpclkit_written written;

/* Appends what a writer writes into `slice`: it is called without room, and then with the room that
 * it asks for. */
#define WRITE(text, call)                                             \
  do {                                                                \
    uint8_t *slice = NULL;                                            \
    size_t room = 0;                                                  \
    if ((call) != TCPCLKIT_TOO_SMALL || written.count != 0)           \
      die("a writer that has no room has another status");            \
    room = (size_t)written.needed;                                    \
    make_room(text, room);                                            \
    slice = (text)->bytes + (text)->length;                           \
    if ((call) != TCPCLKIT_OK || written.count != (uint64_t)room)     \
      die("a writer has another status");                             \
    (text)->length += room;                                           \
  } while (0)

/* Writes the extension items of a message again, one by one. */
static void rewrite_items(struct text *items, const struct job *job,
                          const struct tcpclkit_message *message) {
  struct tcpclkit_item it;
  items->length = 0;
  it.next = message->items_offset;
  while (tcpclkit_read_item(job->bytes, job->length, message, it.next, &it) == TCPCLKIT_OK)
    WRITE(items, tcpclkit_write_item(it.flags, it.item_type, job->bytes + it.value_offset,
                                     (size_t)it.value_length, slice, room, &written));
}

static int rewrite(const struct job *job) {
  struct text items = {NULL, 0, 0};
  struct tcpclkit_message it;
  uint64_t offset = TCPCLKIT_CONTACT_LENGTH;
  uint32_t status;
  int flags = read_contact(job);
  if (flags < 0)
    return 3;
  WRITE(&output, tcpclkit_write_contact((uint64_t)flags, slice, room, &written));
  while ((status = tcpclkit_read_message(job->bytes, job->length, offset, &it)) == TCPCLKIT_OK) {
    rewrite_items(&items, job, &it);
    WRITE(&output, tcpclkit_write_message(&it, job->bytes + it.node_offset, (size_t)it.node_length,
                                          items.bytes, items.length, slice, room, &written));
    put_bytes(&output, job->bytes + it.data_offset, (size_t)it.data_length);
    offset = it.next;
  }
  free(items.bytes);
  if (status == TCPCLKIT_END)
    return 0;
  put_fault(&report, &it.fault);
  return 3;
}

/* Writes a canonical block. Its bytes are fed to the check in pieces. */
static void write_block(const struct tcpclkit_block *block, const uint8_t *data) {
  struct tcpclkit_crc check;
  size_t piece, at = output.length;
  WRITE(&output, tcpclkit_write_block_head(block, slice, room, &written));
  put_bytes(&output, data, (size_t)block->data_length);
  if (block->check == TCPCLKIT_CHECK_NONE)
    return;
  tcpclkit_start_check(&check, block->check);
  for (; at < output.length; at += piece) {
    piece = output.length - at < 7 ? output.length - at : 7;
    if (tcpclkit_feed_check(&check, output.bytes + at, piece) != TCPCLKIT_OK)
      die("a check has another status");
  }
  WRITE(&output, tcpclkit_write_check(&check, slice, room, &written));
}

static int rebuild(const struct job *job) {
  static uint8_t names[3][TCPCLKIT_EID_LIMIT];
  const uint64_t check = job->numbers[0];
  struct tcpclkit_bundle it;
  struct tcpclkit_block block;
  struct tcpclkit_scan scan;
  uint64_t taken, at = 0;
  if (tcpclkit_describe_bundle(job->bytes, job->length, names[0], sizeof names[0], names[1],
                               sizeof names[1], names[2], sizeof names[2], &it) != TCPCLKIT_OK)
    return 1;
  put(&output, "%c", TCPCLKIT_BUNDLE_FIRST);
  tcpclkit_start_scan(&scan);
  for (;;) {
    tcpclkit_next_block(&scan, job->bytes + at, job->length - at, &taken, &block);
    at += taken;
    if (block.kind == 0)
      break;
    if (check != 3)
      block.check = check;
    if (block.kind == TCPCLKIT_BLOCK_CANONICAL)
      write_block(&block, job->bytes + block.data_offset);
    else
      WRITE(&output,
            tcpclkit_write_primary(&it, block.check, names[0], (size_t)it.destination.name_length,
                                   names[1], (size_t)it.source.name_length, names[2],
                                   (size_t)it.report_to.name_length, slice, room, &written));
  }
  put(&output, "%c", TCPCLKIT_BUNDLE_LAST);
  return 0;
}

/* -- texts */

/* Appends a line with the names that a number has as a block type and as reasons. */
static void put_names(uint64_t number) {
  uint8_t name[34];
  uint64_t length;
  put_type_name(&report, number);
  if (tcpclkit_write_report_reason_text(number, name, sizeof name, &length) != TCPCLKIT_OK)
    die("the reason of a status report has no name");
  put(&report, " %.*s ", (int)length, name);
  put_reason_name(&report, TCPCLKIT_XFER_REFUSE, number % 256);
  put(&report, " ");
  put_reason_name(&report, TCPCLKIT_SESS_TERM, number % 256);
  put(&report, " ");
  put_reason_name(&report, TCPCLKIT_MSG_REJECT, number % 256);
  put(&report, "\n");
}

/* Writes a block whose data is a text. */
static void write_text_block(uint64_t block_type, uint64_t number, uint64_t check,
                             const struct text *data) {
  struct tcpclkit_block block = {TCPCLKIT_BLOCK_CANONICAL, 0, 0, 0, 0, 0, 0, 0, 0, 0};
  block.block_type = block_type;
  block.number = number;
  block.check = check;
  block.data_length = data->length;
  write_block(&block, data->bytes);
}

/* Writes a bundle that has an endpoint ID wherever it can have one. */
static void write_bundle_of(const struct job *job, const struct tcpclkit_eid *eid,
                            const uint8_t *name) {
  const uint64_t length = job->length, check = length % 3;
  const size_t name_length = (size_t)eid->name_length;
  struct text data = {NULL, 0, 0};
  struct tcpclkit_bundle it;
  memset(&it, 0, sizeof it);
  it.destination = it.source = it.report_to = *eid;
  it.time = it.sequence = it.lifetime = length;
  put(&output, "%c", TCPCLKIT_BUNDLE_FIRST);
  WRITE(&output, tcpclkit_write_primary(&it, check, name, name_length, name, name_length, name,
                                        name_length, slice, room, &written));
  WRITE(&data, tcpclkit_write_eid(eid, name, name_length, slice, room, &written));
  write_text_block(6, 2, check, &data);
  data.length = 0;
  WRITE(&data, tcpclkit_write_age(length, slice, room, &written));
  write_text_block(7, 3, check, &data);
  data.length = 0;
  WRITE(&data, tcpclkit_write_hop_count(length, UINT64_MAX - length, slice, room, &written));
  write_text_block(10, 4, check, &data);
  data.length = 0;
  put_bytes(&data, job->bytes, job->length);
  write_text_block(1, 1, check, &data);
  put(&output, "%c", TCPCLKIT_BUNDLE_LAST);
  free(data.bytes);
}

static int texts(const struct job *job) {
  static uint8_t name[TCPCLKIT_EID_LIMIT];
  struct tcpclkit_eid eid;
  put_names(job->length);
  if (tcpclkit_read_eid_text(job->bytes, job->length, &eid, name, sizeof name) != TCPCLKIT_OK)
    return 1;
  put_eid(&report, &eid, name);
  write_bundle_of(job, &eid, name);
  return 0;
}

/* -- whole tools */

/* Calls a tool once, with the room that the texts have. */
static uint32_t call_tool(const struct job *job, struct tcpclkit_run *run) {
  const uint64_t *numbers = job->numbers;
  struct tcpclkit_unpack_options unpack = {sizeof unpack, numbers[0], numbers[1], numbers[2],
                                           numbers[3]};
  struct tcpclkit_blocks_options blocks = {sizeof blocks, numbers[0], numbers[1], numbers[2],
                                           numbers[3]};
  struct tcpclkit_check_options check = {sizeof check, numbers[0], numbers[1], numbers[2],
                                         numbers[3],   numbers[4], numbers[5]};
  struct tcpclkit_pack_options pack = {sizeof pack, numbers[0], numbers[1], numbers[2],
                                       numbers[3],  numbers[4], numbers[5], numbers[6]};
  struct tcpclkit_more_options more = {sizeof more, numbers[0], numbers[1], numbers[2],
                                       numbers[3]};
  size_t node = (size_t)numbers[7];
  if (strcmp(job->name, "list") == 0)
    return tcpclkit_list(job->bytes, job->length, output.bytes, output.room, report.bytes,
                         report.room, run);
  if (strcmp(job->name, "unpack") == 0)
    return tcpclkit_unpack(job->bytes, job->length, &unpack, output.bytes, output.room,
                           report.bytes, report.room, run);
  if (strcmp(job->name, "blocks") == 0)
    return tcpclkit_blocks(job->bytes, job->length, &blocks, output.bytes, output.room,
                           report.bytes, report.room, run);
  if (strcmp(job->name, "check") == 0)
    return tcpclkit_check(job->bytes, job->length, &check, output.bytes, output.room,
                          report.bytes, report.room, run);
  if (strcmp(job->name, "more") == 0)
    return tcpclkit_pack_more(job->bytes, job->length, &more, output.bytes, output.room,
                              report.bytes, report.room, run);
  return tcpclkit_pack(job->bytes + node, job->length - node, &pack, job->bytes, node,
                       output.bytes, output.room, report.bytes, report.room, run);
}

static int run_tool(const struct job *job) {
  struct tcpclkit_run run;
  uint32_t status = call_tool(job, &run);
  if (status == TCPCLKIT_TOO_SMALL) {
    make_room(&output, (size_t)run.output_length);
    make_room(&report, (size_t)run.report_length);
    status = call_tool(job, &run);
  }
  if (status != TCPCLKIT_OK)
    die("a tool has another status");
  output.length = run.output_length;
  report.length = run.report_length;
  return (int)run.exit_status;
}

/* -- jobs */

/* Reads a job. Returns whether there is one. */
static int read_job(struct job *job, struct text *bytes) {
  char line[300], *rest;
  int count, name_length;
  if (fgets(line, sizeof line, stdin) == NULL)
    return 0;
  if (sscanf(line, "%15s%n", job->name, &name_length) != 1)
    die("a job has no name");
  for (count = 0, rest = line + name_length; count < NUMBERS && strchr(rest + 1, ' '); count++)
    job->numbers[count] = strtoull(rest, &rest, 10);
  job->length = (size_t)strtoull(rest, NULL, 10);
  bytes->length = 0;
  make_room(bytes, job->length + 1);
  if (fread(bytes->bytes, 1, job->length, stdin) != job->length)
    die("the bytes of a job are cut");
  job->bytes = bytes->bytes;
  return 1;
}

static int answer(const struct job *job) {
  if (strcmp(job->name, "judge") == 0)
    return judge(job);
  if (strcmp(job->name, "show") == 0)
    return show(job);
  if (strcmp(job->name, "read") == 0)
    return read_messages(job);
  if (strcmp(job->name, "walk") == 0)
    return walk(job, 0);
  if (strcmp(job->name, "go-on") == 0)
    return walk(job, 1);
  if (strcmp(job->name, "answers") == 0)
    return answers(job);
  if (strcmp(job->name, "rewrite") == 0)
    return rewrite(job);
  if (strcmp(job->name, "rebuild") == 0)
    return rebuild(job);
  if (strcmp(job->name, "texts") == 0)
    return texts(job);
  return run_tool(job);
}

static void write_text(const struct text *text) {
  if (text->length > 0)
    fwrite(text->bytes, 1, text->length, stdout);
}

int main(void) {
  struct text bytes = {NULL, 0, 0};
  struct job job;
  int status;
  if (tcpclkit_abi() != TCPCLKIT_ABI)
    die("the library has another version of the interface");
  while (read_job(&job, &bytes)) {
    output.length = report.length = 0;
    status = answer(&job);
    printf("%d %zu %zu\n", status, output.length, report.length);
    write_text(&output);
    write_text(&report);
    fflush(stdout);
  }
  free(bytes.bytes);
  free(output.bytes);
  free(report.bytes);
  return 0;
}
