/*
 * Examples of how the C library is called, which docs/LIBRARIES.md shows word for word.
 *
 *     example bundle < BUNDLE      writes the endpoint IDs of a bundle, or its fault
 *     example blocks < BUNDLE      writes the types of its blocks, and the lengths of their data
 *     example payload < BUNDLE     writes the payload of a bundle while it comes
 *     example data < RECORDING     writes the data of a recording
 *     example receive < RECORDING  writes the same as it comes, and judges the order of messages
 *     example pack < BUNDLES       writes bundles as the stream of a sender
 *     example send < BUNDLE        writes a bundle as the segments of a transfer
 *     example acknowledge < RECORDING  writes the XFER_ACK of each segment of a recording
 *     example make < PAYLOAD       writes a bundle with this payload
 */
#include <inttypes.h>
#include <stdio.h>
#include <string.h>

#include <tcpclkit.h>

/* Writes a fault and its offset on standard error. */
static void show_fault(const struct tcpclkit_fault *fault) {
  uint8_t text[64];
  uint64_t length;
  if (tcpclkit_write_fault_text(fault->code, fault->number, text, sizeof text, &length) ==
      TCPCLKIT_OK)
    fprintf(stderr, "byte %" PRIu64 ": %.*s\n", fault->offset, (int)length, text);
}

/* Writes an endpoint ID; its whole name is in the slice. */
static void show_eid(const struct tcpclkit_eid *eid, const uint8_t *name) {
  uint8_t text[4100];
  uint64_t length;
  if (tcpclkit_write_eid_text(eid, name, (size_t)eid->name_length, text, sizeof text, &length) ==
      TCPCLKIT_OK)
    printf("%.*s", (int)length, text);
}

/* Writes the endpoint IDs and the length of the payload. Returns whether the bundle is good. */
static int show_bundle(const uint8_t *bytes, size_t length) {
  uint8_t destination[TCPCLKIT_EID_LIMIT], source[TCPCLKIT_EID_LIMIT];
  uint8_t report_to[TCPCLKIT_EID_LIMIT];
  struct tcpclkit_bundle bundle;
  if (tcpclkit_describe_bundle(bytes, length, destination, sizeof destination, source,
                               sizeof source, report_to, sizeof report_to,
                               &bundle) != TCPCLKIT_OK) {
    show_fault(&bundle.verdict.fault);
    return 0;
  }
  show_eid(&bundle.source, source);
  printf(" -> ");
  show_eid(&bundle.destination, destination);
  printf(": %" PRIu64 " bytes\n", bundle.payload_length);
  return 1;
}

/* Writes a line for each canonical block. Returns whether the bundle is good. */
static int show_blocks(const uint8_t *bytes, size_t length) {
  struct tcpclkit_scan scan;
  struct tcpclkit_block block;
  struct tcpclkit_verdict verdict;
  uint64_t taken, at = 0;
  uint32_t status;
  tcpclkit_start_scan(&scan);
  do {
    status = tcpclkit_next_block(&scan, bytes + at, length - at, &taken, &block);
    at += taken;
    if (block.kind == TCPCLKIT_BLOCK_CANONICAL)
      printf("type %" PRIu64 ": %" PRIu64 " bytes\n", block.block_type, block.data_length);
  } while (status == TCPCLKIT_TRUNCATED && taken > 0);
  tcpclkit_judge_scan(&scan, &verdict);
  if (status != TCPCLKIT_OK)
    show_fault(&verdict.fault);
  return status == TCPCLKIT_OK;
}

/* Writes the payload of a bundle while it comes. Returns whether the bundle is good. */
static int copy_payload(FILE *input, FILE *output) {
  struct tcpclkit_scan scan;
  struct tcpclkit_verdict verdict;
  uint8_t piece[32];
  uint64_t taken, start, end, before = 0;
  size_t length;
  uint32_t status;
  tcpclkit_start_scan(&scan);
  do {
    length = fread(piece, 1, sizeof piece, input);
    status = tcpclkit_feed_scan(&scan, piece, length, &taken);
    tcpclkit_judge_scan(&scan, &verdict);
    start = verdict.payload_offset > before ? verdict.payload_offset : before;
    end = verdict.payload_offset + verdict.payload_seen;
    if (verdict.has_payload && start < end)
      fwrite(piece + (start - before), 1, end - start, output);
    before += taken;
  } while (status == TCPCLKIT_TRUNCATED && length > 0);
  if (status != TCPCLKIT_OK)
    show_fault(&verdict.fault);
  return status == TCPCLKIT_OK;
}

/* Writes the data of a recording's segments, joined. Returns whether the recording has no fault. */
static int copy_data(const uint8_t *bytes, size_t length, FILE *output) {
  struct tcpclkit_contact contact;
  struct tcpclkit_message message;
  uint64_t offset = TCPCLKIT_CONTACT_LENGTH;
  uint32_t status;
  if (tcpclkit_read_contact(bytes, length, &contact) != TCPCLKIT_OK) {
    show_fault(&contact.fault);
    return 0;
  }
  while ((status = tcpclkit_read_message(bytes, length, offset, &message)) == TCPCLKIT_OK) {
    fwrite(bytes + message.data_offset, 1, message.data_length, output);
    offset = message.next;
  }
  if (status == TCPCLKIT_DATA_TRUNCATED)
    fwrite(bytes + message.data_offset, 1, message.data_seen, output);
  if (status != TCPCLKIT_END)
    show_fault(&message.fault);
  return status == TCPCLKIT_END;
}

/* Writes the data of a session's segments as it comes. Returns whether the session has no fault. */
static int receive_data(FILE *input, FILE *output) {
  static uint8_t buffer[TCPCLKIT_HEAD_LIMIT];
  struct tcpclkit_fault fault = {TCPCLKIT_WIRE_TRUNCATED, 0, 0};
  struct tcpclkit_contact contact;
  struct tcpclkit_message message;
  struct tcpclkit_order order;
  struct tcpclkit_turn turn;
  size_t used, got, room, length = fread(buffer, 1, TCPCLKIT_CONTACT_LENGTH, input);
  uint64_t left = 0, at = length; /* data that is still to come, and where the buffer begins */
  uint32_t status = tcpclkit_read_contact(buffer, length, &contact);
  if (status != TCPCLKIT_OK) {
    show_fault(&contact.fault);
    return 0;
  }
  tcpclkit_start_order(&order);
  length = 0;
  do {
    if (left > 0) {
      used = left < length ? left : length;
      fwrite(buffer, 1, used, output);
      left -= used;
    } else {
      fault.offset = at;
      status = tcpclkit_read_message(buffer, length, 0, &message);
      used = message.data_offset, left = message.data_length;
      if (status == TCPCLKIT_END || status == TCPCLKIT_TRUNCATED) {
        used = left = 0;
      } else if (status == TCPCLKIT_FAULT) {
        message.fault.offset = at;
        show_fault(&message.fault);
        return 0;
      } else if (tcpclkit_judge_message(&order, &message, &turn) != TCPCLKIT_OK) {
        fault.code = turn.fault;
        show_fault(&fault);
        return 0;
      }
    }
    at += used;
    memmove(buffer, buffer + used, length -= used);
    room = sizeof buffer - length < 32 ? sizeof buffer - length : 32;
    got = used > 0 ? 0 : fread(buffer + length, 1, room, input);
    length += got;
  } while (used > 0 || got > 0);
  if (length > 0 || left > 0)
    show_fault(&fault);
  return length == 0 && left == 0;
}

/* Writes bundles as the stream of a sender whose peer takes segments of 20 bytes. */
static int pack_bundles(const uint8_t *bytes, size_t length, FILE *output) {
  static const uint8_t node[7] = "ipn:1.0";
  static uint8_t stream[1 << 24], report[1 << 20];
  struct tcpclkit_pack_options options;
  struct tcpclkit_run run;
  tcpclkit_pack_defaults(&options);
  options.peer_segment = 20;
  if (tcpclkit_pack(bytes, length, &options, node, sizeof node, stream, sizeof stream, report,
                    sizeof report, &run) != TCPCLKIT_OK)
    return 0;
  fwrite(stream, 1, run.output_length, output);
  fwrite(report, 1, run.report_length, stderr);
  return run.exit_status == 0;
}

/* Writes a bundle as the segments of a transfer to a peer that takes 20 bytes in each. */
static int send_bundle(const uint8_t *bundle, size_t length, uint64_t id, FILE *output) {
  uint8_t head[TCPCLKIT_START_LENGTH];
  struct tcpclkit_message segment = {0};
  struct tcpclkit_written written;
  size_t at;
  segment.kind = TCPCLKIT_XFER_SEGMENT;
  segment.id = id;
  for (at = 0; at < length; at += segment.data_length) {
    segment.data_length = length - at < 20 ? length - at : 20;
    segment.flags = at == 0 ? TCPCLKIT_SEGMENT_START : 0;
    if (at + segment.data_length == length)
      segment.flags |= TCPCLKIT_SEGMENT_END;
    if (tcpclkit_write_message(&segment, NULL, 0, NULL, 0, head, sizeof head, &written) !=
        TCPCLKIT_OK)
      return 0;
    fwrite(head, 1, written.count, output);
    fwrite(bundle + at, 1, segment.data_length, output);
  }
  return 1;
}

/* Writes the XFER_ACK of a segment. `received` bytes of its transfer have come. */
static int acknowledge(const struct tcpclkit_message *segment, uint64_t received, FILE *output) {
  uint8_t bytes[TCPCLKIT_ACK_LENGTH];
  struct tcpclkit_message ack = {0};
  struct tcpclkit_written written;
  ack.kind = TCPCLKIT_XFER_ACK;
  ack.flags = segment->flags;
  ack.id = segment->id;
  ack.acknowledged = received;
  tcpclkit_write_message(&ack, NULL, 0, NULL, 0, bytes, sizeof bytes, &written);
  return written.count > 0 && fwrite(bytes, 1, written.count, output) == written.count;
}

/* Writes the XFER_ACK of each segment of a recording. */
static int acknowledge_all(const uint8_t *bytes, size_t length, FILE *output) {
  struct tcpclkit_contact contact;
  struct tcpclkit_message message;
  uint64_t received = 0, offset = TCPCLKIT_CONTACT_LENGTH;
  if (tcpclkit_read_contact(bytes, length, &contact) != TCPCLKIT_OK)
    return 1;
  for (; tcpclkit_read_message(bytes, length, offset, &message) == TCPCLKIT_OK;
       offset = message.next) {
    if (message.kind != TCPCLKIT_XFER_SEGMENT)
      continue;
    if (message.flags & TCPCLKIT_SEGMENT_START)
      received = 0;
    received += message.data_length;
    if (!acknowledge(&message, received, output))
      return 0;
  }
  return 1;
}

/* Writes a bundle from dtn://node/a to ipn:2.1 with this payload. */
static int make_bundle(const uint8_t *payload, size_t length, FILE *output) {
  static const uint8_t source_text[12] = "dtn://node/a", destination_text[7] = "ipn:2.1";
  uint8_t source[TCPCLKIT_EID_LIMIT], head[TCPCLKIT_BLOCK_HEAD_ROOM];
  uint8_t field[TCPCLKIT_CHECK_ROOM], primary[TCPCLKIT_PRIMARY_ROOM];
  struct tcpclkit_bundle bundle = {0};
  struct tcpclkit_block block = {0};
  struct tcpclkit_written first, second, third;
  struct tcpclkit_crc check;
  bundle.time = 800000000000;
  bundle.sequence = 1;
  bundle.lifetime = 60000;
  bundle.report_to.kind = TCPCLKIT_EID_DTN_NONE;
  block.kind = TCPCLKIT_BLOCK_CANONICAL;
  block.block_type = block.number = 1;
  block.check = TCPCLKIT_CHECK_CRC32;
  block.data_length = length;
  if (tcpclkit_read_eid_text(destination_text, sizeof destination_text, &bundle.destination, NULL,
                             0) != TCPCLKIT_OK ||
      tcpclkit_read_eid_text(source_text, sizeof source_text, &bundle.source, source,
                             sizeof source) != TCPCLKIT_OK ||
      tcpclkit_write_primary(&bundle, TCPCLKIT_CHECK_CRC32, NULL, 0, source,
                             (size_t)bundle.source.name_length, NULL, 0, primary, sizeof primary,
                             &first) != TCPCLKIT_OK ||
      tcpclkit_write_block_head(&block, head, sizeof head, &second) != TCPCLKIT_OK)
    return 0;
  tcpclkit_start_check(&check, block.check);
  tcpclkit_feed_check(&check, head, second.count);
  tcpclkit_feed_check(&check, payload, length);
  tcpclkit_write_check(&check, field, sizeof field, &third);
  fputc(TCPCLKIT_BUNDLE_FIRST, output);
  fwrite(primary, 1, first.count, output);
  fwrite(head, 1, second.count, output);
  fwrite(payload, 1, length, output);
  fwrite(field, 1, third.count, output);
  fputc(TCPCLKIT_BUNDLE_LAST, output);
  return 1;
}

int main(int count, char **words) {
  static uint8_t bytes[1 << 20];
  size_t length;
  if (count == 2 && strcmp(words[1], "payload") == 0)
    return !copy_payload(stdin, stdout);
  if (count == 2 && strcmp(words[1], "receive") == 0)
    return !receive_data(stdin, stdout);
  length = fread(bytes, 1, sizeof bytes, stdin);
  if (count == 2 && strcmp(words[1], "bundle") == 0)
    return !show_bundle(bytes, length);
  if (count == 2 && strcmp(words[1], "blocks") == 0)
    return !show_blocks(bytes, length);
  if (count == 2 && strcmp(words[1], "pack") == 0)
    return !pack_bundles(bytes, length, stdout);
  if (count == 2 && strcmp(words[1], "send") == 0)
    return !send_bundle(bytes, length, 0, stdout);
  if (count == 2 && strcmp(words[1], "acknowledge") == 0)
    return !acknowledge_all(bytes, length, stdout);
  if (count == 2 && strcmp(words[1], "make") == 0)
    return !make_bundle(bytes, length, stdout);
  return !copy_data(bytes, length, stdout);
}
