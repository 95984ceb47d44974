/* Takes bundles over TCPCLv4 without TLS (RFC 9174), on one connection to 127.0.0.1:
 *
 *     receiver PORT [SEGMENT_MRU]
 *
 * With PORT 0, the system chooses a port. The first line on standard output is `port N`. Each
 * transfer has a line, which ends with `good`, with `refused` and the reason, or with the fault of
 * its bundle. A bundle of more than STORAGE bytes is refused while it comes.
 *
 * The exit status is 0 if the session ended with SESS_TERM, the peer kept to the protocol, and each
 * bundle was good or too long. Otherwise it is 1. */
#include "peer.h"
#include <inttypes.h>
#include <netinet/in.h>
#include <netinet/tcp.h>
#include <unistd.h>

#ifndef KEEPALIVE
#define KEEPALIVE 30u /* the interval that this side asks for, in seconds; not 0 */
#endif
#define STORAGE 262144u       /* how long a bundle may be to be stored */
#define TRANSFER_MRU 1048576u /* how long one may be at all: section 5.2.4 has the difference */

/* The transfer that began last */
struct transfer {
  int is_open;     /* 1 until its line is written */
  uint64_t reason; /* why its segments are refused; 0, which is Unknown, if they are not */
  uint64_t id;
  uint64_t length; /* of the data that was not refused */
  struct tcpclkit_announced announced;
  struct tcpclkit_scan scan;
};

static uint64_t segment_mru = 65536;
static int failures; /* transfers that did not go as planned */

/* Writes the line of a transfer: words, and a text of the library. */
static void end(struct transfer *transfer, const char *words, const void *text, uint64_t length) {
  printf("transfer %" PRIu64 " length=%" PRIu64 " %s%.*s\n", transfer->id, transfer->length, words,
         (int)length, (const char *)text);
  transfer->is_open = 0;
}

/* Refuses the segment that came last. */
static void refuse(struct peer *peer, struct transfer *transfer, uint64_t reason) {
  uint8_t text[20];
  uint64_t length;
  if (transfer->is_open) {
    MUST(tcpclkit_write_reason_text(TCPCLKIT_XFER_REFUSE, reason, text, sizeof text, &length));
    end(transfer, "refused ", text, length);
    failures += reason != TCPCLKIT_REFUSE_NO_RESOURCES;
  }
  transfer->reason = reason;
  SAY(peer, .kind = TCPCLKIT_XFER_REFUSE, .reason = reason, .id = peer->message.id);
}

/* Whether the last message has an item that has to be known, and is not (sections 4.8, 5.2.5). */
static int has_unknown_item(const struct peer *peer) {
  const struct tcpclkit_message *const message = &peer->message;
  const int has_total = message->kind == TCPCLKIT_XFER_SEGMENT;
  struct tcpclkit_item item = {.next = message->items_offset};
  while (tcpclkit_read_item(peer->bytes, peer->length, message, item.next, &item) == TCPCLKIT_OK)
    if ((item.flags & TCPCLKIT_ITEM_CRITICAL) &&
        !(has_total && item.item_type == TCPCLKIT_ITEM_TYPE_TRANSFER_LENGTH))
      return 1;
  return 0;
}

/* Returns why the segment has to be refused before its data comes, or 0. */
static uint64_t reason_to_refuse(const struct peer *peer, const struct transfer *transfer) {
  const uint64_t length = peer->message.data_length, after = transfer->length + length;
  const struct tcpclkit_announced *const announced = &transfer->announced;
  if (peer->turn.fault == TCPCLKIT_ORDER_START_AFTER_SESS_TERM)
    return TCPCLKIT_REFUSE_SESSION_TERMINATING;
  if (announced->kind == TCPCLKIT_ANNOUNCED_BADLY || has_unknown_item(peer))
    return TCPCLKIT_REFUSE_EXTENSION_FAILURE;
  if (length > segment_mru) return TCPCLKIT_REFUSE_NOT_ACCEPTABLE;
  if (announced->total > STORAGE || length > STORAGE || after > STORAGE)
    return TCPCLKIT_REFUSE_NO_RESOURCES;
  if (announced->kind == TCPCLKIT_ANNOUNCED_TOTAL && /* section 5.2.5.1 */
      (after > announced->total || (peer->turn.last && after < announced->total)))
    return TCPCLKIT_REFUSE_NOT_ACCEPTABLE;
  return 0;
}

/* Takes the segment that came last. */
static void take_segment(struct peer *peer, struct transfer *transfer) {
  const struct tcpclkit_message *const segment = &peer->message;
  struct tcpclkit_verdict verdict;
  uint8_t text[64];
  uint64_t length;
  uint32_t status;
  if (peer->turn.turn == TCPCLKIT_TURN_BEGIN) {
    if (transfer->is_open) end(transfer, "without an end", "", 0), failures++;
    transfer->is_open = 1, transfer->reason = 0, transfer->id = segment->id, transfer->length = 0;
    MUST(tcpclkit_read_announced(peer->bytes, peer->length, segment, &transfer->announced));
    MUST(tcpclkit_start_scan(&transfer->scan));
  }
  if (transfer->is_open) transfer->reason = reason_to_refuse(peer, transfer);
  if (transfer->reason != 0) {
    refuse(peer, transfer, transfer->reason);
    return;
  }
  while (next_piece(peer) > 0) /* a scan that has ended takes no more, which is judged below */
    tcpclkit_feed_scan(&transfer->scan, peer->bytes, peer->used, &length);
  transfer->length += segment->data_length;
  status = tcpclkit_end_scan(&transfer->scan, transfer->length, &verdict);
  if (status == TCPCLKIT_FAULT || (status == TCPCLKIT_TRUNCATED && peer->turn.last)) {
    MUST(tcpclkit_write_fault_text(verdict.fault.code, verdict.fault.number, text, sizeof text,
                                   &length));
    end(transfer, "", text, length), failures++;
    refuse(peer, transfer, TCPCLKIT_REFUSE_NOT_ACCEPTABLE);
  } else {
    SAY(peer, .kind = TCPCLKIT_XFER_ACK, .flags = segment->flags, .id = segment->id,
        .acknowledged = transfer->length);
    if (peer->turn.last) end(transfer, "good", "", 0);
  }
}

/* Exchanges contact headers and SESS_INITs, after those of the peer. */
static void open_session(struct peer *peer) {
  const struct tcpclkit_message *const message = &peer->message;
  struct tcpclkit_contact contact;
  struct tcpclkit_written written;
  uint8_t bytes[TCPCLKIT_CONTACT_LENGTH];
  uint32_t status;
  MUST(tcpclkit_start_order(&peer->order));
  peer->came_at = milliseconds(), peer->interval = 30000;
  while (status = tcpclkit_read_contact(peer->bytes, peer->length, &contact),
         status == TCPCLKIT_TRUNCATED)
    receive(peer);
  if (status == TCPCLKIT_FAULT && contact.fault.code != TCPCLKIT_WIRE_BAD_VERSION)
    give_up(peer, 0, "no contact header");
  MUST(tcpclkit_write_contact(0, bytes, sizeof bytes, &written));
  send_bytes(peer, bytes, written.count);
  peer->may_term = 1;
  if (status == TCPCLKIT_FAULT)
    give_up(peer, TCPCLKIT_TERM_VERSION_MISMATCH, "another version of TCPCL");
  peer->used = TCPCLKIT_CONTACT_LENGTH;
  next_message(peer);
  if (message->kind == TCPCLKIT_SESS_TERM) give_up(peer, 0, "the peer ends the session");
  if (message->kind != TCPCLKIT_SESS_INIT) reject(peer, TCPCLKIT_REJECT_UNEXPECTED, message->kind);
  send_message(peer, (struct tcpclkit_message){.kind = TCPCLKIT_SESS_INIT, .keepalive = KEEPALIVE,
      .segment_mru = segment_mru, .transfer_mru = TRANSFER_MRU}, "ipn:2.0", NULL, 0);
  if (has_unknown_item(peer))
    give_up(peer, TCPCLKIT_TERM_CONTACT_FAILURE, "an unknown item of SESS_INIT");
  peer->keeps_alive = message->keepalive > 0;
  if (peer->keeps_alive)
    peer->interval = 1000 * (message->keepalive < KEEPALIVE ? message->keepalive : KEEPALIVE);
}

/* Waits for a connection to a port of 127.0.0.1. */
static int accepted(const char *port) {
  struct sockaddr_in address = {.sin_family = AF_INET, .sin_port = htons((uint16_t)atoi(port))};
  socklen_t length = sizeof address;
  const int on = 1, listener = socket(AF_INET, SOCK_STREAM, 0);
  int made;
  address.sin_addr.s_addr = htonl(INADDR_LOOPBACK);
  setsockopt(listener, SOL_SOCKET, SO_REUSEADDR, &on, sizeof on);
  if (bind(listener, (struct sockaddr *)&address, length) != 0 || listen(listener, 1) != 0 ||
      getsockname(listener, (struct sockaddr *)&address, &length) != 0)
    FAIL("the port cannot be had");
  printf("port %d\n", ntohs(address.sin_port));
  fflush(stdout);
  made = accept(listener, NULL, NULL);
  if (made < 0) FAIL("no connection");
  setsockopt(made, IPPROTO_TCP, TCP_NODELAY, &on, sizeof on);
  close(listener);
  return made;
}

int main(int count, char **arguments) {
  static struct peer peer;
  static struct transfer transfer;
  struct pollfd waits = {.events = POLLIN};
  if (count != 2 && count != 3) FAIL("usage: receiver PORT [SEGMENT_MRU]");
  if (tcpclkit_abi() != TCPCLKIT_ABI) FAIL("the library has another interface");
  if (count == 3) segment_mru = strtoull(arguments[2], NULL, 10);
  peer.socket = waits.fd = accepted(arguments[1]);
  open_session(&peer);
  do {
    next_message(&peer);
    switch (peer.message.kind) {
      case TCPCLKIT_XFER_SEGMENT:
        take_segment(&peer, &transfer);
        break;
      case TCPCLKIT_XFER_ACK: /* this side sends no bundles */
      case TCPCLKIT_XFER_REFUSE:
        reject(&peer, TCPCLKIT_REJECT_UNEXPECTED, peer.message.kind);
        break;
      case TCPCLKIT_MSG_REJECT:
        give_up(&peer, TCPCLKIT_TERM_UNKNOWN, "the peer rejects a message");
    }
  } while (peer.may_term || transfer.is_open); /* no SESS_TERM yet, or a transfer goes on */
  shutdown(peer.socket, SHUT_WR);
  while (poll(&waits, 1, 5000) > 0 && recv(peer.socket, peer.bytes, 4096, 0) > 0) continue;
  close(peer.socket);
  return failures > 0;
}
