/* Makes three bundles, and sends them to a receiver over TCPCLv4 without TLS (RFC 9174):
 *
 *     sender HOST PORT
 *
 * It sends up to WINDOW segments before it reads the answers to them. Once it has read that a
 * bundle is refused, it sends no further segment of it (section 5.2.4). The exit status is 0 if the
 * receiver takes the first two bundles, and refuses the third. Otherwise it is 1. */
#include "peer.h"
#include <netdb.h>
#include <netinet/in.h>
#include <netinet/tcp.h>
#include <unistd.h>

#ifndef KEEPALIVE
#define KEEPALIVE 60u /* the interval that this side asks for, in seconds; not 0 */
#endif
#define SEGMENT 16384u  /* how many bytes of data a segment has, if the peer takes that many */
#define WINDOW 32u      /* how many such segments may be without an answer */
#define BUNDLES 3u
#define LONGEST 500000u /* bytes of payload */
#define ROOM (2u + TCPCLKIT_PRIMARY_ROOM + 4u * (TCPCLKIT_BLOCK_HEAD_ROOM + TCPCLKIT_CHECK_ROOM) + \
              TCPCLKIT_EID_ROOM + TCPCLKIT_AGE_ROOM + TCPCLKIT_HOP_COUNT_ROOM + LONGEST)

struct transfer {
  enum { SENDING, ACKNOWLEDGED, REFUSED } state;
  struct tcpclkit_sent sent;
};

static uint8_t bundle[ROOM];
static size_t bundle_length;

/* Adds a canonical block (RFC 9171 section 4.3.2). */
static void add_block(uint64_t type, uint64_t number, const uint8_t *data, size_t length) {
  const struct tcpclkit_block block = {.kind = TCPCLKIT_BLOCK_CANONICAL, .block_type = type,
      .number = number, .check = TCPCLKIT_CHECK_CRC32, .data_length = length};
  uint8_t *const start = bundle + bundle_length, *at = start;
  struct tcpclkit_crc check;
  struct tcpclkit_written written;
  MUST(tcpclkit_write_block_head(&block, at, TCPCLKIT_BLOCK_HEAD_ROOM, &written));
  at += written.count;
  memcpy(at, data, length);
  at += length;
  MUST(tcpclkit_start_check(&check, block.check));
  MUST(tcpclkit_feed_check(&check, start, (size_t)(at - start)));
  MUST(tcpclkit_write_check(&check, at, TCPCLKIT_CHECK_ROOM, &written));
  bundle_length = (size_t)(at - bundle) + written.count;
}

static void make_bundle(uint64_t sequence, size_t payload_length) {
  static uint8_t payload[LONGEST];
  const struct tcpclkit_eid node = {.kind = TCPCLKIT_EID_IPN, .node = 1};
  const struct tcpclkit_bundle primary = {
      .destination = {.kind = TCPCLKIT_EID_IPN, .node = 2, .service = 1},
      .source = {.kind = TCPCLKIT_EID_IPN, .node = 1, .service = 1},
      .report_to = {.kind = TCPCLKIT_EID_DTN_NONE},
      .time = ((uint64_t)time(NULL) - 946684800) * 1000, /* since 2000-01-01 */
      .sequence = sequence, .lifetime = 3600000};
  struct tcpclkit_written written;
  uint8_t data[TCPCLKIT_EID_ROOM];
  bundle[0] = TCPCLKIT_BUNDLE_FIRST;
  MUST(tcpclkit_write_primary(&primary, TCPCLKIT_CHECK_CRC32, NULL, 0, NULL, 0, NULL, 0,
                              bundle + 1, ROOM - 1, &written));
  bundle_length = 1 + written.count;
  MUST(tcpclkit_write_eid(&node, NULL, 0, data, sizeof data, &written));
  add_block(TCPCLKIT_BLOCK_TYPE_PREVIOUS_NODE, 2, data, written.count);
  MUST(tcpclkit_write_age(0, data, sizeof data, &written));
  add_block(TCPCLKIT_BLOCK_TYPE_BUNDLE_AGE, 3, data, written.count);
  MUST(tcpclkit_write_hop_count(30, 0, data, sizeof data, &written));
  add_block(TCPCLKIT_BLOCK_TYPE_HOP_COUNT, 4, data, written.count);
  memset(payload, (int)('a' + sequence), payload_length);
  add_block(TCPCLKIT_BLOCK_TYPE_PAYLOAD, 1, payload, payload_length);
  bundle[bundle_length++] = TCPCLKIT_BUNDLE_LAST;
}

static int connected(const char *host, const char *port) {
  const struct addrinfo hints = {.ai_socktype = SOCK_STREAM};
  const int on = 1;
  struct addrinfo *found;
  int made;
  if (getaddrinfo(host, port, &hints, &found) != 0) FAIL("the host or the port is unknown");
  made = socket(found->ai_family, found->ai_socktype, found->ai_protocol);
  if (made < 0 || connect(made, found->ai_addr, found->ai_addrlen) != 0) FAIL("no connection");
  freeaddrinfo(found);
  setsockopt(made, IPPROTO_TCP, TCP_NODELAY, &on, sizeof on);
  return made;
}

/* Exchanges contact headers and SESS_INITs (RFC 9174). `message` is then that of the peer. */
static void open_session(struct peer *peer) {
  const struct tcpclkit_message *const message = &peer->message;
  struct tcpclkit_contact contact;
  struct tcpclkit_item item;
  struct tcpclkit_written written;
  uint8_t bytes[TCPCLKIT_CONTACT_LENGTH];
  uint32_t status;
  MUST(tcpclkit_start_order(&peer->order));
  peer->came_at = milliseconds(), peer->interval = 30000;
  MUST(tcpclkit_write_contact(0, bytes, sizeof bytes, &written));
  send_bytes(peer, bytes, written.count);
  while (status = tcpclkit_read_contact(peer->bytes, peer->length, &contact),
         status == TCPCLKIT_TRUNCATED)
    receive(peer);
  if (status != TCPCLKIT_OK) give_up(peer, 0, "no contact header of version 4");
  peer->used = TCPCLKIT_CONTACT_LENGTH;
  peer->may_term = 1;
  send_message(peer, (struct tcpclkit_message){.kind = TCPCLKIT_SESS_INIT, .keepalive = KEEPALIVE,
      .segment_mru = 65536, .transfer_mru = 1048576}, "ipn:1.0", NULL, 0);
  next_message(peer);
  if (message->kind == TCPCLKIT_SESS_TERM) give_up(peer, 0, "the peer refuses the session");
  if (message->kind != TCPCLKIT_SESS_INIT) reject(peer, TCPCLKIT_REJECT_UNEXPECTED, message->kind);
  item.next = message->items_offset;
  while (tcpclkit_read_item(peer->bytes, peer->length, message, item.next, &item) == TCPCLKIT_OK)
    if (item.flags & TCPCLKIT_ITEM_CRITICAL)
      give_up(peer, TCPCLKIT_TERM_CONTACT_FAILURE, "an unknown item of SESS_INIT");
  if (message->segment_mru == 0)
    give_up(peer, TCPCLKIT_TERM_CONTACT_FAILURE, "the peer takes no data");
  peer->keeps_alive = message->keepalive > 0;
  if (peer->keeps_alive)
    peer->interval = 1000 * (message->keepalive < KEEPALIVE ? message->keepalive : KEEPALIVE);
}

/* Sends the next segment of a transfer (section 5.2.2). */
static void send_segment(struct peer *peer, struct tcpclkit_sent *sent, uint64_t most) {
  const uint64_t left = bundle_length - sent->length;
  struct tcpclkit_message segment = {.kind = TCPCLKIT_XFER_SEGMENT, .id = sent->id};
  struct tcpclkit_written written = {0, 0};
  uint8_t item[TCPCLKIT_TOTAL_LENGTH];
  segment.data_length = left < most ? left : most;
  if (sent->length == 0) segment.flags |= TCPCLKIT_SEGMENT_START;
  if (left <= most) segment.flags |= TCPCLKIT_SEGMENT_END;
  if (segment.flags == TCPCLKIT_SEGMENT_START) /* others follow: section 5.2.5.1 */
    MUST(tcpclkit_write_total(0, left, item, sizeof item, &written));
  send_message(peer, segment, "", item, written.count);
  send_bytes(peer, bundle + sent->length, segment.data_length);
  sent->length += segment.data_length;
  sent->whole = left <= most;
}

/* Takes a message. The transfers whose IDs are below `begun` have begun. */
static void take_message(struct peer *peer, struct transfer *transfers, uint64_t begun) {
  const struct tcpclkit_message *const message = &peer->message;
  const int may_term = peer->may_term;
  struct transfer *transfer;
  next_message(peer);
  switch (message->kind) {
    case TCPCLKIT_XFER_ACK:
    case TCPCLKIT_XFER_REFUSE:
      if (message->id >= begun) reject(peer, TCPCLKIT_REJECT_UNEXPECTED, message->kind);
      transfer = transfers + message->id;
      if (transfer->state == ACKNOWLEDGED ||
          (transfer->state == REFUSED && message->kind == TCPCLKIT_XFER_ACK) ||
          tcpclkit_judge_answer(&transfer->sent, message) != TCPCLKIT_OK)
        reject(peer, TCPCLKIT_REJECT_UNEXPECTED, message->kind);
      if (message->kind == TCPCLKIT_XFER_REFUSE) transfer->state = REFUSED;
      else if (message->flags & TCPCLKIT_SEGMENT_END) transfer->state = ACKNOWLEDGED;
      break;
    case TCPCLKIT_XFER_SEGMENT: /* this side takes no bundles */
      SAY(peer, .kind = TCPCLKIT_XFER_REFUSE, .id = message->id, .reason = may_term
          ? TCPCLKIT_REFUSE_NOT_ACCEPTABLE : TCPCLKIT_REFUSE_SESSION_TERMINATING);
      break;
    case TCPCLKIT_SESS_TERM:
      if (may_term) give_up(peer, 0, "the peer ends the session");
      break;
    case TCPCLKIT_MSG_REJECT:
      give_up(peer, TCPCLKIT_TERM_UNKNOWN, "the peer rejects a message");
  }
}

int main(int count, char **arguments) {
  static const size_t lengths[BUNDLES] = {12, 100000, LONGEST};
  static struct peer peer;
  static struct transfer transfers[BUNDLES];
  uint64_t id, most, longest;
  if (count != 3) FAIL("usage: sender HOST PORT");
  if (tcpclkit_abi() != TCPCLKIT_ABI) FAIL("the library has another interface");
  peer.socket = connected(arguments[1], arguments[2]);
  open_session(&peer);
  most = peer.message.segment_mru < SEGMENT ? peer.message.segment_mru : SEGMENT;
  longest = peer.message.transfer_mru;
  for (id = 0; id < BUNDLES; id++) {
    struct tcpclkit_sent *const sent = &transfers[id].sent;
    sent->id = id;
    make_bundle(id, lengths[id]);
    if (bundle_length > longest)
      give_up(&peer, TCPCLKIT_TERM_UNKNOWN, "the peer takes no such bundle");
    while (transfers[id].state == SENDING)
      if (!sent->whole && sent->length - sent->acknowledged <= (WINDOW - 1) * most)
        send_segment(&peer, sent, most);
      else
        take_message(&peer, transfers, id + 1);
  }
  SAY(&peer, .kind = TCPCLKIT_SESS_TERM, .reason = TCPCLKIT_TERM_UNKNOWN);
  do take_message(&peer, transfers, BUNDLES);
  while (peer.message.kind != TCPCLKIT_SESS_TERM);
  close(peer.socket);
  return transfers[0].state != ACKNOWLEDGED || transfers[1].state != ACKNOWLEDGED ||
         transfers[2].state != REFUSED;
}
