/* What sender.c and receiver.c share: one side of a TCPCLv4 session (RFC 9174) on a TCP socket. */
#define _POSIX_C_SOURCE 200809L
#include <poll.h>
#include <stdio.h>
#include <stdlib.h>
#include <string.h>
#include <sys/socket.h>
#include <time.h>
#include <tcpclkit.h>

#define FAIL(why) exit((fprintf(stderr, "%s\n", why), 1))
#define MUST(call) ((call) == TCPCLKIT_OK ? (void)0 : FAIL("failed: " #call))

struct peer {
  int socket;
  int may_term;             /* 1 while a SESS_TERM may be sent */
  int keeps_alive;          /* 1 if KEEPALIVEs were negotiated */
  int64_t interval;         /* of KEEPALIVEs, in milliseconds; half of the patience with the peer */
  int64_t sent_at, came_at; /* when bytes were last sent, and when some last came */
  struct tcpclkit_order order;
  struct tcpclkit_turn turn;
  struct tcpclkit_message message; /* the last message; `bytes` begins with its head */
  uint64_t left;                   /* how many bytes of its data are still to be handed on */
  size_t length, used;             /* how many bytes there are, and how many are done with */
  uint8_t bytes[TCPCLKIT_HEAD_LIMIT];
};

static inline int64_t milliseconds(void) {
  struct timespec now;
  clock_gettime(CLOCK_MONOTONIC, &now);
  return (int64_t)now.tv_sec * 1000 + now.tv_nsec / 1000000;
}

static inline void send_bytes(struct peer *peer, const uint8_t *bytes, size_t length) {
  ssize_t sent;
  for (; length > 0; bytes += sent, length -= (size_t)sent)
    if ((sent = send(peer->socket, bytes, length, MSG_NOSIGNAL)) < 0) FAIL("the peer has gone");
  peer->sent_at = milliseconds();
}

static inline void send_message(struct peer *peer, struct tcpclkit_message message,
                                const char *node, const uint8_t *items, size_t items_length) {
  uint8_t bytes[TCPCLKIT_SESS_INIT_LENGTH + TCPCLKIT_NODE_ID_LIMIT];
  struct tcpclkit_written written;
  MUST(tcpclkit_write_message(&message, (const uint8_t *)node, strlen(node), items, items_length,
                              bytes, sizeof bytes, &written));
  if (message.kind == TCPCLKIT_SESS_TERM) peer->may_term = 0;
  send_bytes(peer, bytes, written.count);
}

/* Sends a message with these fields, and without a node ID or items. */
#define SAY(peer, ...) send_message(peer, (struct tcpclkit_message){__VA_ARGS__}, "", NULL, 0)

/* Ends the session at once (section 6.1). The system would reset it if bytes were left unread. */
static inline void give_up(struct peer *peer, uint64_t reason, const char *why) {
  struct pollfd waits = {.fd = peer->socket, .events = POLLIN};
  if (peer->may_term) SAY(peer, .kind = TCPCLKIT_SESS_TERM, .reason = reason);
  shutdown(peer->socket, SHUT_WR);
  while (poll(&waits, 1, 5000) > 0 && recv(peer->socket, peer->bytes, 4096, 0) > 0) continue;
  FAIL(why);
}

/* Rejects a message (section 5.1.2), and ends the session. */
static inline void reject(struct peer *peer, uint64_t reason, uint64_t type) {
  SAY(peer, .kind = TCPCLKIT_MSG_REJECT, .reason = reason, .header = type);
  if (reason == TCPCLKIT_REJECT_TYPE_UNKNOWN)
    peer->may_term = 0; /* the connection is to be closed */
  give_up(peer, TCPCLKIT_TERM_UNKNOWN, "a message of the peer was rejected");
}

/* Waits for bytes, and meanwhile sends each KEEPALIVE that is due (section 5.1.1). */
static inline void receive(struct peer *peer) {
  struct pollfd waits = {.fd = peer->socket, .events = POLLIN};
  ssize_t got;
  do {
    got = poll(&waits, 1, 100);
    if (got == 0 && milliseconds() - peer->came_at >= 2 * peer->interval)
      give_up(peer, TCPCLKIT_TERM_IDLE_TIMEOUT, "the peer is idle");
    if (peer->keeps_alive && milliseconds() - peer->sent_at >= peer->interval)
      SAY(peer, .kind = TCPCLKIT_KEEPALIVE);
  } while (got == 0);
  got = recv(peer->socket, peer->bytes + peer->length, sizeof peer->bytes - peer->length, 0);
  if (got <= 0) FAIL("the peer has gone");
  peer->came_at = milliseconds();
  peer->length += (size_t)got;
}

/* Drops the bytes that are done with. Then the data goes on with the first `used` bytes, if any. */
static inline size_t next_piece(struct peer *peer) {
  memmove(peer->bytes, peer->bytes + peer->used, peer->length -= peer->used);
  peer->used = 0;
  if (peer->left > 0 && peer->length == 0) receive(peer);
  peer->used = peer->left < peer->length ? peer->left : peer->length;
  peer->left -= peer->used;
  return peer->used;
}

/* Reads the next message. Rejects it if it may not come, except a START that is to be refused. */
static inline void next_message(struct peer *peer) {
  const struct tcpclkit_message *const message = &peer->message;
  uint32_t status;
  while (next_piece(peer) > 0) continue;
  while (status = tcpclkit_read_message(peer->bytes, peer->length, 0, &peer->message),
         status == TCPCLKIT_END || status == TCPCLKIT_TRUNCATED)
    receive(peer);
  if (status == TCPCLKIT_FAULT && message->fault.code == TCPCLKIT_WIRE_UNKNOWN_TYPE)
    reject(peer, TCPCLKIT_REJECT_TYPE_UNKNOWN, message->fault.number);
  if (status == TCPCLKIT_FAULT)
    give_up(peer, peer->order.initiated ? TCPCLKIT_TERM_RESOURCE_EXHAUSTION
                                        : TCPCLKIT_TERM_CONTACT_FAILURE, "a message is not read");
  peer->used = message->data_offset, peer->left = message->data_length;
  if (tcpclkit_take_message(&peer->order, message, &peer->turn) == TCPCLKIT_FAULT &&
      peer->turn.fault != TCPCLKIT_ORDER_START_AFTER_SESS_TERM)
    reject(peer, TCPCLKIT_REJECT_UNEXPECTED, message->kind);
  if (message->kind == TCPCLKIT_SESS_TERM && peer->may_term)
    SAY(peer, .kind = message->kind, .flags = message->flags | TCPCLKIT_SESS_TERM_REPLY,
        .reason = message->reason);
}
