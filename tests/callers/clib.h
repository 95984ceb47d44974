/* What the parts of the test of the C library share: checks, and worked bytes. */
#ifndef TCPCLKIT_CLIB_H
#define TCPCLKIT_CLIB_H

#include "tcpclkit.h"

#include <string.h>

#define CHECK(holds) count((holds) != 0, __FILE__, __LINE__, #holds)

/* Counts a check, and prints one that does not hold. */
void count(int holds, const char *file, int line, const char *what);

/* What the other files test. The first measures stacks if it is told to. */
void test_tools(int measures_stacks);
void test_recordings(void);
void test_texts(void);
void test_message_writers(void);
void test_bundle_writers(void);
void test_more(void);
void test_mistakes(void);
void test_writer_mistakes(void);
void test_overlaps(void);
void test_shown(void);

/* The calls of three of these files, whose stack the first measures. */
void call_texts(void);
void call_message_writers(void);
void call_bundle_writers(void);

/* Whether the slice begins with these bytes. */
static inline int begins(const uint8_t *slice, const char *text) {
  return memcmp(slice, text, strlen(text)) == 0;
}

/* What bytes and structs are full of before a call that has to leave some of them. */
#define MARK 0xa5

/* Whether all of these bytes are marks. */
static inline int is_marked(const void *bytes, size_t length) {
  const uint8_t *start = (const uint8_t *)bytes;
  size_t at;
  for (at = 0; at < length; at++)
    if (start[at] != MARK)
      return 0;
  return 1;
}

#define IS_MARKED(it) is_marked(&(it), sizeof(it))

/* A bundle from ipn:1.1 to ipn:2.1 with the payload `hello`. */
#define BUNDLE_BYTES                                                                              \
  0x9f, 0x88, 0x07, 0x00, 0x00, 0x82, 0x02, 0x82, 0x02, 0x01, 0x82, 0x02, 0x82, 0x01, 0x01, 0x82, \
      0x01, 0x00, 0x82, 0x00, 0x00, 0x00, 0x85, 0x01, 0x01, 0x00, 0x00, 0x45, 'h', 'e', 'l', 'l', \
      'o', 0xff

static const uint8_t bundle[] = {BUNDLE_BYTES, 0x00};
#define BUNDLE_LENGTH (sizeof bundle - 1)

/* A bundle from dtn://a to dtn://bc without payload bytes. */
static const uint8_t named[] = {
    0x9f, 0x88, 0x07, 0x00, 0x00, 0x82, 0x01, 0x64, '/',  '/',  'b',  'c',  0x82, 0x01, 0x63,
    '/',  '/',  'a',  0x82, 0x01, 0x00, 0x82, 0x05, 0x06, 0x07, 0x85, 0x01, 0x01, 0x00, 0x00,
    0x40, 0xff};

/* The same, with reports to dtn://def. */
static const uint8_t reported[] = {
    0x9f, 0x88, 0x07, 0x00, 0x00, 0x82, 0x01, 0x64, '/',  '/',  'b',  'c',  0x82, 0x01, 0x63,
    '/',  '/',  'a',  0x82, 0x01, 0x65, '/',  '/',  'd',  'e',  'f',  0x82, 0x05, 0x06, 0x07,
    0x85, 0x01, 0x01, 0x00, 0x00, 0x40, 0xff};

/* The first 3 of 9 payload bytes of a bundle from dtn:none to ipn:2.1, as a fragment. */
static const uint8_t fragment[] = {
    0x9f, 0x8a, 0x07, 0x01, 0x00, 0x82, 0x02, 0x82, 0x02, 0x01, 0x82, 0x01, 0x00, 0x82, 0x01,
    0x00, 0x82, 0x05, 0x06, 0x07, 0x02, 0x09, 0x85, 0x01, 0x01, 0x00, 0x00, 0x43, 'h',  'e',
    'l',  0xff};

/* The bytes 70,000 to 70,005 of 140,000, `middle`, from dtn://x to ipn:2.1. The primary block has a
 * check value of four bytes. */
static const uint8_t checked[] = {
    0x9f, 0x8b, 0x07, 0x01, 0x02, 0x82, 0x02, 0x82, 0x02, 0x01, 0x82, 0x01, 0x63, '/',  '/',
    'x',  0x82, 0x01, 0x00, 0x82, 0x00, 0x09, 0x00, 0x1a, 0x00, 0x01, 0x11, 0x70, 0x1a, 0x00,
    0x02, 0x22, 0xe0, 0x44, 0x69, 0x89, 0x0d, 0xbe, 0x85, 0x01, 0x01, 0x00, 0x00, 0x46, 'm',
    'i',  'd',  'd',  'l',  'e',  0xff};

/* A bundle from ipn:1.1 to ipn:2.1 with a block of each check type before the break: a bundle age,
 * a hop count, and the payload `hi`. */
static const uint8_t several[] = {
    0x9f, 0x88, 0x07, 0x04, 0x00, 0x82, 0x02, 0x82, 0x02, 0x01, 0x82, 0x02, 0x82, 0x01,
    0x01, 0x82, 0x01, 0x00, 0x82, 0x00, 0x00, 0x00, 0x86, 0x07, 0x02, 0x10, 0x01, 0x41,
    0x05, 0x42, 0x6d, 0xcc, 0x85, 0x0a, 0x03, 0x00, 0x00, 0x43, 0x82, 0x04, 0x01, 0x86,
    0x01, 0x01, 0x01, 0x02, 0x42, 'h',  'i',  0x44, 0xd4, 0xa3, 0xfe, 0x01, 0xff};

/* A contact header, a SESS_INIT, and the bundle in one segment. */
static const uint8_t recording[] = {
    0x64, 0x74, 0x6e, 0x21, 0x04, 0x00, 0x07, 0x00, 0x3c, 0x00, 0x00, 0x00, 0x00, 0x00, 0x01,
    0x00, 0x00, 0x00, 0x00, 0x00, 0x00, 0x00, 0x10, 0x00, 0x00, 0x00, 0x07, 'i',  'p',  'n',
    ':',  '1',  '.',  '0',  0x00, 0x00, 0x00, 0x00, 0x01, 0x03, 0x00, 0x00, 0x00, 0x00, 0x00,
    0x00, 0x00, 0x00, 0x00, 0x00, 0x00, 0x00, 0x00, 0x00, 0x00, 0x00, 0x00, 0x00, 0x00, 0x22,
    BUNDLE_BYTES};

/* The head of a segment with a Transfer Length item, and no data. */
static const uint8_t announcing[] = {0x01, 0x02, 0, 0, 0, 0, 0, 0, 0, 5, 0, 0, 0, 0x0d,
                                     0x01, 0, 1, 0, 8, 0, 0, 0, 0, 0, 0, 1, 0,
                                     0, 0, 0, 0, 0, 0, 0, 3};

/* tcpclkit_describe_bundle without slices for the names. */
static inline uint32_t describe(const uint8_t *bytes, size_t length, struct tcpclkit_bundle *info) {
  return tcpclkit_describe_bundle(bytes, length, NULL, 0, NULL, 0, NULL, 0, info);
}

/* The fields of a message that its order depends on. */
static inline struct tcpclkit_message message_of(uint64_t kind, uint64_t flags, uint64_t id) {
  struct tcpclkit_message message;
  memset(&message, 0, sizeof message);
  message.kind = kind;
  message.flags = flags;
  message.id = id;
  return message;
}

static inline uint32_t judge(struct tcpclkit_order *order, uint64_t kind, uint64_t flags,
                             uint64_t id, struct tcpclkit_turn *turn) {
  const struct tcpclkit_message message = message_of(kind, flags, id);
  return tcpclkit_judge_message(order, &message, turn);
}

static inline uint32_t take(struct tcpclkit_order *order, uint64_t kind, uint64_t flags,
                            uint64_t id, struct tcpclkit_turn *turn) {
  const struct tcpclkit_message message = message_of(kind, flags, id);
  return tcpclkit_take_message(order, &message, turn);
}

#define LEAVES(call, status, it) \
  do {                           \
    CHECK((call) == (status));   \
    CHECK(IS_MARKED(it));        \
  } while (0)

#endif
