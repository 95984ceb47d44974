/* Calls the functions of the C library for names, and for the texts of endpoint IDs. */
#include "clib.h"

/* A text that was written into a slice, and the bytes after it. */
static struct {
  uint8_t bytes[50];
  size_t room;
  uint64_t written;
} it;

#define ROOM it.bytes, it.room, &it.written

static void has_text(uint32_t status, const char *text) {
  const size_t length = strlen(text), fits = length < it.room ? length : it.room;
  CHECK(status == (length <= it.room ? TCPCLKIT_OK : TCPCLKIT_TOO_SMALL));
  CHECK(it.written == fits && memcmp(it.bytes, text, fits) == 0);
  CHECK(is_marked(it.bytes + fits, sizeof it.bytes - fits));
}

/* Makes a call that has this text to write, into each room up to one byte more than it needs. */
#define HAS(call, text)                                           \
  do {                                                            \
    for (it.room = 0; it.room <= strlen(text) + 1; it.room++) {   \
      memset(&it.bytes, MARK, sizeof it.bytes);                   \
      memset(&it.written, MARK, sizeof it.written);               \
      has_text(call, text);                                       \
    }                                                             \
  } while (0)

/* -- names */

/* The names of the codes from 0 on, by docs/FORMATS.md. Each other code has the name `?`. */
static const char *const refuse_names[] = {
    "unknown", "completed", "no-resources", "retransmit", "not-acceptable", "extension-failure",
    "session-terminating"};
static const char *const term_names[] = {"unknown", "idle-timeout", "version-mismatch", "busy",
                                         "contact-failure", "resource-exhaustion"};
static const char *const reject_names[] = {"?", "message-type-unknown", "message-unsupported",
                                           "message-unexpected"};
static const char *const report_names[] = {
    "no-additional-information", "lifetime-expired", "forwarded-over-unidirectional-link",
    "transmission-canceled", "depleted-storage", "destination-unavailable", "no-known-route",
    "no-timely-contact", "block-unintelligible", "hop-limit-exceeded", "traffic-pared",
    "block-unsupported", "missing-security-operation", "unknown-security-operation",
    "unexpected-security-operation", "failed-security-operation",
    "conflicting-security-operation"};
static const char *const type_names[] = {
    "?", "payload", "?", "?", "?", "?", "previous-node", "bundle-age", "?", "?", "hop-count",
    "block-integrity", "block-confidentiality"};

#define NAME(names, code) ((code) < sizeof names / sizeof *names ? names[code] : "?")

static void names(void) {
  uint64_t code;
  for (code = 0; code < 256; code++) {
    HAS(tcpclkit_write_reason_text(TCPCLKIT_XFER_REFUSE, code, ROOM), NAME(refuse_names, code));
    HAS(tcpclkit_write_reason_text(TCPCLKIT_SESS_TERM, code, ROOM), NAME(term_names, code));
    HAS(tcpclkit_write_reason_text(TCPCLKIT_MSG_REJECT, code, ROOM), NAME(reject_names, code));
  }
  for (code = 0; code < 300; code++) {
    HAS(tcpclkit_write_report_reason_text(code, ROOM), NAME(report_names, code));
    HAS(tcpclkit_write_block_type_text(code, ROOM), NAME(type_names, code));
  }
  for (code = 1; code != 0; code <<= 1) {
    HAS(tcpclkit_write_report_reason_text(UINT64_MAX - code + 1, ROOM), "?");
    HAS(tcpclkit_write_block_type_text(UINT64_MAX - code + 1, ROOM), "?");
  }
  it.room = 0;
  CHECK(tcpclkit_write_block_type_text(1, NULL, 0, &it.written) == TCPCLKIT_TOO_SMALL);
  CHECK(it.written == 0);
}

/* The numbers that the header has of the RFCs, those of the RFCs, and the names that lines show. */
static const struct {
  uint64_t number, wanted;
  const char *name;
} reasons[] = {
    {TCPCLKIT_REFUSE_UNKNOWN, 0, "unknown"}, /* RFC 9174 section 5.2.4, Table 6 */
    {TCPCLKIT_REFUSE_COMPLETED, 1, "completed"},
    {TCPCLKIT_REFUSE_NO_RESOURCES, 2, "no-resources"},
    {TCPCLKIT_REFUSE_RETRANSMIT, 3, "retransmit"},
    {TCPCLKIT_REFUSE_NOT_ACCEPTABLE, 4, "not-acceptable"},
    {TCPCLKIT_REFUSE_EXTENSION_FAILURE, 5, "extension-failure"},
    {TCPCLKIT_REFUSE_SESSION_TERMINATING, 6, "session-terminating"},
    {TCPCLKIT_TERM_UNKNOWN, 0, "unknown"}, /* section 6.1, Table 9 */
    {TCPCLKIT_TERM_IDLE_TIMEOUT, 1, "idle-timeout"},
    {TCPCLKIT_TERM_VERSION_MISMATCH, 2, "version-mismatch"},
    {TCPCLKIT_TERM_BUSY, 3, "busy"},
    {TCPCLKIT_TERM_CONTACT_FAILURE, 4, "contact-failure"},
    {TCPCLKIT_TERM_RESOURCE_EXHAUSTION, 5, "resource-exhaustion"},
    {TCPCLKIT_REJECT_TYPE_UNKNOWN, 1, "message-type-unknown"}, /* section 5.1.2, Table 4 */
    {TCPCLKIT_REJECT_UNSUPPORTED, 2, "message-unsupported"},
    {TCPCLKIT_REJECT_UNEXPECTED, 3, "message-unexpected"},
}, block_types[] = {
    {TCPCLKIT_BLOCK_TYPE_PAYLOAD, 1, "payload"}, /* RFC 9171 section 9.1 */
    {TCPCLKIT_BLOCK_TYPE_PREVIOUS_NODE, 6, "previous-node"},
    {TCPCLKIT_BLOCK_TYPE_BUNDLE_AGE, 7, "bundle-age"},
    {TCPCLKIT_BLOCK_TYPE_HOP_COUNT, 10, "hop-count"},
    {TCPCLKIT_BLOCK_TYPE_INTEGRITY, 11, "block-integrity"}, /* RFC 9172 section 11.1 */
    {TCPCLKIT_BLOCK_TYPE_CONFIDENTIALITY, 12, "block-confidentiality"},
};

static void numbers_of_the_header(void) {
  uint64_t kind;
  size_t row;
  for (row = 0; row < sizeof reasons / sizeof *reasons; row++) {
    kind = row < 7 ? TCPCLKIT_XFER_REFUSE : row < 13 ? TCPCLKIT_SESS_TERM : TCPCLKIT_MSG_REJECT;
    CHECK(reasons[row].number == reasons[row].wanted);
    HAS(tcpclkit_write_reason_text(kind, reasons[row].number, ROOM), reasons[row].name);
  }
  for (row = 0; row < sizeof block_types / sizeof *block_types; row++) {
    CHECK(block_types[row].number == block_types[row].wanted);
    HAS(tcpclkit_write_block_type_text(block_types[row].number, ROOM), block_types[row].name);
  }
  CHECK(TCPCLKIT_CONTACT_CAN_TLS == 0x01);             /* RFC 9174 section 4.2, Table 1 */
  CHECK(TCPCLKIT_ITEM_CRITICAL == 0x01);               /* sections 4.8 and 5.2.5, Tables 3, 7 */
  CHECK(TCPCLKIT_ITEM_TYPE_TRANSFER_LENGTH == 0x0001); /* section 8.4, Table 13 */
  CHECK(TCPCLKIT_SEGMENT_END == 0x01 && TCPCLKIT_SEGMENT_START == 0x02); /* 5.2.2, Table 5 */
  CHECK(TCPCLKIT_SESS_TERM_REPLY == 0x01);             /* section 6.1, Table 8 */
}

/* The room that is enough for every name, by the comments of the header. The longest names need all
 * of it. */
static void longest_names(void) {
  uint64_t kind, code, longest[3] = {0, 0, 0};
  for (code = 0; code < 256; code++) {
    for (kind = 0; kind < 9; kind++) {
      const int has_reason = kind == TCPCLKIT_XFER_REFUSE || kind == TCPCLKIT_SESS_TERM ||
                             kind == TCPCLKIT_MSG_REJECT;
      CHECK(tcpclkit_write_reason_text(kind, code, it.bytes, 20, &it.written) ==
            (has_reason ? TCPCLKIT_OK : TCPCLKIT_RANGE));
      longest[0] = has_reason && it.written > longest[0] ? it.written : longest[0];
    }
    CHECK(tcpclkit_write_report_reason_text(code, it.bytes, 34, &it.written) == TCPCLKIT_OK);
    longest[1] = it.written > longest[1] ? it.written : longest[1];
    CHECK(tcpclkit_write_block_type_text(code, it.bytes, 21, &it.written) == TCPCLKIT_OK);
    longest[2] = it.written > longest[2] ? it.written : longest[2];
  }
  CHECK(longest[0] == 20 && longest[1] == 34 && longest[2] == 21);
}

static void words_of_answers(void) {
  HAS(tcpclkit_write_fault_text(TCPCLKIT_ANSWER_OTHER_TRANSFER, 0, ROOM), "another transfer");
  HAS(tcpclkit_write_fault_text(TCPCLKIT_ANSWER_LENGTH_FALLS, 0, ROOM),
      "acknowledged length falls");
  HAS(tcpclkit_write_fault_text(TCPCLKIT_ANSWER_LENGTH_NOT_SENT, 0, ROOM),
      "acknowledged length was not sent");
  HAS(tcpclkit_write_fault_text(TCPCLKIT_ANSWER_END_TOO_EARLY, 0, ROOM),
      "end without the whole transfer");
}

/* -- texts of endpoint IDs */

static const struct {
  const char *text;
  struct tcpclkit_eid eid;
  const char *name;
} eid_rows[] = {
    {"dtn:none", {TCPCLKIT_EID_DTN_NONE, 0, 0, 0, 0}, ""},
    {"dtn:", {TCPCLKIT_EID_DTN, 0, 0, 0, 0}, ""},
    {"dtn:x", {TCPCLKIT_EID_DTN, 0, 0, 0, 1}, "x"},
    {"dtn:None", {TCPCLKIT_EID_DTN, 0, 0, 0, 4}, "None"},
    {"dtn:none/", {TCPCLKIT_EID_DTN, 0, 0, 0, 5}, "none/"},
    {"dtn:dtn:none", {TCPCLKIT_EID_DTN, 0, 0, 0, 8}, "dtn:none"},
    {"dtn://node/~a?b#c%20", {TCPCLKIT_EID_DTN, 0, 0, 0, 16}, "//node/~a?b#c%20"},
    {"dtn:!\\x20\\x7f~", {TCPCLKIT_EID_DTN, 0, 0, 0, 4}, "! \x7f~"},
    {"dtn:\\x5cx41", {TCPCLKIT_EID_DTN, 0, 0, 0, 4}, "\\x41"},
    {"dtn://gr\\xc3\\xb6\\xc3\\x9fe", {TCPCLKIT_EID_DTN, 0, 0, 0, 9}, "//gr\xc3\xb6\xc3\x9f" "e"},
    {"dtn:\\x0a\\x01\\xff", {TCPCLKIT_EID_DTN, 0, 0, 0, 3}, "\n\x01\xff"},
    {"ipn:0.0", {TCPCLKIT_EID_IPN, 0, 0, 0, 0}, ""},
    {"ipn:2.1", {TCPCLKIT_EID_IPN, 0, 2, 1, 0}, ""},
    {"ipn:10.200", {TCPCLKIT_EID_IPN, 0, 10, 200, 0}, ""},
    {"ipn:18446744073709551615.9", {TCPCLKIT_EID_IPN, 0, UINT64_MAX, 9, 0}, ""},
    {"ipn:0.0.0", {TCPCLKIT_EID_IPN3, 0, 0, 0, 0}, ""},
    {"ipn:977000.10.1", {TCPCLKIT_EID_IPN3, 977000, 10, 1, 0}, ""},
    {"ipn:18446744073709551615.18446744073709551615.18446744073709551615",
     {TCPCLKIT_EID_IPN3, UINT64_MAX, UINT64_MAX, UINT64_MAX, 0}, ""},
};

/* Reads a text into each room for the name, and writes what was read. */
static void texts_of_eids(void) {
  struct tcpclkit_eid eid;
  uint8_t name[20], text[80];
  uint64_t written;
  size_t row, room;
  for (row = 0; row < sizeof eid_rows / sizeof *eid_rows; row++) {
    const uint8_t *start = (const uint8_t *)eid_rows[row].text;
    const size_t length = strlen(eid_rows[row].text), size = strlen(eid_rows[row].name);
    for (room = 0; room <= size + 1; room++) {
      const size_t named = size <= room ? size : 0;
      memset(name, MARK, sizeof name);
      memset(&eid, MARK, sizeof eid);
      CHECK(tcpclkit_read_eid_text(start, length, &eid, name, room) ==
            (size <= room ? TCPCLKIT_OK : TCPCLKIT_TOO_SMALL));
      CHECK(memcmp(&eid, &eid_rows[row].eid, sizeof eid) == 0);
      CHECK(memcmp(name, eid_rows[row].name, named) == 0);
      CHECK(is_marked(name + named, sizeof name - named));
    }
    CHECK(tcpclkit_read_eid_text(start, length, &eid, NULL, 0) ==
          (size == 0 ? TCPCLKIT_OK : TCPCLKIT_TOO_SMALL));
    CHECK(tcpclkit_write_eid_text(&eid, name, size, text, sizeof text, &written) == TCPCLKIT_OK);
    CHECK(written == length && memcmp(text, start, length) == 0);
  }
}

/* Texts that tcpclkit_write_eid_text writes of no endpoint ID. */
static const char *const other_texts[] = {
    "", "d", "dtn", "ipn", "none", "ipn:", "ipn:1", "ipn:1.", "ipn:.1", "ipn:1..1", "ipn:1.2.",
    "ipn:1.2.3.", "ipn:1.2.3.4", "ipn:01.1", "ipn:1.01", "ipn:00.0", "ipn:1.2.00", "ipn:+1.1",
    "ipn:-1.1", "ipn: 1.1", "ipn:1.1 ", "ipn:1.1\n", "ipn:0x1.1", "ipn:1,1", "ipn:!",
    "ipn:18446744073709551616.1", "ipn:1.18446744073709551616",
    "ipn:1.2.99999999999999999999999999", "IPN:2.1", "Dtn:none", "dtn :none", " dtn:none",
    "http://a", "dtn://a b", "dtn://a\n", "dtn:\t", "dtn:\x7f", "dtn:gr\xc3\xb6", "dtn:\\",
    "dtn:\\\\", "dtn:\\x", "dtn:\\x0", "dtn:\\x0g", "dtn:\\xC3", "dtn:\\xcG", "dtn:\\x41",
    "dtn:\\x7e", "dtn:\\n", "dtn:a\\x5", "dtn:\\X0a",
};

static void other_texts_of_eids(void) {
  static const struct tcpclkit_eid none = {0, 0, 0, 0, 0};
  struct tcpclkit_eid eid;
  uint8_t name[60];
  size_t row, cut;
  memset(name, MARK, sizeof name);
  for (row = 0; row < sizeof other_texts / sizeof *other_texts; row++) {
    memset(&eid, MARK, sizeof eid);
    LEAVES(tcpclkit_read_eid_text((const uint8_t *)other_texts[row], strlen(other_texts[row]),
                                  &eid, name, sizeof name),
           TCPCLKIT_RANGE, name);
    CHECK(memcmp(&eid, &none, sizeof eid) == 0);
    /* also without room for a name */
    memset(&eid, MARK, sizeof eid);
    CHECK(tcpclkit_read_eid_text((const uint8_t *)other_texts[row], strlen(other_texts[row]), &eid,
                                 NULL, 0) == TCPCLKIT_RANGE);
    CHECK(memcmp(&eid, &none, sizeof eid) == 0);
  }
  CHECK(tcpclkit_read_eid_text((const uint8_t *)"dtn:\0", 5, &eid, name, 1) == TCPCLKIT_RANGE);
  for (cut = 0; cut < 3; cut++) /* before its first number, a prefix of `ipn:2.1` is no text */
    CHECK(tcpclkit_read_eid_text((const uint8_t *)"ipn:2.1", cut, &eid, name, 9) ==
          TCPCLKIT_RANGE);
}

/* Names of the greatest length, of bytes that are escaped and of others, and longer names. */
static void longest_names_of_eids(void) {
  uint8_t name[TCPCLKIT_EID_LIMIT + 2], text[4104];
  struct tcpclkit_eid eid = {TCPCLKIT_EID_DTN, 0, 0, 0, TCPCLKIT_EID_LIMIT}, found;
  uint64_t written;
  size_t at;
  int fill;
  for (fill = 0; fill < 256; fill++) {
    uint8_t same[TCPCLKIT_EID_LIMIT];
    memset(same, fill, sizeof same);
    CHECK(tcpclkit_write_eid_text(&eid, same, sizeof same, text, 4100, &written) == TCPCLKIT_OK);
    memset(name, MARK, sizeof name);
    CHECK(tcpclkit_read_eid_text(text, (size_t)written, &found, name, TCPCLKIT_EID_LIMIT) ==
          TCPCLKIT_OK);
    CHECK(memcmp(&found, &eid, sizeof eid) == 0 && memcmp(name, same, sizeof same) == 0);
    CHECK(is_marked(name + TCPCLKIT_EID_LIMIT, 2));
    memset(name, MARK, sizeof name);
    LEAVES(tcpclkit_read_eid_text(text, (size_t)written, &found, name, TCPCLKIT_EID_LIMIT - 1),
           TCPCLKIT_TOO_SMALL, name);
    CHECK(memcmp(&found, &eid, sizeof eid) == 0);
    /* one byte more */
    for (at = 0; at < 4; at++)
      text[(size_t)written + at] = text[4 + at];
    LEAVES(tcpclkit_read_eid_text(text, (size_t)written + (written == 4100 ? 4 : 1), &found, name,
                                  sizeof name),
           TCPCLKIT_RANGE, name);
    CHECK(found.kind == 0 && found.name_length == 0);
  }
}

/* Each byte, alone and after others, in a text and in an escape. */
static void bytes_of_names(void) {
  struct tcpclkit_eid eid;
  uint8_t text[16], name[4];
  uint64_t written;
  int byte;
  for (byte = 0; byte < 256; byte++) {
    const int is_plain = byte > 32 && byte < 127 && byte != '\\';
    const struct tcpclkit_eid named = {TCPCLKIT_EID_DTN, 0, 0, 0, 1};
    const uint8_t alone[] = {'d', 't', 'n', ':', (uint8_t)byte};
    const uint8_t start = (uint8_t)byte;
    CHECK(tcpclkit_read_eid_text(alone, 5, &eid, name, 4) ==
          (is_plain ? TCPCLKIT_OK : TCPCLKIT_RANGE));
    CHECK(!is_plain || (eid.name_length == 1 && name[0] == byte));
    CHECK(tcpclkit_write_eid_text(&named, &start, 1, text, sizeof text, &written) == TCPCLKIT_OK);
    CHECK(written == (is_plain ? 5 : 8));
    CHECK(tcpclkit_read_eid_text(text, (size_t)written, &eid, name, 1) == TCPCLKIT_OK);
    CHECK(memcmp(&eid, &named, sizeof eid) == 0 && name[0] == byte);
  }
}

/* What the stack is measured with. Its variables are static, so that they are not on it. */
void call_texts(void) {
  static struct tcpclkit_eid eid;
  static uint8_t text[4100], name[TCPCLKIT_EID_LIMIT];
  static uint64_t written;
  memset(text, 'n', sizeof text);
  memcpy(text, "dtn:", 4);
  tcpclkit_read_eid_text(text, 4 + TCPCLKIT_EID_LIMIT, &eid, name, sizeof name);
  memcpy(text, "ipn:9.8.7", 9);
  tcpclkit_read_eid_text(text, 9, &eid, name, sizeof name);
  tcpclkit_write_reason_text(TCPCLKIT_XFER_REFUSE, 1, text, sizeof text, &written);
  tcpclkit_write_report_reason_text(2, text, sizeof text, &written);
  tcpclkit_write_block_type_text(12, text, sizeof text, &written);
}

void test_texts(void) {
  names();
  numbers_of_the_header();
  longest_names();
  words_of_answers();
  texts_of_eids();
  other_texts_of_eids();
  longest_names_of_eids();
  bytes_of_names();
}
