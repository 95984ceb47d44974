/*
 * Calls the functions of the C library that write bundles. Whole bundles are those of
 * examples/bundles/bundles.txt, which another encoder wrote. Heads are examples of RFC 8949.
 */
#include "clib_writers.h"

/* The bytes that a text shows in hexadecimal digits. Returns their number. */
static size_t from_hex(const char *text, uint8_t *bytes) {
  static const char digits[] = "0123456789abcdef";
  size_t at;
  for (at = 0; text[2 * at] != 0; at++)
    bytes[at] = (uint8_t)((strchr(digits, text[2 * at]) - digits) * 16 +
                          (strchr(digits, text[2 * at + 1]) - digits));
  return at;
}

/* -- the data of blocks */

/* Numbers and their CBOR heads (RFC 8949 appendix A, and the limits of section 3). */
static const struct {
  uint64_t number;
  const char *head;
} heads[] = {
    {0, "00"},
    {23, "17"},
    {24, "1818"},
    {255, "18ff"},
    {256, "190100"},
    {1000, "1903e8"},
    {65535, "19ffff"},
    {65536, "1a00010000"},
    {1000000, "1a000f4240"},
    {4294967295, "1affffffff"},
    {4294967296, "1b0000000100000000"},
    {1000000000000, "1b000000e8d4a51000"},
    {UINT64_MAX, "1bffffffffffffffff"},
};
enum { HEADS = sizeof heads / sizeof *heads };

static void ages_and_hop_counts(void) {
  uint8_t wanted[TCPCLKIT_HOP_COUNT_ROOM];
  size_t row, other, first, length;
  for (row = 0; row < HEADS; row++) {
    length = from_hex(heads[row].head, wanted);
    CHECK(length <= TCPCLKIT_AGE_ROOM);
    WRITES(tcpclkit_write_age(heads[row].number, ROOM), wanted, length);
    for (other = 0; other < HEADS; other++) {
      wanted[0] = 0x82;
      first = 1 + from_hex(heads[row].head, wanted + 1);
      length = first + from_hex(heads[other].head, wanted + first);
      WRITES(tcpclkit_write_hop_count(heads[row].number, heads[other].number, ROOM), wanted,
             length);
    }
  }
}

/* Endpoint IDs (RFC 9171 section 4.2.5.1): the kind, the numbers, the name, and the bytes. */
static const struct {
  struct tcpclkit_eid eid;
  const char *name, *bytes;
} eid_rows[] = {
    {{TCPCLKIT_EID_DTN_NONE, 0, 0, 0, 0}, "", "820100"},
    {{TCPCLKIT_EID_DTN_NONE, 7, 8, 9, 3}, "", "820100"},
    {{TCPCLKIT_EID_DTN, 0, 0, 0, 0}, "", "820160"},
    {{TCPCLKIT_EID_DTN, 7, 8, 9, 3}, "//x", "8201632f2f78"},
    {{TCPCLKIT_EID_DTN, 0, 0, 0, 4}, "none", "8201646e6f6e65"},
    {{TCPCLKIT_EID_DTN, 0, 0, 0, 9}, "//gr\xc3\xb6\xc3\x9f" "e", "8201692f2f6772c3b6c39f65"},
    {{TCPCLKIT_EID_DTN, 0, 0, 0, 24}, "//a23456789012345678901/",
     "820178182f2f6132333435363738393031323334353637383930312f"},
    {{TCPCLKIT_EID_IPN, 0, 2, 1, 0}, "", "8202820201"},
    {{TCPCLKIT_EID_IPN, 7, 977000, 5, 6}, "", "8202821a000ee86805"},
    {{TCPCLKIT_EID_IPN, 0, 4294967296, 64, 0}, "", "8202821b00000001000000001840"},
    {{TCPCLKIT_EID_IPN3, 1, 2, 3, 0}, "", "820283010203"},
    {{TCPCLKIT_EID_IPN3, UINT64_MAX, UINT64_MAX, UINT64_MAX, 0}, "",
     "8202831bffffffffffffffff1bffffffffffffffff1bffffffffffffffff"},
};

static void eids(void) {
  static uint8_t name[TCPCLKIT_EID_LIMIT];
  uint8_t wanted[5 + TCPCLKIT_EID_LIMIT] = {0x82, 0x01, 0x79, 0x04, 0x00};
  struct tcpclkit_eid eid = {TCPCLKIT_EID_DTN, 0, 0, 0, TCPCLKIT_EID_LIMIT};
  size_t row, length;
  CHECK(sizeof wanted <= TCPCLKIT_EID_ROOM);
  memset(name, 'n', sizeof name);
  memset(wanted + 5, 'n', TCPCLKIT_EID_LIMIT);
  WRITES(tcpclkit_write_eid(&eid, name, sizeof name, ROOM), wanted, sizeof wanted);
  for (row = 0; row < sizeof eid_rows / sizeof *eid_rows; row++) {
    const char *text = eid_rows[row].name;
    length = from_hex(eid_rows[row].bytes, wanted);
    WRITES(tcpclkit_write_eid(&eid_rows[row].eid, (const uint8_t *)text, strlen(text), ROOM),
           wanted, length);
  }
}

/* -- check values */

/* The bytes `123456789` in pieces of each size. Their check values are in every list of CRCs. */
static void check_values(void) {
  static const uint64_t values[] = {0x906e, 0xe3069283};
  static const uint8_t *digits = (const uint8_t *)"123456789";
  struct tcpclkit_crc check, copy;
  uint64_t kind, value;
  size_t size, at;
  for (kind = TCPCLKIT_CHECK_CRC16; kind <= TCPCLKIT_CHECK_CRC32; kind++)
    for (size = 1; size <= 9; size++) {
      memset(&check, MARK, sizeof check);
      CHECK(tcpclkit_start_check(&check, kind) == TCPCLKIT_OK && check.kind == kind);
      CHECK(tcpclkit_end_check(&check, &value) == TCPCLKIT_OK && value == 0);
      for (at = 0; at < 9; at += size) {
        const size_t piece = 9 - at < size ? 9 - at : size;
        copy = check;
        CHECK(tcpclkit_feed_check(&check, NULL, 0) == TCPCLKIT_OK);
        CHECK(memcmp(&check, &copy, sizeof check) == 0);
        CHECK(tcpclkit_feed_check(&check, digits + at, piece) == TCPCLKIT_OK);
        CHECK(tcpclkit_feed_check(&copy, digits + at, 9 - at) == TCPCLKIT_OK);
        CHECK(tcpclkit_end_check(&copy, &value) == TCPCLKIT_OK && value == values[kind - 1]);
      }
      copy = check;
      value = MARK;
      CHECK(tcpclkit_end_check(&check, &value) == TCPCLKIT_OK && value == values[kind - 1]);
      CHECK(memcmp(&check, &copy, sizeof check) == 0);
    }
}

/* -- whole bundles */

#define NONE {TCPCLKIT_EID_DTN_NONE, 0, 0, 0, 0}
#define IPN(node, service) {TCPCLKIT_EID_IPN, 0, node, service, 0}
#define DTN(length) {TCPCLKIT_EID_DTN, 0, 0, 0, length}

static const struct {
  uint64_t flags, check;
  struct tcpclkit_eid to, from, reports;
  const char *to_name, *from_name, *reports_name;
  uint64_t time, sequence, lifetime, is_fragment, fragment_offset, fragment_total;
  struct {
    uint64_t block_type, number, check;
    const char *data; /* in hexadecimal digits */
  } blocks[3];
  const char *bytes;
} bundle_rows[] = {
    {0, 0, IPN(2, 1), IPN(1, 1), NONE, "", "", "", 0, 0, 0, 0, 0, 0,
     {{1, 1, 0, "68656c6c6f"}, {0, 0, 0, NULL}, {0, 0, 0, NULL}},
     "9f88070000820282020182028201018201008200000085010100004568656c6c6fff"},
    {4, 1, DTN(8), DTN(8), DTN(8), "//node/a", "//node/b", "//node/b", 700000000000, 7, 3600000,
     0, 0, 0,
     {{1, 1, 0, "61206c6f6e676572207061796c6f6164207468616e2068656c6c6f"},
      {0, 0, 0, NULL}, {0, 0, 0, NULL}},
     "9f890704018201682f2f6e6f64652f618201682f2f6e6f64652f628201682f2f6e6f64652f62821b000000a2fb"
     "405800071a0036ee8042a0b08501010000581b61206c6f6e676572207061796c6f6164207468616e2068656c6c6f"
     "ff"},
    {131076, 2, DTN(16), NONE, NONE, "//far/away/inbox", "", "", 700000000000, 0, 86400000, 0, 0,
     0, {{1, 1, 0, "78"}, {0, 0, 0, NULL}, {0, 0, 0, NULL}},
     "9f89071a00020004028201702f2f6661722f617761792f696e626f78820100820100821b000000a2fb405800001a"
     "05265c0044525ac09885010100004178ff"},
    {0, 0, IPN(977000, 5), IPN(4294967296, 64), IPN(1, 0), "", "", "", 1, 2, 3, 0, 0, 0,
     {{1, 1, 1, "636865636b206d65"}, {0, 0, 0, NULL}, {0, 0, 0, NULL}},
     "9f880700008202821a000ee868058202821b00000001000000001840820282010082010203860101000148636865"
     "636b206d6542c0b8ff"},
    {0, 2, IPN(2, 1), IPN(1, 1), NONE, "", "", "", 5, 6, 7, 0, 0, 0,
     {{7, 2, 2, "1903e8"}, {10, 3, 2, "82181e01"}, {1, 1, 2, "636865636b206d6520746f6f"}},
     "9f8907000282028202018202820101820100820506074452799e998607020002431903e844ad651f3a860a030002"
     "4482181e014458300c8486010100024c636865636b206d6520746f6f445fb40407ff"},
    {0, 1, IPN(2, 1), IPN(1, 1), NONE, "", "", "", 5, 6, 7, 0, 0, 0,
     {{7, 2, 1, "1903e8"}, {6, 3, 1, "8202820900"}, {1, 1, 1, "636865636b206d6520746f6f"}},
     "9f8907000182028202018202820101820100820506074261148607020001431903e842473f860603000145820282"
     "0900421bed86010100014c636865636b206d6520746f6f424f6dff"},
    {1, 0, IPN(2, 1), IPN(1, 1), NONE, "", "", "", 0, 9, 0, 1, 6, 18,
     {{1, 1, 0, "6d6964646c65"}, {0, 0, 0, NULL}, {0, 0, 0, NULL}},
     "9f8a070100820282020182028201018201008200090006128501010000466d6964646c65ff"},
    {1, 2, IPN(2, 1), DTN(3), NONE, "", "//x", "", 0, 9, 0, 1, 70000, 140000,
     {{1, 1, 0, "6d6964646c65"}, {0, 0, 0, NULL}, {0, 0, 0, NULL}},
     "9f8b07010282028202018201632f2f78820100820009001a000111701a000222e04469890dbe8501010000466d69"
     "64646c65ff"},
    {0, 0, IPN(2, 1), IPN(1, 1), NONE, "", "", "", 0, 0, 0, 0, 0, 0,
     {{1, 1, 0, ""}, {0, 0, 0, NULL}, {0, 0, 0, NULL}},
     "9f880700008202820201820282010182010082000000850101000040ff"},
    {0, 0, IPN(2, 1), IPN(1, 1), NONE, "", "", "", 0, 0, 0, 0, 0, 0,
     {{1, 1, 2, ""}, {0, 0, 0, NULL}, {0, 0, 0, NULL}},
     "9f8807000082028202018202820101820100820000008601010002404406e2604fff"},
    {0, 0, DTN(0), DTN(9), NONE, "", "//gr\xc3\xb6\xc3\x9f" "e", "", 0, 0, 0, 0, 0, 0,
     {{1, 1, 0, "6e"}, {0, 0, 0, NULL}, {0, 0, 0, NULL}},
     "9f880700008201608201692f2f6772c3b6c39f65820100820000008501010000416eff"},
};
enum { BUNDLES = sizeof bundle_rows / sizeof *bundle_rows };

/* The fields that tcpclkit_write_primary reads. The others have values that it does not read. */
static struct tcpclkit_bundle fields_of(size_t row) {
  struct tcpclkit_bundle it;
  memset(&it, MARK, sizeof it);
  it.flags = bundle_rows[row].flags;
  it.destination = bundle_rows[row].to;
  it.source = bundle_rows[row].from;
  it.report_to = bundle_rows[row].reports;
  it.time = bundle_rows[row].time;
  it.sequence = bundle_rows[row].sequence;
  it.lifetime = bundle_rows[row].lifetime;
  it.is_fragment = bundle_rows[row].is_fragment;
  it.fragment_offset = bundle_rows[row].fragment_offset;
  it.fragment_total = bundle_rows[row].fragment_total;
  return it;
}

static uint32_t write_primary_of(size_t row, const struct tcpclkit_bundle *it) {
  const char *to = bundle_rows[row].to_name, *from = bundle_rows[row].from_name;
  const char *reports = bundle_rows[row].reports_name;
  return tcpclkit_write_primary(it, bundle_rows[row].check, (const uint8_t *)to, strlen(to),
                                (const uint8_t *)from, strlen(from), (const uint8_t *)reports,
                                strlen(reports), ROOM);
}

/* Writes a block into each room, and compares its head and its check field with the bytes. The head
 * and the data are fed in pieces of this size. Returns the number of its bytes. */
static size_t is_block(const struct tcpclkit_block *block, const uint8_t *data, size_t size,
                       const uint8_t *bytes) {
  const size_t length = (size_t)block->data_length;
  struct tcpclkit_crc check;
  size_t head, at, field;
  /* the head of the array, four numbers, and the head of the data */
  head = 5 + (block->block_type > 23) + (length > 23 ? 2u : 1u) + (length > 255) +
         (length > 65535 ? 2u : 0u);
  WRITES(tcpclkit_write_block_head(block, ROOM), bytes, head);
  CHECK(head <= TCPCLKIT_BLOCK_HEAD_ROOM && memcmp(bytes + head, data, length) == 0);
  if (block->check == TCPCLKIT_CHECK_NONE)
    return head + length;
  CHECK(tcpclkit_start_check(&check, block->check) == TCPCLKIT_OK);
  for (at = 0; at < head + length; at += size)
    CHECK(tcpclkit_feed_check(&check, bytes + at,
                              head + length - at < size ? head + length - at : size) ==
          TCPCLKIT_OK);
  field = block->check == TCPCLKIT_CHECK_CRC16 ? 3 : 5;
  WRITES(tcpclkit_write_check(&check, ROOM), bytes + head + length, field);
  return head + length + field;
}

static void bundles(void) {
  uint8_t bytes[300], data[40];
  size_t row, size, at, which;
  for (row = 0; row < BUNDLES; row++) {
    const size_t length = from_hex(bundle_rows[row].bytes, bytes);
    struct tcpclkit_bundle it = fields_of(row);
    CHECK(bytes[0] == TCPCLKIT_BUNDLE_FIRST && bytes[length - 1] == TCPCLKIT_BUNDLE_LAST);
    for (size = 1; size < 20; size += 3) {
      struct tcpclkit_scan scan;
      struct tcpclkit_block found;
      uint64_t taken;
      tcpclkit_start_scan(&scan);
      tcpclkit_next_block(&scan, bytes, length, &taken, &found);
      CHECK(found.kind == TCPCLKIT_BLOCK_PRIMARY && taken == 1 + found.length);
      at = (size_t)taken;
      WRITES(write_primary_of(row, &it), bytes + 1, found.length);
      CHECK(found.length <= TCPCLKIT_PRIMARY_ROOM && found.check == bundle_rows[row].check);
      for (which = 0; which < 3 && bundle_rows[row].blocks[which].block_type != 0; which++) {
        struct tcpclkit_block block = {TCPCLKIT_BLOCK_CANONICAL,
                                       UINT64_MAX,
                                       UINT64_MAX,
                                       bundle_rows[row].blocks[which].block_type,
                                       bundle_rows[row].blocks[which].number,
                                       0,
                                       bundle_rows[row].blocks[which].check,
                                       UINT64_MAX,
                                       from_hex(bundle_rows[row].blocks[which].data, data),
                                       UINT64_MAX};
        at += is_block(&block, data, size, bytes + at);
      }
      CHECK(at == length - 1);
    }
  }
}

/* `ten extension blocks, checks in turn`: blocks of the types 192 to 201 with the numbers 2 to 11.
 * Their check types are 0, 1 and 2 in turn, and each has three bytes of data more than the one
 * before. */
static void ten_blocks(void) {
  static const char *text =
      "9f8807000082028202018202820101820100820000008518c0020000408618c103000143010101423bb88618c2"
      "0400024602020202020244752c06268518c3050000490303030303030303038618c40600014c04040404040404"
      "040404040442242886"
      "18c50700024f05050505050505050505050505050544b2f421298518c608000052060606060606060606060606"
      "0606060606068618c70900015507070707070707070707070707070707070707070742f6998618c80a00025818"
      "080808080808080808080808080808080808080808080808441f4769458518c90b0000581b0909090909090909"
      "09090909090909090909090909090909090909"
      "85010100004374656eff";
  uint8_t bytes[400], data[40];
  const size_t length = from_hex(text, bytes);
  size_t at = 22, which; /* after the primary block */
  for (which = 0; which < 10; which++) {
    struct tcpclkit_block block = {2, 0, 0, 192 + which, 2 + which, 0, which % 3, 0, 3 * which, 0};
    memset(data, (int)which, sizeof data);
    at += is_block(&block, data, 7, bytes + at);
  }
  CHECK(at == length - 10);
}

/* `a payload of 70,000 bytes`, whose check value is that of pieces. */
static void long_payload(void) {
  static const char *head = "86010100025a00011170", *field = "44aa58b41a";
  static uint8_t payload[70000];
  const struct tcpclkit_block block = {2, 0, 0, 1, 1, 0, 2, 0, sizeof payload, 0};
  struct tcpclkit_crc check;
  uint8_t wanted[10];
  size_t size, at;
  memset(payload, 0xa5, sizeof payload);
  from_hex(head, wanted);
  WRITES(tcpclkit_write_block_head(&block, ROOM), wanted, 10);
  for (size = 1; size < 100000; size *= 9) {
    CHECK(tcpclkit_start_check(&check, block.check) == TCPCLKIT_OK);
    from_hex(head, wanted);
    CHECK(tcpclkit_feed_check(&check, wanted, 10) == TCPCLKIT_OK);
    for (at = 0; at < sizeof payload; at += size)
      tcpclkit_feed_check(&check, payload + at,
                          sizeof payload - at < size ? sizeof payload - at : size);
    from_hex(field, wanted);
    WRITES(tcpclkit_write_check(&check, ROOM), wanted, 5);
  }
}

/* -- the greatest numbers, for which the rooms of the header are enough */

static const uint8_t most[] = {0x1b, 0xff, 0xff, 0xff, 0xff, 0xff, 0xff, 0xff, 0xff};

/* A fragment with three names of the greatest length. tcpclkit_end_check gives its check value, where
 * the bytes of the value are 0. */
static void longest_primary(void) {
  static const uint8_t front[] = {0x8b, 0x07}, name_head[] = {0x82, 0x01, 0x79, 0x04, 0x00};
  static uint8_t name[TCPCLKIT_EID_LIMIT], wanted[TCPCLKIT_PRIMARY_ROOM];
  const struct tcpclkit_eid eid = DTN(TCPCLKIT_EID_LIMIT);
  struct tcpclkit_bundle it;
  struct tcpclkit_crc check;
  uint64_t value = 0;
  uint8_t *at = wanted;
  size_t which;
  memset(name, 'n', sizeof name);
  memset(&it, 0xff, sizeof it);
  it.destination = it.source = it.report_to = eid;
  it.is_fragment = 1;
  memcpy(at, front, sizeof front);
  memcpy(at += sizeof front, most, sizeof most);
  at += sizeof most;
  *at++ = 0x02;
  for (which = 0; which < 3; which++, at += 5 + sizeof name) {
    memcpy(at, name_head, 5);
    memcpy(at + 5, name, sizeof name);
  }
  *at++ = 0x82;
  for (which = 0; which < 5; which++, at += sizeof most)
    memcpy(at, most, sizeof most);
  *at++ = 0x44;
  memset(at, 0, 4);
  at += 4;
  CHECK(tcpclkit_start_check(&check, TCPCLKIT_CHECK_CRC32) == TCPCLKIT_OK);
  CHECK(tcpclkit_feed_check(&check, wanted, (size_t)(at - wanted)) == TCPCLKIT_OK);
  CHECK(tcpclkit_end_check(&check, &value) == TCPCLKIT_OK);
  for (which = 0; which < 4; which++)
    at[(int)which - 4] = (uint8_t)(value >> (24 - 8 * which));
  WRITES(tcpclkit_write_primary(&it, 2, name, sizeof name, name, sizeof name, name, sizeof name,
                                ROOM),
         wanted, (size_t)(at - wanted));
}

static void longest_head_of_a_block(void) {
  const struct tcpclkit_block block = {2, 0, 0, UINT64_MAX, UINT64_MAX, UINT64_MAX,
                                       1, 0, UINT64_MAX, 0};
  uint8_t wanted[TCPCLKIT_BLOCK_HEAD_ROOM] = {0x86};
  size_t which;
  for (which = 0; which < 3; which++)
    memcpy(wanted + 1 + which * sizeof most, most, sizeof most);
  wanted[28] = 0x01;
  memcpy(wanted + 29, most, sizeof most);
  wanted[29] = 0x5b;
  WRITES(tcpclkit_write_block_head(&block, ROOM), wanted, 38);
}

/* What the stack of the writers is measured with. Its variables are static, so that they are not on
 * it. */
void call_bundle_writers(void) {
  static const struct tcpclkit_block block = {2, 0, 0, 7, 2, 0, 2, 0, 0, 0};
  static uint8_t name[TCPCLKIT_EID_LIMIT], bytes[TCPCLKIT_PRIMARY_ROOM];
  static struct tcpclkit_eid eid = DTN(TCPCLKIT_EID_LIMIT);
  static struct tcpclkit_bundle it;
  static struct tcpclkit_crc check;
  static struct tcpclkit_written written;
  static uint64_t value;
  it.destination = it.source = it.report_to = eid;
  tcpclkit_write_primary(&it, 2, name, sizeof name, name, sizeof name, name, sizeof name, bytes,
                         sizeof bytes, &written);
  tcpclkit_write_block_head(&block, bytes, sizeof bytes, &written);
  tcpclkit_start_check(&check, 2);
  tcpclkit_feed_check(&check, bytes, sizeof bytes);
  tcpclkit_end_check(&check, &value);
  tcpclkit_write_check(&check, bytes, sizeof bytes, &written);
  tcpclkit_write_eid(&eid, name, sizeof name, bytes, sizeof bytes, &written);
  tcpclkit_write_age(5, bytes, sizeof bytes, &written);
  tcpclkit_write_hop_count(30, 2, bytes, sizeof bytes, &written);
}

void test_bundle_writers(void) {
  ages_and_hop_counts();
  eids();
  check_values();
  bundles();
  ten_blocks();
  long_payload();
  longest_primary();
  longest_head_of_a_block();
}
