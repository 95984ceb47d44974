/*
 * Calls each function of include/tcpclkit.h as a program in C does: on worked bytes, and on what a
 * caller may get wrong. Prints each check that fails, and then `N passed, M failed`.
 */
#include "clib.h"

#include <stdio.h>

static unsigned passed, failed;

void count(int holds, const char *file, int line, const char *what) {
  if (holds) {
    passed++;
  } else {
    failed++;
    printf("%s: line %d: %s\n", file, line, what);
  }
}

static void verdicts(void) {
  struct tcpclkit_verdict verdict;
  CHECK(tcpclkit_abi() == TCPCLKIT_ABI);
  CHECK(tcpclkit_judge_bundle(bundle, BUNDLE_LENGTH, &verdict) == TCPCLKIT_OK);
  CHECK(verdict.fault.code == TCPCLKIT_NO_FAULT && verdict.has_payload == 1);
  CHECK(verdict.payload_offset == 28 && verdict.payload_seen == 5);
  CHECK(tcpclkit_judge_bundle(bundle, 30, &verdict) == TCPCLKIT_TRUNCATED);
  CHECK(verdict.fault.code == TCPCLKIT_BUNDLE_CUT && verdict.fault.offset == 30);
  CHECK(verdict.has_payload == 1 && verdict.payload_offset == 28 && verdict.payload_seen == 2);
  CHECK(tcpclkit_judge_bundle(bundle, sizeof bundle, &verdict) == TCPCLKIT_FAULT);
  CHECK(verdict.fault.code == TCPCLKIT_BUNDLE_TRAILING && verdict.fault.offset == 34);
  CHECK(verdict.payload_seen == 5);
  CHECK(tcpclkit_judge_bundle(bundle + 1, 8, &verdict) == TCPCLKIT_FAULT);
  CHECK(verdict.fault.code == TCPCLKIT_BUNDLE_NOT_A_BUNDLE && verdict.has_payload == 0);
  CHECK(tcpclkit_judge_bundle(bundle, 0, &verdict) == TCPCLKIT_TRUNCATED);
  CHECK(tcpclkit_judge_bundle(NULL, 0, &verdict) == TCPCLKIT_TRUNCATED);
  CHECK(tcpclkit_judge_bundle(NULL, 1, &verdict) == TCPCLKIT_NULL);
  CHECK(tcpclkit_judge_bundle(bundle, BUNDLE_LENGTH, NULL) == TCPCLKIT_NULL);
  CHECK(tcpclkit_judge_bundle(bundle, SIZE_MAX, &verdict) == TCPCLKIT_RANGE);
}

static void infos(void) {
  struct tcpclkit_bundle info;
  uint8_t to[TCPCLKIT_EID_LIMIT], from[TCPCLKIT_EID_LIMIT], reports[TCPCLKIT_EID_LIMIT];
  CHECK(describe(bundle, BUNDLE_LENGTH, &info) == TCPCLKIT_OK);
  CHECK(info.verdict.payload_offset == 28 && info.payload_length == 5 && info.blocks == 1);
  CHECK(info.destination.kind == TCPCLKIT_EID_IPN && info.destination.node == 2);
  CHECK(info.source.kind == TCPCLKIT_EID_IPN && info.source.node == 1 && info.source.service == 1);
  CHECK(info.report_to.kind == TCPCLKIT_EID_DTN_NONE);
  CHECK(info.flags == 0 && info.is_fragment == 0 && info.lifetime == 0);
  CHECK(tcpclkit_describe_bundle(reported, sizeof reported, to, sizeof to, from, sizeof from,
                                 reports, sizeof reports, &info) == TCPCLKIT_OK);
  CHECK(info.destination.kind == TCPCLKIT_EID_DTN && info.destination.name_length == 4);
  CHECK(begins(to, "//bc") && info.source.name_length == 3 && begins(from, "//a"));
  CHECK(info.report_to.kind == TCPCLKIT_EID_DTN && info.report_to.name_length == 5);
  CHECK(begins(reports, "//def"));
  CHECK(info.time == 5 && info.sequence == 6 && info.lifetime == 7 && info.payload_length == 0);
  CHECK(describe(fragment, sizeof fragment, &info) == TCPCLKIT_OK);
  CHECK(info.flags == 1 && info.source.kind == TCPCLKIT_EID_DTN_NONE && info.is_fragment == 1);
  CHECK(info.fragment_offset == 2 && info.fragment_total == 9 && info.payload_length == 3);
  to[2] = from[2] = reports[4] = 'x';
  CHECK(tcpclkit_describe_bundle(reported, sizeof reported, to, 2, from, 3, reports, 5, &info) ==
        TCPCLKIT_TOO_SMALL);
  CHECK(info.destination.name_length == 4 && begins(to, "//x") && begins(from, "//a"));
  CHECK(tcpclkit_describe_bundle(reported, sizeof reported, to, 4, from, 0, reports, 5, &info) ==
        TCPCLKIT_TOO_SMALL);
  CHECK(begins(reports, "//def"));
  reports[4] = 'x';
  CHECK(tcpclkit_describe_bundle(reported, sizeof reported, to, 4, from, 3, reports, 4, &info) ==
        TCPCLKIT_TOO_SMALL);
  CHECK(info.report_to.name_length == 5 && begins(reports, "//dex"));
  CHECK(tcpclkit_describe_bundle(named, 9, to, 4, from, 3, NULL, 0, &info) == TCPCLKIT_TRUNCATED);
  CHECK(info.verdict.fault.code == TCPCLKIT_BUNDLE_CUT && info.verdict.fault.offset == 9);
  CHECK(tcpclkit_describe_bundle(named, sizeof named, NULL, 4, from, 3, NULL, 0, &info) ==
        TCPCLKIT_NULL);
}

/* How far the fields of a bad bundle go: `whole` is whether its primary block is whole. */
static int goes(const struct tcpclkit_bundle *info, uint64_t fields, uint64_t whole) {
  return info->primary_fields == fields && info->primary_whole == whole && info->blocks == 0 &&
         info->payload_length == 0;
}

/* The fields of a bundle whose bytes end after this many. */
static struct tcpclkit_bundle cut(const uint8_t *bytes, size_t length) {
  struct tcpclkit_bundle info;
  uint8_t to[4], from[3], reports[5];
  CHECK(tcpclkit_describe_bundle(bytes, length, to, sizeof to, from, sizeof from, reports,
                                 sizeof reports, &info) == TCPCLKIT_TRUNCATED);
  return info;
}

/* A cut bundle has the fields of its primary block that are whole (RFC 9171 section 4.3.1). */
static void fields_of_cut_bundles(void) {
  static const uint64_t ends[] = {3, 4, 5, 12, 18, 26, 29, 30};
  struct tcpclkit_bundle info, none;
  size_t length, fields = 0;
  memset(&none, 0, sizeof none);
  for (length = 0; length < sizeof reported; length++) {
    while (fields < 8 && ends[fields] <= length)
      fields++;
    info = cut(reported, length);
    CHECK(goes(&info, fields, fields == 8));
    CHECK(info.destination.kind == (fields < 4 ? 0 : TCPCLKIT_EID_DTN));
    CHECK(info.destination.name_length == (fields < 4 ? 0 : 4));
    CHECK(info.source.name_length == (fields < 5 ? 0 : 3));
    CHECK(info.report_to.kind == (fields < 6 ? 0 : TCPCLKIT_EID_DTN));
    CHECK(info.report_to.name_length == (fields < 6 ? 0 : 5));
    CHECK(info.time == (fields < 7 ? 0 : 5) && info.sequence == (fields < 7 ? 0 : 6));
    CHECK(info.lifetime == (fields < 8 ? 0 : 7) && info.is_fragment == 0);
  }
  info = cut(bundle, 2);
  none.verdict = info.verdict;
  CHECK(memcmp(&info, &none, sizeof info) == 0);
  info = cut(fragment, 4);
  CHECK(goes(&info, 2, 0) && info.flags == 1 && info.is_fragment == 1);
  info = cut(fragment, 20);
  CHECK(goes(&info, 8, 0) && info.lifetime == 7 && info.fragment_offset == 0);
  info = cut(fragment, 21);
  CHECK(goes(&info, 9, 0) && info.fragment_offset == 2 && info.fragment_total == 0);
  info = cut(fragment, 22);
  CHECK(goes(&info, 10, 1) && info.fragment_offset == 2 && info.fragment_total == 9);
}

/* The fields before a fault are there, and those after it are 0. */
static void fields_of_bad_bundles(void) {
  uint8_t bad[sizeof checked], to[4], from[4];
  struct tcpclkit_bundle info;
  memcpy(bad, bundle, sizeof bundle);
  bad[2] = 6;
  CHECK(describe(bad, BUNDLE_LENGTH, &info) == TCPCLKIT_FAULT);
  CHECK(info.verdict.fault.code == TCPCLKIT_BUNDLE_BAD_VERSION && goes(&info, 0, 0));
  bad[2] = 7;
  bad[11] = 3; /* the scheme of the source */
  CHECK(describe(bad, BUNDLE_LENGTH, &info) == TCPCLKIT_FAULT);
  CHECK(info.verdict.fault.code == TCPCLKIT_BUNDLE_BAD_SCHEME && goes(&info, 4, 0));
  CHECK(info.destination.kind == TCPCLKIT_EID_IPN && info.destination.node == 2);
  CHECK(info.source.kind == 0 && info.source.node == 0);
  bad[11] = 2;
  bad[24] = 2; /* the number of the payload block */
  CHECK(describe(bad, BUNDLE_LENGTH, &info) == TCPCLKIT_FAULT);
  CHECK(info.verdict.fault.code == TCPCLKIT_BUNDLE_BAD_BLOCK_NUMBER && goes(&info, 8, 1));
  CHECK(info.source.kind == TCPCLKIT_EID_IPN && info.source.node == 1);
  CHECK(describe(bundle, sizeof bundle, &info) == TCPCLKIT_FAULT);
  CHECK(info.verdict.fault.code == TCPCLKIT_BUNDLE_TRAILING && goes(&info, 8, 1));
  /* a primary block with a check value, which is right and then wrong */
  CHECK(tcpclkit_describe_bundle(checked, sizeof checked, to, 4, from, 4, NULL, 0, &info) ==
        TCPCLKIT_OK);
  CHECK(info.primary_fields == 10 && info.primary_whole == 1 && info.payload_length == 6);
  memcpy(bad, checked, sizeof bad);
  bad[37] ^= 1;
  CHECK(tcpclkit_describe_bundle(bad, sizeof bad, to, 4, from, 2, NULL, 0, &info) ==
        TCPCLKIT_FAULT);
  CHECK(info.verdict.fault.code == TCPCLKIT_BUNDLE_CHECK_DIFFERS && goes(&info, 10, 0));
  CHECK(info.sequence == 9 && info.fragment_offset == 70000 && info.fragment_total == 140000);
  CHECK(info.source.name_length == 2 && begins(from, "//") && info.destination.node == 2);
  CHECK(info.report_to.kind == TCPCLKIT_EID_DTN_NONE);
}

/* Checks the verdict at the end of a transfer of each length. The scan has taken the first `at` of
 * these bytes. */
static void ends(const struct tcpclkit_scan *scan, const uint8_t *bytes, size_t length, size_t at,
                 uint32_t status) {
  struct tcpclkit_verdict verdict, whole;
  size_t all;
  for (all = 0; all <= length; all++) {
    memset(&verdict, MARK, sizeof verdict);
    if (all < at || (all > at && status == TCPCLKIT_GOING_ON)) {
      LEAVES(tcpclkit_end_scan(scan, all, &verdict), TCPCLKIT_RANGE, verdict);
    } else {
      CHECK(tcpclkit_end_scan(scan, all, &verdict) == tcpclkit_judge_bundle(bytes, all, &whole));
      CHECK(memcmp(&verdict, &whole, sizeof verdict) == 0);
    }
  }
  if (status == TCPCLKIT_OK) {
    CHECK(tcpclkit_end_scan(scan, UINT64_MAX, &verdict) == TCPCLKIT_FAULT);
    CHECK(verdict.fault.code == TCPCLKIT_BUNDLE_TRAILING && verdict.fault.offset == at);
  }
}

/* Feeds the bytes in pieces of this size, and checks what `verdict` and `info` then say of them. */
static void scanned(struct tcpclkit_scan *scan, const uint8_t *bytes, size_t length, size_t size) {
  struct tcpclkit_verdict verdict, whole;
  struct tcpclkit_bundle info, whole_info;
  uint8_t to[2][8] = {{0}}, from[2][8] = {{0}}, reports[2][8] = {{0}};
  uint64_t taken;
  size_t at = 0, piece;
  uint32_t status;
  memset(&info, 0, sizeof info);
  memset(&whole_info, 0, sizeof whole_info);
  CHECK(tcpclkit_start_scan(scan) == TCPCLKIT_OK);
  do {
    piece = length - at < size ? length - at : size;
    status = tcpclkit_feed_scan(scan, bytes + at, piece, &taken);
    at += (size_t)taken;
  } while (status == TCPCLKIT_TRUNCATED && taken > 0);
  CHECK(taken <= piece && (status != TCPCLKIT_TRUNCATED || at == length));
  CHECK(tcpclkit_judge_bundle(bytes, at, &whole) == status);
  CHECK(tcpclkit_judge_scan(scan, &verdict) == status);
  CHECK(memcmp(&verdict, &whole, sizeof verdict) == 0);
  CHECK(tcpclkit_describe_scan(scan, to[0], 4, from[0], 3, reports[0], 5, &info) == status);
  CHECK(tcpclkit_describe_bundle(bytes, at, to[1], 4, from[1], 3, reports[1], 5, &whole_info) ==
        status);
  CHECK(memcmp(&info, &whole_info, sizeof info) == 0);
  CHECK(memcmp(to[0], to[1], 8) == 0 && memcmp(from[0], from[1], 8) == 0);
  CHECK(memcmp(reports[0], reports[1], 8) == 0);
  ends(scan, bytes, length, at, status);
  /* After the end and after a fault a piece is refused, unless it is empty. */
  if (status != TCPCLKIT_GOING_ON) {
    taken = 7;
    CHECK(tcpclkit_feed_scan(scan, bytes, length, &taken) == TCPCLKIT_SCAN_ENDED && taken == 0);
    taken = 7;
    CHECK(tcpclkit_feed_scan(scan, bytes, 0, &taken) == status && taken == 0);
    CHECK(tcpclkit_judge_scan(scan, &verdict) == status);
    CHECK(memcmp(&verdict, &whole, sizeof verdict) == 0);
  }
}

static void scans(void) {
  struct tcpclkit_scan scan;
  struct tcpclkit_verdict verdict;
  struct tcpclkit_bundle info;
  uint8_t bad[BUNDLE_LENGTH], to[TCPCLKIT_EID_LIMIT], from[TCPCLKIT_EID_LIMIT], reports[5];
  uint64_t taken = 7;
  size_t size, at;
  CHECK(tcpclkit_raw_scan_size() <= sizeof scan && tcpclkit_raw_scan_size() > 2048);
  CHECK(tcpclkit_raw_scan_alignment() == 8);
  memset(&scan, 0xa5, sizeof scan);
  for (size = 1; size <= sizeof bundle; size++) {
    scanned(&scan, bundle, sizeof bundle, size);
    scanned(&scan, named, sizeof named, size);
    scanned(&scan, reported, sizeof reported, size);
    if (size <= sizeof named)
      scanned(&scan, named, size - 1, size);
    scanned(&scan, checked, sizeof checked - size, size);
    scanned(&scan, bundle, BUNDLE_LENGTH - 4, size);
    for (at = 0; at < BUNDLE_LENGTH; at++) {
      memcpy(bad, bundle, sizeof bad);
      bad[at] ^= 0x45;
      scanned(&scan, bad, sizeof bad, size);
    }
  }
  /* no byte at all */
  CHECK(tcpclkit_start_scan(&scan) == TCPCLKIT_OK);
  CHECK(tcpclkit_judge_scan(&scan, &verdict) == TCPCLKIT_TRUNCATED);
  CHECK(verdict.fault.code == TCPCLKIT_BUNDLE_CUT && verdict.fault.offset == 0);
  CHECK(tcpclkit_feed_scan(&scan, NULL, 0, &taken) == TCPCLKIT_TRUNCATED && taken == 0);
  /* a bundle and the next byte, which is not taken */
  CHECK(tcpclkit_feed_scan(&scan, bundle, 30, &taken) == TCPCLKIT_TRUNCATED && taken == 30);
  CHECK(tcpclkit_judge_scan(&scan, &verdict) == TCPCLKIT_TRUNCATED);
  CHECK(verdict.fault.code == TCPCLKIT_BUNDLE_CUT && verdict.fault.offset == 30);
  CHECK(verdict.has_payload == 1 && verdict.payload_offset == 28 && verdict.payload_seen == 2);
  CHECK(tcpclkit_feed_scan(&scan, bundle + 30, 5, &taken) == TCPCLKIT_OK && taken == 4);
  CHECK(tcpclkit_judge_scan(&scan, &verdict) == TCPCLKIT_OK);
  CHECK(verdict.fault.code == TCPCLKIT_NO_FAULT && verdict.payload_seen == 5);
  CHECK(tcpclkit_describe_scan(&scan, NULL, 0, NULL, 0, NULL, 0, &info) == TCPCLKIT_OK);
  CHECK(info.destination.node == 2 && info.source.node == 1 && info.payload_length == 5);
  /* a fault, and the names of the bundle that comes after it */
  CHECK(tcpclkit_start_scan(&scan) == TCPCLKIT_OK);
  CHECK(tcpclkit_feed_scan(&scan, bundle + 1, 8, &taken) == TCPCLKIT_FAULT && taken == 1);
  CHECK(tcpclkit_describe_scan(&scan, to, 1, from, 1, NULL, 0, &info) == TCPCLKIT_FAULT);
  CHECK(info.verdict.fault.code == TCPCLKIT_BUNDLE_NOT_A_BUNDLE);
  CHECK(tcpclkit_start_scan(&scan) == TCPCLKIT_OK);
  CHECK(tcpclkit_feed_scan(&scan, reported, sizeof reported, &taken) == TCPCLKIT_OK);
  CHECK(tcpclkit_describe_scan(&scan, to, 3, from, sizeof from, reports, 5, &info) ==
        TCPCLKIT_TOO_SMALL);
  CHECK(info.destination.name_length == 4 && begins(to, "//b") && begins(from, "//a"));
  CHECK(info.report_to.name_length == 5 && begins(reports, "//def"));
  /* what a caller may get wrong */
  CHECK(tcpclkit_start_scan(NULL) == TCPCLKIT_NULL);
  CHECK(tcpclkit_feed_scan(NULL, bundle, 1, &taken) == TCPCLKIT_NULL);
  CHECK(tcpclkit_feed_scan(&scan, NULL, 1, &taken) == TCPCLKIT_NULL);
  CHECK(tcpclkit_feed_scan(&scan, bundle, 1, NULL) == TCPCLKIT_NULL);
  CHECK(tcpclkit_feed_scan(&scan, bundle, SIZE_MAX, &taken) == TCPCLKIT_RANGE);
  CHECK(tcpclkit_end_scan(NULL, 1, &verdict) == TCPCLKIT_NULL);
  CHECK(tcpclkit_end_scan(&scan, 1, NULL) == TCPCLKIT_NULL);
  CHECK(tcpclkit_judge_scan(NULL, &verdict) == TCPCLKIT_NULL);
  CHECK(tcpclkit_judge_scan(&scan, NULL) == TCPCLKIT_NULL);
  CHECK(tcpclkit_describe_scan(NULL, NULL, 0, NULL, 0, NULL, 0, &info) == TCPCLKIT_NULL);
  CHECK(tcpclkit_describe_scan(&scan, NULL, 1, NULL, 0, NULL, 0, &info) == TCPCLKIT_NULL);
  CHECK(tcpclkit_describe_scan(&scan, NULL, 0, NULL, 0, NULL, 1, &info) == TCPCLKIT_NULL);
  CHECK(tcpclkit_describe_scan(&scan, to, SIZE_MAX, NULL, 0, NULL, 0, &info) == TCPCLKIT_RANGE);
  CHECK(tcpclkit_describe_scan(&scan, NULL, 0, NULL, 0, to, SIZE_MAX, &info) == TCPCLKIT_RANGE);
  CHECK(tcpclkit_describe_scan(&scan, NULL, 0, NULL, 0, NULL, 0, NULL) == TCPCLKIT_NULL);
}

/* The blocks of some bundles, in the order of the fields of struct tcpclkit_block. */
static const struct tcpclkit_block bundle_blocks[] = {{1, 1, 21, 0, 0, 0, 0, 0, 0, 0},
                                                      {2, 22, 11, 1, 1, 0, 0, 28, 5, 5}};
static const struct tcpclkit_block checked_blocks[] = {{1, 1, 37, 0, 0, 1, 2, 0, 0, 0},
                                                       {2, 38, 12, 1, 1, 0, 0, 44, 6, 6}};
static const struct tcpclkit_block several_blocks[] = {{1, 1, 21, 0, 0, 4, 0, 0, 0, 0},
                                                       {2, 22, 10, 7, 2, 16, 1, 28, 1, 1},
                                                       {2, 32, 9, 10, 3, 0, 0, 38, 3, 3},
                                                       {2, 41, 13, 1, 1, 1, 2, 47, 2, 2}};

/* The call refuses, and gives no block. */
#define CLEARS(call, status)                                                            \
  do {                                                                                  \
    memset(&block, MARK, sizeof block);                                                 \
    CHECK((call) == (status));                                                          \
    CHECK(block.kind == 0 && block.data_offset == 0 && block.data_seen == 0);           \
  } while (0)

/* Takes the bytes block by block, in pieces of this size, from a scan that was fed the first ones.
 * Checks that the blocks that end in the others are these, and returns the last status. */
static uint32_t next_blocks(struct tcpclkit_scan *scan, const uint8_t *bytes, size_t length,
                            size_t at, size_t size, const struct tcpclkit_block *blocks,
                            size_t rows) {
  static const struct tcpclkit_block none = {0, 0, 0, 0, 0, 0, 0, 0, 0, 0};
  struct tcpclkit_block block;
  struct tcpclkit_verdict verdict, whole;
  uint64_t taken;
  size_t found = 0, piece;
  uint32_t status;
  while (found < rows && blocks[found].offset + blocks[found].length <= at)
    found++;
  do {
    piece = length - at < size ? length - at : size;
    memset(&block, MARK, sizeof block);
    status = tcpclkit_next_block(scan, bytes + at, piece, &taken, &block);
    at += (size_t)taken;
    if (block.kind == 0) {
      CHECK(memcmp(&block, &none, sizeof block) == 0);
      CHECK(taken == piece || status != TCPCLKIT_TRUNCATED);
    } else {
      CHECK(found < rows && memcmp(&block, &blocks[found], sizeof block) == 0);
      CHECK(status == TCPCLKIT_TRUNCATED && block.offset + block.length == at);
      found++;
    }
  } while (status == TCPCLKIT_TRUNCATED && taken > 0);
  CHECK(found == rows && taken <= piece);
  CHECK(tcpclkit_judge_bundle(bytes, at, &whole) == status);
  CHECK(tcpclkit_judge_scan(scan, &verdict) == status);
  CHECK(memcmp(&verdict, &whole, sizeof verdict) == 0);
  /* After the end and after a fault nothing is taken, and no block is given again. */
  if (status != TCPCLKIT_TRUNCATED) {
    memset(&block, MARK, sizeof block);
    taken = 7;
    CHECK(tcpclkit_next_block(scan, bytes, length, &taken, &block) == TCPCLKIT_SCAN_ENDED);
    CHECK(taken == 0 && memcmp(&block, &none, sizeof block) == 0);
    CHECK(tcpclkit_next_block(scan, bytes, 0, &taken, &block) == status && block.kind == 0);
  }
  return status;
}

/* The same of a scan that was fed no more than these bytes. */
static uint32_t blocks_after(size_t fed, const uint8_t *bytes, size_t length, size_t size,
                             const struct tcpclkit_block *blocks, size_t rows) {
  struct tcpclkit_scan scan;
  uint64_t taken;
  CHECK(tcpclkit_start_scan(&scan) == TCPCLKIT_OK);
  CHECK(tcpclkit_feed_scan(&scan, bytes, fed, &taken) == TCPCLKIT_TRUNCATED && taken == fed);
  return next_blocks(&scan, bytes, length, fed, size, blocks, rows);
}

/* The head of a block is there as soon as it was taken, and until the block ends. */
static void blocks_that_go_on(const uint8_t *bytes, size_t length,
                              const struct tcpclkit_block *blocks, size_t rows) {
  static const struct tcpclkit_block none = {0, 0, 0, 0, 0, 0, 0, 0, 0, 0};
  struct tcpclkit_block block, wanted;
  struct tcpclkit_scan scan;
  uint64_t taken;
  size_t at, row;
  for (at = 0; at <= length; at++) {
    CHECK(tcpclkit_start_scan(&scan) == TCPCLKIT_OK);
    tcpclkit_feed_scan(&scan, bytes, at, &taken);
    wanted = none;
    for (row = 1; row < rows; row++)
      if (blocks[row].data_offset <= at && at < blocks[row].offset + blocks[row].length) {
        wanted = blocks[row];
        wanted.length = 0;
        if (at - wanted.data_offset < wanted.data_length)
          wanted.data_seen = at - wanted.data_offset;
      }
    memset(&block, MARK, sizeof block);
    CHECK(tcpclkit_judge_block(&scan, &block) == (wanted.kind ? TCPCLKIT_OK : TCPCLKIT_END));
    CHECK(memcmp(&block, &wanted, sizeof block) == 0);
  }
}

static void blocks_one_by_one(void) {
  struct tcpclkit_block block;
  struct tcpclkit_scan scan;
  struct tcpclkit_bundle info;
  uint8_t bad[sizeof several], from[4];
  uint64_t taken = 7;
  size_t size, at, whole;
  for (size = 1; size <= sizeof several + 1; size++) {
    CHECK(blocks_after(0, bundle, sizeof bundle, size, bundle_blocks, 2) == TCPCLKIT_OK);
    CHECK(blocks_after(0, checked, sizeof checked, size, checked_blocks, 2) == TCPCLKIT_OK);
    for (at = 0; at < sizeof several; at++) {
      /* the first bytes in one piece, the first bytes alone, and a byte after the block before */
      CHECK(blocks_after(at, several, sizeof several, size, several_blocks, 4) == TCPCLKIT_OK);
      for (whole = 0; whole < 4; whole++)
        if (several_blocks[whole].offset + several_blocks[whole].length > at)
          break;
      CHECK(blocks_after(0, several, at, size, several_blocks, whole) == TCPCLKIT_TRUNCATED);
    }
  }
  blocks_that_go_on(bundle, sizeof bundle, bundle_blocks, 2);
  blocks_that_go_on(checked, sizeof checked, checked_blocks, 2);
  blocks_that_go_on(several, sizeof several, several_blocks, 4);
  /* a check value that differs, in the block before the last one */
  memcpy(bad, several, sizeof bad);
  bad[30] ^= 1;
  CHECK(blocks_after(0, bad, sizeof bad, 9, several_blocks, 1) == TCPCLKIT_FAULT);
  memcpy(bad, several, sizeof bad);
  bad[54] = 0;
  CHECK(blocks_after(0, bad, sizeof bad, 9, several_blocks, 4) == TCPCLKIT_FAULT);
  /* The first bytes are kept for the fields of the primary block. */
  CHECK(tcpclkit_start_scan(&scan) == TCPCLKIT_OK);
  CHECK(tcpclkit_next_block(&scan, checked, 20, &taken, &block) == TCPCLKIT_TRUNCATED);
  CHECK(taken == 20 && block.kind == 0);
  CHECK(tcpclkit_next_block(&scan, checked + 20, 31, &taken, &block) == TCPCLKIT_TRUNCATED);
  CHECK(taken == 18 && block.kind == TCPCLKIT_BLOCK_PRIMARY);
  CHECK(block.check == TCPCLKIT_CHECK_CRC32);
  CHECK(tcpclkit_describe_scan(&scan, NULL, 0, from, 4, NULL, 0, &info) == TCPCLKIT_TRUNCATED);
  CHECK(info.primary_whole == 1 && info.primary_fields == 10 && begins(from, "//x"));
  CHECK(tcpclkit_next_block(&scan, NULL, 0, &taken, &block) == TCPCLKIT_TRUNCATED);
  CHECK(taken == 0 && block.kind == 0);
  /* what a caller may get wrong */
  CLEARS(tcpclkit_next_block(NULL, bundle, 1, &taken, &block), TCPCLKIT_NULL);
  CLEARS(tcpclkit_next_block(&scan, NULL, 1, &taken, &block), TCPCLKIT_NULL);
  CLEARS(tcpclkit_next_block(&scan, bundle, SIZE_MAX, &taken, &block), TCPCLKIT_RANGE);
  CLEARS(tcpclkit_judge_block(NULL, &block), TCPCLKIT_NULL);
  CLEARS(tcpclkit_next_block(&scan, bundle, 1, NULL, &block), TCPCLKIT_NULL);
  taken = 7;
  CHECK(tcpclkit_next_block(&scan, bundle, 1, &taken, NULL) == TCPCLKIT_NULL && taken == 0);
  CHECK(tcpclkit_judge_block(&scan, NULL) == TCPCLKIT_NULL);
}

static void texts(void) {
  struct tcpclkit_eid eid = {TCPCLKIT_EID_IPN3, 1, 2, 3, 0};
  uint8_t text[4100];
  uint64_t written = 99, code, known = 0;
  CHECK(tcpclkit_write_fault_text(113, 0, text, sizeof text, &written) == TCPCLKIT_OK);
  CHECK(written == 17 && begins(text, "B13 check differs"));
  CHECK(tcpclkit_write_fault_text(4, 0x64, text, sizeof text, &written) == TCPCLKIT_OK);
  CHECK(written == 23 && begins(text, "unknown message type 64"));
  CHECK(tcpclkit_write_fault_text(51, 0, text, 6, &written) == TCPCLKIT_TOO_SMALL);
  CHECK(written == 6 && begins(text, "second"));
  CHECK(tcpclkit_write_fault_text(51, 0, NULL, 0, &written) == TCPCLKIT_TOO_SMALL && written == 0);
  CHECK(tcpclkit_write_fault_text(3, 256, text, sizeof text, &written) == TCPCLKIT_RANGE);
  for (code = 0; code < 200; code++)
    known += tcpclkit_write_fault_text(code, 0, text, 64, &written) == TCPCLKIT_OK;
  CHECK(known == 8 + 5 + 4 + 17);
  CHECK(tcpclkit_write_fault_text(UINT64_MAX, 0, text, 64, &written) == TCPCLKIT_RANGE);
  CHECK(tcpclkit_write_eid_text(&eid, NULL, 0, text, sizeof text, &written) == TCPCLKIT_OK);
  CHECK(written == 9 && begins(text, "ipn:1.2.3"));
  eid.kind = TCPCLKIT_EID_DTN;
  eid.name_length = 4;
  CHECK(tcpclkit_write_eid_text(&eid, (const uint8_t *)"//\n\\", 4, text, sizeof text, &written) ==
        TCPCLKIT_OK);
  CHECK(written == 14 && begins(text, "dtn://\\x0a\\x5c"));
  CHECK(tcpclkit_write_eid_text(&eid, NULL, 4, text, sizeof text, &written) == TCPCLKIT_NULL);
  eid.kind = TCPCLKIT_EID_DTN_NONE;
  CHECK(tcpclkit_write_eid_text(&eid, NULL, 0, text, 4, &written) == TCPCLKIT_TOO_SMALL &&
        written == 4);
  eid.kind = 5;
  CHECK(tcpclkit_write_eid_text(&eid, NULL, 0, text, sizeof text, &written) == TCPCLKIT_RANGE);
}

/* Each code by its name in the header, a number that it has, and the words of docs/FORMATS.md. */
static const struct {
  uint64_t code, number;
  const char *text;
} codes[] = {
    {TCPCLKIT_WIRE_TRUNCATED, 0, "truncated"},
    {TCPCLKIT_WIRE_BAD_MAGIC, 0, "not a contact header"},
    {TCPCLKIT_WIRE_BAD_VERSION, 200, "unsupported version 200"},
    {TCPCLKIT_WIRE_UNKNOWN_TYPE, 200, "unknown message type c8"},
    {TCPCLKIT_WIRE_NODE_ID_TOO_LONG, 2000, "node id too long: 2000"},
    {TCPCLKIT_WIRE_LIST_TOO_LONG, 70000, "extension list too long: 70000"},
    {TCPCLKIT_WIRE_TOO_MANY_ITEMS, 0, "too many extension items"},
    {TCPCLKIT_WIRE_ITEMS_OVERRUN, 0, "extension items overrun their list"},
    {TCPCLKIT_ORDER_SECOND_SESS_INIT, 0, "second session initiation"},
    {TCPCLKIT_ORDER_SEGMENT_BEFORE_SESS_INIT, 0, "segment before session initiation"},
    {TCPCLKIT_ORDER_NO_SUCH_OPEN_TRANSFER, 0, "no such open transfer"},
    {TCPCLKIT_ORDER_START_REPEATS_OPEN_ID, 0, "start repeats the open transfer"},
    {TCPCLKIT_ORDER_START_AFTER_SESS_TERM, 0, "start after session termination"},
    {TCPCLKIT_BUNDLE_CUT, 0, "B1 input ends inside a bundle"},
    {TCPCLKIT_BUNDLE_TRAILING, 0, "B2 bytes after the bundle"},
    {TCPCLKIT_BUNDLE_NOT_A_BUNDLE, 0, "B3 not a bundle"},
    {TCPCLKIT_BUNDLE_BAD_HEAD, 0, "B4 ill-formed head"},
    {TCPCLKIT_BUNDLE_WRONG_KIND, 0, "B5 wrong kind of item"},
    {TCPCLKIT_BUNDLE_BAD_COUNT, 0, "B6 wrong number of elements"},
    {TCPCLKIT_BUNDLE_BAD_VERSION, 0, "B7 unsupported bundle version"},
    {TCPCLKIT_BUNDLE_BAD_CHECK_TYPE, 0, "B8 unknown check type"},
    {TCPCLKIT_BUNDLE_BAD_SCHEME, 0, "B9 unknown endpoint scheme"},
    {TCPCLKIT_BUNDLE_BAD_SPECIFIC_PART, 0, "B10 wrong scheme-specific part"},
    {TCPCLKIT_BUNDLE_EID_TOO_LONG, 0, "B11 endpoint id too long"},
    {TCPCLKIT_BUNDLE_BAD_CHECK_LENGTH, 0, "B12 wrong check length"},
    {TCPCLKIT_BUNDLE_CHECK_DIFFERS, 0, "B13 check differs"},
    {TCPCLKIT_BUNDLE_BAD_BLOCK_NUMBER, 0, "B14 wrong block number"},
    {TCPCLKIT_BUNDLE_REPEATED_BLOCK_NUMBER, 0, "B15 repeated block number"},
    {TCPCLKIT_BUNDLE_TOO_MANY_BLOCKS, 0, "B16 too many blocks"},
    {TCPCLKIT_BUNDLE_NO_PAYLOAD_LAST, 0, "B17 no payload block at the end"},
};

static void names_of_codes(void) {
  uint8_t text[64];
  uint64_t written;
  size_t at;
  for (at = 0; at < sizeof codes / sizeof *codes; at++) {
    CHECK(tcpclkit_write_fault_text(codes[at].code, codes[at].number, text, sizeof text,
                                    &written) == TCPCLKIT_OK);
    CHECK(written == strlen(codes[at].text) && begins(text, codes[at].text));
  }
}

/* The room that is enough for every text, by the comments of the header. */
static void longest_texts(void) {
  static const uint64_t greatest[] = {0, 255, 65535, 4294967295, UINT64_MAX};
  struct tcpclkit_eid eid = {TCPCLKIT_EID_IPN3, UINT64_MAX, UINT64_MAX, UINT64_MAX, 0};
  uint8_t name[TCPCLKIT_EID_LIMIT], text[4101];
  uint64_t code, written;
  size_t at;
  for (code = 0; code < 200; code++)
    for (at = 0; at < sizeof greatest / sizeof *greatest; at++)
      CHECK(tcpclkit_write_fault_text(code, greatest[at], text, 64, &written) !=
            TCPCLKIT_TOO_SMALL);
  CHECK(tcpclkit_write_eid_text(&eid, NULL, 0, text, 4100, &written) == TCPCLKIT_OK &&
        written == 66);
  eid.kind = TCPCLKIT_EID_DTN;
  eid.name_length = sizeof name;
  memset(name, 0, sizeof name);
  CHECK(tcpclkit_write_eid_text(&eid, name, sizeof name, text, 4100, &written) == TCPCLKIT_OK &&
        written == 4100);
  CHECK(begins(text, "dtn:\\x00") && begins(text + 4096, "\\x00"));
  CHECK(tcpclkit_write_eid_text(&eid, name, sizeof name, text, 4099, &written) ==
        TCPCLKIT_TOO_SMALL);
}

/* Data of each type of blocks that is read, of one that is not, and malformed data. The data begins
 * at the offset 28. */
static const struct {
  uint64_t block_type, bundle_flags, length;
  uint8_t data[40];
  const char *words;
} data_rows[] = {
    {6, 0, 5, {0x82, 2, 0x82, 2, 1}, "node=ipn:2.1"},
    {6, 0, 8, {0x82, 1, 0x65, '/', '/', 'a', 'b', '/'}, "node=dtn://ab/"},
    {6, 0, 3, {0x82, 1, 0}, "node=dtn:none"},
    {7, 0, 2, {0x18, 100}, "age=100"},
    {7, 0, 9, {0x1b, 255, 255, 255, 255, 255, 255, 255, 255}, "age=18446744073709551615"},
    {10, 0, 4, {0x82, 0x18, 30, 2}, "limit=30 count=2"},
    {11, 0, 9, {0x81, 1, 1, 0, 0x82, 2, 0x82, 3, 0},
     "targets=1 context=1 context-flags=00 source=ipn:3.0"},
    {12, 0, 12, {0x83, 1, 2, 3, 0x20, 1, 0x82, 1, 0x63, '/', '/', 'x'},
     "targets=3 context=-1 context-flags=01 source=dtn://x"},
    {11, 0, 10, {0x80, 1, 0, 0x82, 2, 0x82, 3, 0, 0xff, 0xff},
     "targets=0 context=1 context-flags=00 source=ipn:3.0"},
    {1, 2, 19, {0x82, 1, 0x84, 0x84, 0x81, 0xf5, 0x81, 0xf4, 0x82, 0xf5, 9, 0x81, 0xf4, 1, 0x82, 1,
                0, 0x82, 5},
     "malformed-at=47"},
    {1, 2, 20, {0x82, 1, 0x84, 0x84, 0x81, 0xf5, 0x81, 0xf4, 0x82, 0xf5, 9, 0x81, 0xf4, 1, 0x82, 1,
                0, 0x82, 5, 6},
     "record=1/status-report received=yes forwarded=no delivered=9 deleted=no "
     "reason=1/lifetime-expired of-source=dtn:none of-time=5 of-sequence=6"},
    {1, 2, 25, {0x82, 1, 0x86, 0x84, 0x81, 0xf5, 0x81, 0xf4, 0x81, 0xf4, 0x81, 0xf4, 0, 0x82, 2,
                0x82, 1, 1, 0x82, 5, 6, 7, 8},
     "malformed-at=51"},
    {1, 2, 23, {0x82, 1, 0x86, 0x84, 0x81, 0xf5, 0x81, 0xf4, 0x81, 0xf4, 0x81, 0xf4, 0, 0x82, 2,
                0x82, 1, 1, 0x82, 5, 6, 7, 8},
     "record=1/status-report received=yes forwarded=no delivered=no deleted=no "
     "reason=0/no-additional-information of-source=ipn:1.1 of-time=5 of-sequence=6 "
     "of-fragment=7+8"},
    {1, 6, 2, {0x82, 2}, "record=2/?"},
    {1, 0, 2, {0x82, 2}, ""},
    {1, 3, 2, {0x82, 2}, ""},
    {5, 2, 2, {0x82, 2}, ""},
    {192, 0, 2, {0x82, 2}, ""},
    {UINT64_MAX, UINT64_MAX, 0, {0}, ""},
    {6, 0, 0, {0}, "malformed-at=28"},
    {7, 0, 2, {5, 5}, "malformed-at=29"},
    {10, 0, 2, {0x83, 1}, "malformed-at=28"},
    {11, 0, 1, {0x81}, "malformed-at=29"},
    {12, 0, 1, {5}, "malformed-at=28"},
};

/* Every room for the words of each row. */
static void words_of_data(void) {
  uint8_t text[200];
  uint64_t written;
  size_t row, room;
  for (row = 0; row < sizeof data_rows / sizeof *data_rows; row++) {
    const size_t length = (size_t)data_rows[row].length, size = strlen(data_rows[row].words);
    const struct tcpclkit_block primary = {
        TCPCLKIT_BLOCK_PRIMARY, 1, 21, 0, 0, data_rows[row].bundle_flags, 0, 0, 0, 0};
    const struct tcpclkit_block block = {TCPCLKIT_BLOCK_CANONICAL,
                                         22,
                                         6 + length,
                                         data_rows[row].block_type,
                                         1,
                                         0,
                                         0,
                                         28,
                                         length,
                                         length};
    for (room = 0; room <= size + 1; room++) {
      const size_t fits = size < room ? size : room;
      memset(text, MARK, sizeof text);
      CHECK(tcpclkit_read_block_data(&primary, &block, data_rows[row].data, length, text, room,
                                     &written) ==
            (size <= room ? TCPCLKIT_OK : TCPCLKIT_TOO_SMALL));
      CHECK(written == fits && memcmp(text, data_rows[row].words, fits) == 0);
      CHECK(is_marked(text + fits, sizeof text - fits));
    }
    CHECK(tcpclkit_read_block_data(&primary, &block, data_rows[row].data, length, NULL, 0,
                                   &written) == (size == 0 ? TCPCLKIT_OK : TCPCLKIT_TOO_SMALL));
    CHECK(written == 0);
  }
}

/* The longest words: a status report with the longest numbers, name and reason. */
static void longest_words(void) {
  static const uint8_t start[] = {0x82, 1, 0x86, 0x84}, source[] = {2, 0x82, 1, 0x79, 4, 0};
  static const uint8_t number[] = {0x1b, 255, 255, 255, 255, 255, 255, 255, 255};
  uint8_t data[4 + 4 * 11 + 6 + TCPCLKIT_EID_LIMIT + 1 + 4 * 9], text[4501];
  const struct tcpclkit_block primary = {1, 1, 21, 0, 0, 2, 0, 0, 0, 0};
  const struct tcpclkit_block block = {2, 22, 9 + sizeof data, 1, 1, 0, 0, 30, sizeof data,
                                       sizeof data};
  uint8_t *at = data;
  uint64_t written;
  size_t row;
  memcpy(at, start, sizeof start);
  at += sizeof start;
  for (row = 0; row < 4; row++, at += 11) {
    at[0] = 0x82;
    at[1] = 0xf5;
    memcpy(at + 2, number, 9);
  }
  memcpy(at, source, sizeof source);
  at += sizeof source;
  memset(at, 0, TCPCLKIT_EID_LIMIT);
  at += TCPCLKIT_EID_LIMIT;
  *at++ = 0x82;
  for (row = 0; row < 4; row++, at += 9)
    memcpy(at, number, 9);
  CHECK(at == data + sizeof data);
  memset(text, MARK, sizeof text);
  CHECK(tcpclkit_read_block_data(&primary, &block, data, sizeof data, text, 4500, &written) ==
        TCPCLKIT_OK);
  CHECK(written == 4414 && is_marked(text + 4414, sizeof text - 4414));
  CHECK(begins(text, "record=1/status-report received=18446744073709551615 forwarded=18446744"));
  CHECK(begins(text + 4393, "+18446744073709551615"));
  CHECK(tcpclkit_read_block_data(&primary, &block, data, sizeof data, text, 4413, &written) ==
            TCPCLKIT_TOO_SMALL &&
        written == 4413);
}

/* What the data of each block says. */
static void block_data(void) {
  static const char *const words[] = {"", "age=5", "limit=4 count=1", ""};
  static const uint8_t bad[] = {0x82, 0x04, 0x81};
  struct tcpclkit_block other = several_blocks[2];
  uint8_t text[4500];
  uint64_t written;
  size_t row, room;
  for (row = 1; row < 4; row++) {
    const struct tcpclkit_block *block = &several_blocks[row];
    for (room = 0; room < 20; room++) {
      size_t size = strlen(words[row]), fits = size < room ? size : room;
      memset(text, MARK, sizeof text);
      CHECK(tcpclkit_read_block_data(several_blocks, block, several + block->data_offset,
                                     block->data_length, text, room, &written) ==
            (size <= room ? TCPCLKIT_OK : TCPCLKIT_TOO_SMALL));
      CHECK(written == fits && memcmp(text, words[row], fits) == 0);
      CHECK(is_marked(text + fits, sizeof text - fits));
    }
  }
  CHECK(tcpclkit_read_block_data(several_blocks, &other, bad, 3, text, sizeof text, &written) ==
        TCPCLKIT_OK);
  CHECK(written == 15 && begins(text, "malformed-at=40"));
  /* what a caller may get wrong */
  memset(text, MARK, sizeof text);
  written = 7;
  LEAVES(tcpclkit_read_block_data(&other, several_blocks, bad, 3, text, 9, &written),
         TCPCLKIT_RANGE, text);
  LEAVES(tcpclkit_read_block_data(&other, &other, bad, 3, text, 9, &written), TCPCLKIT_RANGE,
         text);
  LEAVES(tcpclkit_read_block_data(several_blocks, several_blocks, bad, 0, text, 9, &written),
         TCPCLKIT_RANGE, text);
  LEAVES(tcpclkit_read_block_data(several_blocks, &other, bad, 2, text, 9, &written),
         TCPCLKIT_RANGE, text);
  LEAVES(tcpclkit_read_block_data(several_blocks, NULL, bad, 3, text, 9, &written), TCPCLKIT_NULL,
         text);
  LEAVES(tcpclkit_read_block_data(NULL, &other, bad, 3, text, 9, &written), TCPCLKIT_NULL, text);
  LEAVES(tcpclkit_read_block_data(several_blocks, &other, text, 3, text, 9, &written),
         TCPCLKIT_RANGE, text);
  LEAVES(tcpclkit_read_block_data(several_blocks, &other, bad, 3, text, 9, &other.data_length),
         TCPCLKIT_RANGE, text);
  other.data_offset = UINT64_MAX;
  LEAVES(tcpclkit_read_block_data(several_blocks, &other, bad, 3, text, 9, &written),
         TCPCLKIT_RANGE, text);
  CHECK(written == 7);
}

/* The bytes of a slice after what was written stay as they were. */
static void rests(void) {
  const struct tcpclkit_eid eid = {TCPCLKIT_EID_IPN, 0, 2, 1, 0};
  uint8_t text[100];
  uint64_t written;
  memset(text, MARK, sizeof text);
  CHECK(tcpclkit_write_fault_text(113, 0, text, sizeof text, &written) == TCPCLKIT_OK);
  CHECK(written == 17 && is_marked(text + 17, sizeof text - 17));
  memset(text, MARK, sizeof text);
  CHECK(tcpclkit_write_eid_text(&eid, NULL, 0, text, sizeof text, &written) == TCPCLKIT_OK);
  CHECK(written == 7 && is_marked(text + 7, sizeof text - 7));
}

/* Checks the slices for the names: each has its text, and the bytes after it as they were. */
static void names_have(const uint8_t *bytes, size_t length, uint32_t status, const char *to_text,
                       const char *from_text, const char *reports_text) {
  const char *texts[] = {to_text, from_text, reports_text};
  struct tcpclkit_bundle info;
  uint8_t names[3][100];
  size_t at, size;
  memset(names, MARK, sizeof names);
  CHECK(tcpclkit_describe_bundle(bytes, length, names[0], 100, names[1], 100, names[2], 100,
                                 &info) == status);
  for (at = 0; at < 3; at++) {
    size = strlen(texts[at]);
    CHECK(begins(names[at], texts[at]) && is_marked(names[at] + size, 100 - size));
  }
}

static void rests_of_names(void) {
  names_have(reported, 11, TCPCLKIT_TRUNCATED, "", "", "");
  names_have(reported, 12, TCPCLKIT_TRUNCATED, "//bc", "", "");
  names_have(reported, 20, TCPCLKIT_TRUNCATED, "//bc", "//a", "");
  names_have(reported, 26, TCPCLKIT_TRUNCATED, "//bc", "//a", "//def");
  names_have(reported, sizeof reported, TCPCLKIT_OK, "//bc", "//a", "//def");
  names_have(named, sizeof named, TCPCLKIT_OK, "//bc", "//a", "");
  names_have(bundle, BUNDLE_LENGTH, TCPCLKIT_OK, "", "", "");
}

/* With an argument, stacks are not measured: valgrind refuses to read one after its thread. */
int main(int argc, char **argv) {
  (void)argv;
  verdicts();
  infos();
  fields_of_cut_bundles();
  fields_of_bad_bundles();
  scans();
  blocks_one_by_one();
  test_recordings();
  texts();
  names_of_codes();
  longest_texts();
  block_data();
  words_of_data();
  longest_words();
  rests();
  rests_of_names();
  test_texts();
  test_message_writers();
  test_bundle_writers();
  test_tools(argc == 1);
  test_more();
  test_mistakes();
  test_writer_mistakes();
  test_overlaps();
  test_shown();
  printf("%u passed, %u failed\n", passed, failed);
  return failed > 0;
}
