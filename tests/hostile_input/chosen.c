/* Writes names or numbers, one per line, that collide in a table of the kit's crate `indexmap` if it is known beforehand how
   they are hashed: `chosen fold|sip names|numbers COUNT`.
     fold  by FoldHasher, whose seed is fixed: for a name its length, and then each byte
     sip   by SipHash-1-3 with both keys 0, as in HashKeys::fixed() of redo_name
   Names have 102 bytes, and numbers nine digits. The 131,072 names of `fold` all have the same hash. All
   others are found by trial: a table of COUNT entries begins to search for them in one group, or in a few adjacent groups. */
#include <stdint.h>
#include <stdio.h>
#include <stdlib.h>
#include <string.h>

/* BY_SIP is the number of candidates that `sip` tries, which takes two seconds. */
enum { PAIRS = 17, LENGTH = 102, BY_SIP = 200000000 };

static const uint64_t seed = 0x243f6a8885a308d3;

/* One write to a FoldHasher, of `bytes` bytes, which are read as this number. */
static uint64_t fold(uint64_t state, uint64_t number, uint64_t bytes) {
  unsigned __int128 product = (unsigned __int128)(state ^ number) * (0x9e3779b97f4a7c15 ^ (2 * bytes));
  return (uint64_t)product ^ (uint64_t)(product >> 64);
}

static uint64_t fold_text(uint64_t state, const char *text) {
  for (; *text; text++) state = fold(state, (uint64_t)*text * 0x10101, 1);
  return state;
}

/* A name has one text of each pair. Both texts of a pair lead to the same state, and so do all names. Finding a pair, given the
   pairs before it, takes a minute: among the 2^30 states after texts of five letters, two differ by what a sixth letter can
   compensate. */
static const char *const pairs[PAIRS][2] = {
  {"OcaKKD", "DGWhtz"}, {"vNjbiA", "eUprvV"}, {"tKV6hA", "haCWaR"}, {"jidQ0A", "2XZKgw"}, {"n1QP40", "UEYlsW"},
  {"qSiap0", "NibKW8"}, {"Smj1u0", "CGZp2U"}, {"sB7LL0", "C5uFOu"}, {"_M2=r0", "qu0HKa"}, {"aZHps1", "T8LkU."},
  {"it_aH0", "EUWa8@"}, {"osR_L0", "gD5sd3"}, {"f59.WA", "M21:0P"}, {"icKZz0", "gVzW_0"}, {"W4nSx0", "HP.mKc"},
  {"nUM6,9", "2p,g@+"}, {"yZL6EA", "r-jeXy"},
};

static int fold_names(long count) {
  uint64_t state = fold(seed, LENGTH, 8);
  for (int i = 0; i < PAIRS; i++) {
    uint64_t other = fold_text(state, pairs[i][1]);
    if ((state = fold_text(state, pairs[i][0])) != other) return 1;
  }
  for (long name = 0; name < count; name++) {
    for (int i = 0; i < PAIRS; i++) fputs(pairs[i][name >> i & 1], stdout);
    putchar('\n');
  }
  return count > 1L << PAIRS;
}

struct sip { uint64_t a, b, c, d; };
static const struct sip begun = {0x736f6d6570736575, 0x646f72616e646f6d, 0x6c7967656e657261, 0x7465646279746573};

static uint64_t turned(uint64_t word, int bits) { return word << bits | word >> (64 - bits); }

static struct sip sip(struct sip s, uint64_t word) {
  s.d ^= word;
  s.a += s.b, s.c += s.d, s.b = turned(s.b, 13) ^ s.a, s.d = turned(s.d, 16) ^ s.c, s.a = turned(s.a, 32);
  s.c += s.b, s.a += s.d, s.b = turned(s.b, 17) ^ s.c, s.d = turned(s.d, 21) ^ s.a, s.c = turned(s.c, 32);
  s.a ^= word;
  return s;
}

/* Ends the hash of `bytes` bytes. `rest` has the bytes after the last whole word. */
static uint64_t sip_end(struct sip s, uint64_t rest, uint64_t bytes) {
  s = sip(s, rest | bytes << 56);
  s.c ^= 0xff;
  s = sip(sip(sip(s, 0), 0), 0);
  return s.a ^ s.b ^ s.c ^ s.d;
}

/* The number of groups of a table is a power of two, with at most nine entries in each. A table searches for an entry from the
   group that the lowest bits of its hash select, among the entries with the same tag, the highest bits. Chosen are the candidates
   in the first group with a low tag, or in the first few groups. The bound, `most`, is such that 5 percent more of all candidates
   are chosen than requested. */
static uint64_t groups = 1, most;
static void choose(long count, double tried) {
  while (9 * groups < (uint64_t)count) groups *= 2;
  most = (uint64_t)(1.05 * (double)count / tried * 256 * (double)groups);
}

static int is_chosen(uint64_t hash) {
  uint64_t folded = (hash ^ hash >> 32) & 0xffffffff;
  return (folded & (groups - 1)) * 256 + (folded >> 24) <= most;
}

static int tried_numbers(int by_sip, long count) {
  uint32_t first = 100000000, tried = by_sip ? BY_SIP : 900000000;
  choose(count, tried);
  for (uint32_t n = first; n < first + tried && count > 0; n++) {
    if (!is_chosen(by_sip ? sip_end(begun, n, 4) : fold(seed, n * 0x100000001, 4))) continue;
    printf("%u\n", n);
    count--;
  }
  return count > 0;
}

/* The first 96 bytes of each name. As a line of a log, a name is a diagnostic without a file, and what is hashed of its key is the
   line itself. */
static const char prefix[LENGTH - 5] =
  "error: together together together together together together together together together as one, ";

/* Tries the last six letters of names. The first of them is in the lowest byte. */
static int tried_names(long count) {
  uint64_t letters = 0x616161616161;
  struct sip state = begun;
  for (int at = 0; at < LENGTH / 8; at++) {
    uint64_t word;
    memcpy(&word, prefix + 8 * at, sizeof word);
    state = sip(state, word);
  }
  choose(count, BY_SIP);
  for (long left = BY_SIP; left > 0 && count > 0; left--) {
    if (is_chosen(sip_end(state, letters, LENGTH))) {
      printf("%s%.6s\n", prefix, (const char *)&letters);
      count--;
    }
    int at = 0;
    for (; (letters >> at & 0xff) == 'z'; at += 8) letters -= (uint64_t)('z' - 'a') << at;
    letters += 1ull << at;
  }
  return count > 0;
}

int main(int words, char **word) {
  if (words != 4) return 2;
  int by_sip = strcmp(word[1], "sip") == 0;
  long count = atol(word[3]);
  if (strcmp(word[2], "numbers") == 0) return tried_numbers(by_sip, count);
  return by_sip ? tried_names(count) : fold_names(count);
}
