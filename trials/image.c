/* The image of a full cache, for trials: a head of 24 bytes and a block as dnscache saves it, with entries that don't expire for a day.
 *
 *   image SIZE BODY
 *     writes the image of a cache of SIZE bytes (100 to 1000000000) whose entries have keys of 16 bytes and bodies of BODY bytes.
 *
 * The block begins with the head links of the buckets; behind them lie the entries, the oldest first: link, lengths of key and body, expiry, key, body.
 * A link is the XOR of the places before and behind it in its bucket's chain. Numbers have their low byte first, those of the head their high byte.
 */
#include <stdint.h>
#include <stdio.h>
#include <stdlib.h>
#include <string.h>
#include <time.h>

enum { KEY = 16, FRONT = 20 };

static uint8_t *block;

static uint32_t number(uint32_t at) { return block[at] | block[at + 1] << 8 | block[at + 2] << 16 | (uint32_t)block[at + 3] << 24; }

static void put(uint32_t at, uint64_t value, int bytes) {
  for (int i = 0; i < bytes; i++) block[at + i] = value >> 8 * i;
}

static void put_high(uint8_t *at, uint32_t value) {
  for (int i = 0; i < 4; i++) at[i] = value >> (24 - 8 * i);
}

static uint32_t bucket(const uint8_t *key, uint32_t heads) {
  uint32_t hash = 5381;
  for (int i = 0; i < KEY; i++) hash = hash * 33 ^ key[i];
  return hash * 4 & (heads - 4);
}

/* Puts an entry at a place, in front of its bucket's chain. */
static void add(uint32_t at, uint32_t heads, uint64_t count, uint32_t body, uint64_t expiry) {
  char key[KEY + 1];
  snprintf(key, sizeof key, "%016llx", (unsigned long long)count);
  memcpy(block + at + FRONT, key, KEY);
  memset(block + at + FRONT + KEY, 'b', body);
  uint32_t head = bucket(block + at + FRONT, heads), older = number(head);
  put(at, head ^ older, 4);
  put(at + 4, KEY, 4);
  put(at + 8, body, 4);
  put(at + 12, expiry, 8);
  if (older) put(older, number(older) ^ head ^ at, 4);
  put(head, at, 4);
}

int main(int count, char **words) {
  long size = count == 3 ? atol(words[1]) : 0, body = count == 3 ? atol(words[2]) : 0;
  if (size < 100 || size > 1000000000 || body < 0 || body > 1000000) {
    fprintf(stderr, "usage: image SIZE BODY\n");
    return 100;
  }
  uint32_t heads = 4, entry = FRONT + KEY + body, at;
  uint64_t entries = 0, expiry = time(NULL) + 86400;
  while (heads <= size / 32) heads *= 2;
  block = calloc(size, 1);
  if (!block) return 111;
  for (at = heads; at + entry <= size; at += entry) add(at, heads, entries++, body, expiry);
  uint8_t front[24] = "dnscimg1";
  put_high(front + 8, size);
  put_high(front + 12, at);
  put_high(front + 16, size);
  put_high(front + 20, size);
  if (fwrite(front, 24, 1, stdout) != 1 || fwrite(block, size, 1, stdout) != 1 || fflush(stdout)) return 111;
  return 0;
}
