// The letters of brickwork circuits in C, in place, over the numbers of Z[omega] that the store holds, with the store's tests of the
// sums and its reduction: what brickwork.sh times beside the proved program. Words: how many qubits, and how many layers.
// With -DEACH_SUM every sum is tested by itself; else a list of small numbers passes at once, as in the store.
#include <stdbool.h>
#include <stddef.h>
#include <stdint.h>
#include <stdio.h>
#include <stdlib.h>

typedef __int128 part;
typedef struct {
  part a, b, c, d;
} zw;

static const part LEAST = (part)((unsigned __int128)1 << 127);
static const part SMALL = (part)1 << 125;
static const unsigned WIDEST_RANK = 16;
#ifdef EACH_SUM
static const bool IS_QUICK = false;
#else
static const bool IS_QUICK = true;
#endif

static bool sum_fits(part x, part y) {
  part sum;
  return !__builtin_add_overflow(x, y, &sum) && sum != LEAST;
}

static bool difference_fits(part x, part y) {
  part difference;
  return !__builtin_sub_overflow(x, y, &difference) && difference != LEAST;
}

static bool fits(const zw *p, const zw *q) {
  return sum_fits(p->a, q->a) && sum_fits(p->b, q->b) && sum_fits(p->c, q->c) && sum_fits(p->d, q->d) &&
         difference_fits(p->a, q->a) && difference_fits(p->b, q->b) && difference_fits(p->c, q->c) && difference_fits(p->d, q->d);
}

static bool is_small_part(part x) { return -SMALL <= x && x < SMALL; }

static bool is_small(const zw *z) { return is_small_part(z->a) & is_small_part(z->b) & is_small_part(z->c) & is_small_part(z->d); }

static bool all_small(const zw *list, size_t size) {
  for (size_t i = 0; i < size; i++)
    if (!is_small(&list[i])) return false;
  return true;
}

static bool had_fits(const zw *list, size_t size, size_t half) {
  if (IS_QUICK && all_small(list, size)) return true;
  for (size_t start = 0; start < size; start += 2 * half)
    for (size_t i = start; i < start + half; i++)
      if (!fits(&list[i], &list[i + half])) return false;
  return true;
}

static bool is_halvable(const zw *z) { return !((z->a ^ z->c) & 1) && !((z->b ^ z->d) & 1); }

static bool is_zero(const zw *z) { return !(z->a | z->b | z->c | z->d); }

static part half_sum(part x, part y) { return (x >> 1) + (y >> 1) + (x & 1); }

static part half_difference(part x, part y) { return (x >> 1) - (y >> 1); }

static zw halved(zw z) {
  return (zw){half_difference(z.b, z.d), half_sum(z.a, z.c), half_sum(z.b, z.d), half_difference(z.c, z.a)};
}

static bool all_halvable(const zw *list, size_t size) {
  for (size_t i = 0; i < size; i++)
    if (!is_halvable(&list[i])) return false;
  return true;
}

static bool all_zero(const zw *list, size_t size) {
  for (size_t i = 0; i < size; i++)
    if (!is_zero(&list[i])) return false;
  return true;
}

static void reduce(zw *list, size_t size, uint64_t *exponent) {
  while (*exponent > 0 && all_halvable(list, size)) {
    if (all_zero(list, size)) {
      *exponent = 0;
    } else {
      for (size_t i = 0; i < size; i++) list[i] = halved(list[i]);
      --*exponent;
    }
  }
}

static bool had(zw *list, size_t size, unsigned place, uint64_t *exponent) {
  size_t half = (size_t)1 << place;
  if (!had_fits(list, size, half)) return false;
  for (size_t start = 0; start < size; start += 2 * half)
    for (size_t i = start; i < start + half; i++) {
      zw p = list[i], q = list[i + half];
      list[i] = (zw){p.a + q.a, p.b + q.b, p.c + q.c, p.d + q.d};
      list[i + half] = (zw){p.a - q.a, p.b - q.b, p.c - q.c, p.d - q.d};
    }
  ++*exponent;
  reduce(list, size, exponent);
  return true;
}

static void turn(zw *list, size_t size, unsigned place) {
  size_t half = (size_t)1 << place;
  for (size_t start = half; start < size; start += 2 * half)
    for (size_t i = start; i < start + half; i++) {
      zw z = list[i];
      list[i] = (zw){-z.d, z.a, z.b, z.c};
    }
}

static void cross(zw *list, size_t size, unsigned control, unsigned target) {
  size_t c = (size_t)1 << control, t = (size_t)1 << target;
  size_t high = c > t ? c : t, low = c > t ? t : c;
  for (size_t block = 0; block < size; block += 2 * high)
    for (size_t start = block; start < block + high; start += 2 * low)
      for (size_t i = start; i < start + low; i++) {
        zw z = list[i + c];
        list[i + c] = list[i + c + t];
        list[i + c + t] = z;
      }
}

int main(int count, char **words) {
  if (count != 3) return 2;
  unsigned qubits = atoi(words[1]), layers = atoi(words[2]);
  unsigned width = qubits > WIDEST_RANK ? qubits / 2 : qubits;
  size_t size = (size_t)1 << qubits;
  uint64_t exponent = 0;
  zw *list = calloc(size, sizeof *list);
  if (!list) return 8;
  list[0].a = 1;
  for (unsigned first = 0; first < qubits; first += width)
    for (unsigned layer = 0; layer < layers; layer++) {
      for (unsigned p = first; p < first + width; p++) {
        if (!had(list, size, p, &exponent)) return 6;
        turn(list, size, p);
      }
      for (unsigned p = first + layer % 2; p + 1 < first + width; p += 2) cross(list, size, p, p + 1);
    }
  for (size_t i = 0; i < size; i++)
    if (!is_zero(&list[i])) return printf("scale %llu first %zu\n", (unsigned long long)exponent, i) < 0;
  return 1;
}
