// The letters of brickwork circuits in C, in place, over smaller numbers than those of brickwork.c: what brickwork.sh times beside it.
// With -DNARROW exact numbers of four 32-bit components, with a bound on them in place of a test of the sums, and the store's reduction;
// else complex doubles, which round. Words: how many qubits, and how many layers. Status 6: the exact numbers don't fit 32 bits.
#include <math.h>
#include <stdbool.h>
#include <stddef.h>
#include <stdint.h>
#include <stdio.h>
#include <stdlib.h>

static const unsigned WIDEST_RANK = 16;

#ifdef NARROW
typedef struct {
  int32_t a, b, c, d;
} number;
static const number ONE = {1, 0, 0, 0};
static const unsigned MOST_BITS = 30;

static number sum(number p, number q) { return (number){p.a + q.a, p.b + q.b, p.c + q.c, p.d + q.d}; }

static number difference(number p, number q) { return (number){p.a - q.a, p.b - q.b, p.c - q.c, p.d - q.d}; }

static number turned(number z) { return (number){-z.d, z.a, z.b, z.c}; }

static bool is_halvable(number z) { return !(((z.a ^ z.c) | (z.b ^ z.d)) & 1); }

static number halved(number z) { return (number){(z.b - z.d) >> 1, (z.a + z.c) >> 1, (z.b + z.d) >> 1, (z.c - z.a) >> 1}; }

static bool is_zero(number z) { return !(z.a | z.b | z.c | z.d); }

static unsigned bits_of(const number *list, size_t size) {
  uint32_t all = 0;
  for (size_t i = 0; i < size; i++) all |= abs(list[i].a) | abs(list[i].b) | abs(list[i].c) | abs(list[i].d);
  return all ? 32 - __builtin_clz(all) : 0;
}

static bool all_halvable(const number *list, size_t size) {
  for (size_t i = 0; i < size; i++)
    if (!is_halvable(list[i])) return false;
  return true;
}

static bool all_zero(const number *list, size_t size) {
  for (size_t i = 0; i < size; i++)
    if (!is_zero(list[i])) return false;
  return true;
}

static void reduce(number *list, size_t size, uint64_t *exponent) {
  while (*exponent > 0 && all_halvable(list, size)) {
    if (all_zero(list, size)) {
      *exponent = 0;
    } else {
      for (size_t i = 0; i < size; i++) list[i] = halved(list[i]);
      --*exponent;
    }
  }
}
#else
typedef struct {
  double re, im;
} number;
static const number ONE = {1, 0};

static number sum(number p, number q) { return (number){(p.re + q.re) * M_SQRT1_2, (p.im + q.im) * M_SQRT1_2}; }

static number difference(number p, number q) { return (number){(p.re - q.re) * M_SQRT1_2, (p.im - q.im) * M_SQRT1_2}; }

static number turned(number z) { return (number){(z.re - z.im) * M_SQRT1_2, (z.re + z.im) * M_SQRT1_2}; }
#endif

static void mix(number *restrict low, number *restrict high, size_t half) {
  for (size_t i = 0; i < half; i++) {
    number p = low[i], q = high[i];
    low[i] = sum(p, q);
    high[i] = difference(p, q);
  }
}

static bool had(number *list, size_t size, unsigned place, unsigned *bits, uint64_t *exponent) {
  size_t half = (size_t)1 << place;
#ifdef NARROW
  if (*bits == MOST_BITS) *bits = bits_of(list, size);
  if (*bits == MOST_BITS) return false;
  ++*bits;
#endif
  for (size_t start = 0; start < size; start += 2 * half) mix(list + start, list + start + half, half);
#ifdef NARROW
  ++*exponent;
  reduce(list, size, exponent);
#endif
  return true;
}

static void turn(number *list, size_t size, unsigned place) {
  size_t half = (size_t)1 << place;
  for (size_t start = half; start < size; start += 2 * half)
    for (size_t i = start; i < start + half; i++) list[i] = turned(list[i]);
}

static void cross(number *list, size_t size, unsigned control, unsigned target) {
  size_t c = (size_t)1 << control, t = (size_t)1 << target;
  size_t high = c > t ? c : t, low = c > t ? t : c;
  for (size_t block = 0; block < size; block += 2 * high)
    for (size_t start = block; start < block + high; start += 2 * low)
      for (size_t i = start; i < start + low; i++) {
        number z = list[i + c];
        list[i + c] = list[i + c + t];
        list[i + c + t] = z;
      }
}

int main(int count, char **words) {
  if (count != 3) return 2;
  unsigned qubits = atoi(words[1]), layers = atoi(words[2]), bits = 1;
  unsigned width = qubits > WIDEST_RANK ? qubits / 2 : qubits;
  size_t size = (size_t)1 << qubits;
  uint64_t exponent = 0;
  number *list = calloc(size, sizeof *list);
  if (!list) return 8;
  list[0] = ONE;
  for (unsigned first = 0; first < qubits; first += width)
    for (unsigned layer = 0; layer < layers; layer++) {
      for (unsigned p = first; p < first + width; p++) {
        if (!had(list, size, p, &bits, &exponent)) return 6;
        turn(list, size, p);
      }
      for (unsigned p = first + layer % 2; p + 1 < first + width; p += 2) cross(list, size, p, p + 1);
    }
#ifdef NARROW
  printf("scale %llu\n", (unsigned long long)exponent);
#else
  printf("first %.6f\n", list[0].re);
#endif
  free(list);
  return 0;
}
