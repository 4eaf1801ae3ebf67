// Numbers of 64 bits, and floating point numbers, which libgcc makes of instructions for numbers of 32 bits.
#include "print.h"

static volatile long long edges[] = {
  0, 1, -1, 2, -2, 10, 0x7fffffff, 0x80000000, 0xffffffff, 0x100000000, -0x80000000LL, -0x100000001LL,
  0x123456789abcdef0, 0x7fffffffffffffff, (long long)0x8000000000000000ULL, 0x0fedcba987654321,
};
enum { COUNT = sizeof edges / sizeof edges[0] };

static unsigned long long mixed;
static void mix(unsigned long long number) { mixed = (mixed << 7 | mixed >> 57) ^ number; }

static void row(long long left, long long right) {
  unsigned long long one = (unsigned long long)left, other = (unsigned long long)right;
  mix(one + other);
  mix(one - other);
  mix(one * other);
  mix(one << (right & 63));
  mix(one >> (right & 63));
  mix((unsigned long long)(left >> (right & 63)));
  mix((unsigned long long)(left < right) << 1 | (unsigned long long)(one < other));
  if (right == 0) return;
  mix(one / other);
  mix(one % other);
  if (left == (long long)0x8000000000000000ULL && right == -1) return;
  mix((unsigned long long)(left / right));
  mix((unsigned long long)(left % right));
}

static double root(double square) {
  double guess = square;
  for (int turn = 0; turn < 12; turn++) guess = (guess + square / guess) / 2;
  return guess;
}

int main(void) {
  for (int left = 0; left < COUNT; left++) {
    for (int right = 0; right < COUNT; right++) row(edges[left], edges[right]);
    print_wide(mixed);
    print("\n");
  }
  volatile unsigned long long large = 12345678901234567890ULL;
  int digits = 0;
  for (unsigned long long left = large; left; left /= 10) digits += (int)(left % 10);
  named_number("digits", digits);
  named_number("ones", __builtin_popcountll(large));
  named_number("zeros", __builtin_clzll(large >> 20));
  volatile double two = 2;
  named_number("root", (int)(root(two) * 100000000));
  volatile float third = 1;
  third /= 3;
  union { float number; unsigned bits; } shown = {third};
  named_hex("third", shown.bits);
  return digits;
}
