// Products and powers of matrices of numbers of 32 and of 64 bits.
#include "print.h"

enum { SIZE = 12 };
typedef struct { int at[SIZE][SIZE]; } matrix;
typedef struct { unsigned long long at[2][2]; } pair;

static matrix product(const matrix *left, const matrix *right) {
  matrix result;
  for (int row = 0; row < SIZE; row++)
    for (int column = 0; column < SIZE; column++) {
      int sum = 0;
      for (int inner = 0; inner < SIZE; inner++) sum += left->at[row][inner] * right->at[inner][column];
      result.at[row][column] = sum;
    }
  return result;
}

static pair times(pair left, pair right) {
  pair result;
  for (int row = 0; row < 2; row++)
    for (int column = 0; column < 2; column++)
      result.at[row][column] = left.at[row][0] * right.at[0][column] + left.at[row][1] * right.at[1][column];
  return result;
}

static unsigned long long fibonacci(unsigned number) {
  pair result = {{{1, 0}, {0, 1}}}, base = {{{1, 1}, {1, 0}}};
  for (; number; number >>= 1) {
    if (number & 1) result = times(result, base);
    base = times(base, base);
  }
  return result.at[0][1];
}

static matrix start, power;

int main(void) {
  for (int row = 0; row < SIZE; row++)
    for (int column = 0; column < SIZE; column++) {
      start.at[row][column] = row * 7 - column * column;
      power.at[row][column] = row == column;
    }
  for (int turn = 0; turn < 4; turn++) {
    power = product(&power, &start);
    unsigned trace = 0;
    for (int at = 0; at < SIZE; at++) trace += (unsigned)power.at[at][at];
    named_hex("trace", trace);
  }
  for (unsigned number = 0; number <= 90; number += 15) {
    print("fibonacci ");
    print_wide(fibonacci(number));
    print("\n");
  }
  return power.at[3][5] & 255;
}
