// Sorting in three ways, each by an order that is a function pointer: they have to agree.
#include "print.h"

enum { COUNT = 80 };
typedef int (*order)(int, int);

static int rising(int left, int right) { return left < right; }
static int falling(int left, int right) { return right < left; }
static int by_low_byte(int left, int right) {
  int one = left & 255, other = right & 255;
  return one != other ? one < other : left < right;
}

static unsigned state = 12345;
static int draw(void) {
  state = state * 1664525 + 1013904223;
  return (int)(state ^ state >> 13);
}

static void insertion(int *numbers, int count, order before) {
  for (int end = 1; end < count; end++) {
    int moved = numbers[end], at = end;
    for (; at > 0 && before(moved, numbers[at - 1]); at--) numbers[at] = numbers[at - 1];
    numbers[at] = moved;
  }
}

static void quick(int *numbers, int low, int high, order before) {
  if (high - low < 2) return;
  int middle = numbers[low + (high - low) / 2], left = low, right = high - 1;
  while (left <= right) {
    while (before(numbers[left], middle)) left++;
    while (before(middle, numbers[right])) right--;
    if (left > right) break;
    int kept = numbers[left];
    numbers[left++] = numbers[right];
    numbers[right--] = kept;
  }
  quick(numbers, low, right + 1, before);
  quick(numbers, left, high, before);
}

static void merge(int *numbers, int *room, int count, order before) {
  if (count < 2) return;
  int half = count / 2, left = 0, right = half, at = 0;
  merge(numbers, room, half, before);
  merge(numbers + half, room, count - half, before);
  while (left < half || right < count) {
    int is_right = left == half || (right < count && before(numbers[right], numbers[left]));
    room[at++] = is_right ? numbers[right++] : numbers[left++];
  }
  for (at = 0; at < count; at++) numbers[at] = room[at];
}

static int first[COUNT], second[COUNT], third[COUNT], room[COUNT];

int main(void) {
  static const order orders[] = {rising, falling, by_low_byte};
  int wrong = 0;
  for (int which = 0; which < 3; which++) {
    for (int at = 0; at < COUNT; at++) first[at] = second[at] = third[at] = draw();
    insertion(first, COUNT, orders[which]);
    quick(second, 0, COUNT, orders[which]);
    merge(third, room, COUNT, orders[which]);
    unsigned sum = 0;
    for (int at = 0; at < COUNT; at++) {
      wrong += first[at] != second[at] || first[at] != third[at];
      sum = sum * 31 + (unsigned)first[at];
    }
    named_number("least", first[0]);
    named_number("greatest", first[COUNT - 1]);
    named_hex("sum", sum);
  }
  named_number("wrong", wrong);
  return wrong ? 1 : 17;
}
