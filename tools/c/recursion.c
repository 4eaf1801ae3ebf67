// Functions that call themselves and one another: Ackermann's, towers, queens, even and odd, and a walk through a tree.
#include "print.h"

static int ackermann(int left, int right) {
  if (left == 0) return right + 1;
  if (right == 0) return ackermann(left - 1, 1);
  return ackermann(left - 1, ackermann(left, right - 1));
}

static int moves;
static void tower(int height, int from, int to, int spare) {
  if (height == 0) return;
  tower(height - 1, from, spare, to);
  moves = (moves * 3 + from * 2 + to) % 100003;
  tower(height - 1, spare, to, from);
}

static int queens(int size, int row, unsigned columns, unsigned rising, unsigned falling) {
  if (row == size) return 1;
  int count = 0;
  for (int column = 0; column < size; column++) {
    unsigned here = 1u << column;
    if ((columns | rising | falling) & here) continue;
    count += queens(size, row + 1, columns | here, (rising | here) << 1, (falling | here) >> 1);
  }
  return count;
}

int is_odd(unsigned number);
int __attribute__((noinline)) is_even(unsigned number) { return number == 0 || is_odd(number - 1); }
int __attribute__((noinline)) is_odd(unsigned number) { return number != 0 && is_even(number - 1); }

struct node { struct node *left, *right; int number; };
static struct node nodes[64];
static int used;

static struct node *insert(struct node *tree, int number) {
  if (!tree) {
    tree = &nodes[used++];
    tree->number = number;
  } else if (number < tree->number) {
    tree->left = insert(tree->left, number);
  } else {
    tree->right = insert(tree->right, number);
  }
  return tree;
}

static void show(const struct node *tree, int depth) {
  if (!tree) return;
  show(tree->left, depth + 1);
  if (tree->number % 7 == 0) named_number("node", tree->number * 100 + depth);
  show(tree->right, depth + 1);
}

int main(void) {
  named_number("ackermann", ackermann(2, 20));
  tower(9, 1, 2, 3);
  named_number("tower", moves);
  named_number("queens", queens(6, 0, 0, 0, 0));
  named_number("even", is_even(501));
  struct node *tree = 0;
  for (int at = 0; at < 64; at++) tree = insert(tree, at * 37 % 101);
  show(tree, 0);
  return queens(5, 0, 0, 0, 0) + 100;
}
