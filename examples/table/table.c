/* Squares of drawn numbers in ascending order: prints, multiplies and sorts. */
#include "runtime.h"

enum { ROWS = 12 };

static unsigned drawn[ROWS];

static void sort(unsigned *numbers, int count)
{
    for (int end = 1; end < count; end++) {
        unsigned moved = numbers[end];
        int at = end;
        while (at > 0 && numbers[at - 1] > moved) {
            numbers[at] = numbers[at - 1];
            at--;
        }
        numbers[at] = moved;
    }
}

int main(int hart)
{
    if (hart != 0)
        return 0;
    unsigned state = 2463534242u;
    for (int row = 0; row < ROWS; row++) {
        state ^= state << 13;
        state ^= state >> 17;
        state ^= state << 5;
        drawn[row] = state % 1000;
    }
    sort(drawn, ROWS);
    print("number  square\n");
    for (int row = 0; row < ROWS; row++) {
        print_number(drawn[row]);
        print("  ");
        print_number(drawn[row] * drawn[row]);
        print("\n");
    }
    return 0;
}
