/* Products, quotients and remainders, each by one instruction of the M extension: signed, unsigned, and the
 * upper word of a product of both kinds. */
#include "runtime.h"

enum { LEFTS = 4, RIGHTS = 4 };

/* Volatile, so that no compiler works the results out. */
static volatile int lefts[LEFTS] = {7, -7, 123456789, -2147483647};
static volatile int rights[RIGHTS] = {2, -2, 65537, -98765};

static void print_signed(int number)
{
    if (number < 0)
        print("-");
    print_number(number < 0 ? -(unsigned)number : (unsigned)number);
}

static void print_signed_row(int left, int right)
{
    print_signed(left);
    print(" and ");
    print_signed(right);
    print(": ");
    print_signed((int)((long long)left * right >> 32));
    print(" ");
    print_signed(left / right);
    print(" ");
    print_signed(left % right);
}

static void print_unsigned_row(unsigned left, unsigned right)
{
    print(", ");
    print_number(left * right);
    print(" ");
    print_number((unsigned)((unsigned long long)left * right >> 32));
    print(" ");
    print_number(left / right);
    print(" ");
    print_number(left % right);
}

int main(int hart)
{
    if (hart != 0)
        return 0;
    for (int row = 0; row < LEFTS; row++)
        for (int column = 0; column < RIGHTS; column++) {
            int left = lefts[row];
            int right = rights[column];
            print_signed_row(left, right);
            print_unsigned_row(left, right);
            print(", ");
            print_signed((int)((long long)left * (unsigned)right >> 32));
            print("\n");
        }
    return 0;
}
