/* What compilers call to multiply and divide where there is no M extension. */

unsigned __mulsi3(unsigned left, unsigned right)
{
    unsigned product = 0;
    while (right != 0) {
        if (right & 1)
            product += left;
        left <<= 1;
        right >>= 1;
    }
    return product;
}

/* Long division, bit by bit from the highest. Division by 0 gives all ones and the dividend, as the
 * M extension's instructions do. */
static unsigned divide(unsigned dividend, unsigned divisor, unsigned *remainder)
{
    unsigned quotient = 0;
    unsigned rest = 0;
    for (int bit = 31; bit >= 0; bit--) {
        unsigned carried = rest >> 31;
        rest = rest << 1 | (dividend >> bit & 1);
        if (carried || rest >= divisor) {
            rest -= divisor;
            quotient |= 1u << bit;
        }
    }
    *remainder = rest;
    return quotient;
}

unsigned __udivsi3(unsigned dividend, unsigned divisor)
{
    unsigned remainder;
    return divide(dividend, divisor, &remainder);
}

unsigned __umodsi3(unsigned dividend, unsigned divisor)
{
    unsigned remainder;
    divide(dividend, divisor, &remainder);
    return remainder;
}
