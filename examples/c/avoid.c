/* Code to avoid: each CASE has one instruction that the machine doesn't have, and its name behind the colon, as gcc
 * writes it. `cetvm run` ends each by #UD, signal 4, at that instruction. README.md says what to write in its place. */
#include "start.h"

int small;
char text[8];
word counter, divisor = 2, left, right = 1;
double number = 1.5;

#if CASE == 1 /* a store of 32 bits: movl */
word program(void)
{
    small = 5;
    return 0;
}
#elif CASE == 2 /* a store of 8 bits: movb */
word program(void)
{
    text[0] = 'x';
    return 0;
}
#elif CASE == 3 /* an operation on a word in memory: addq */
word program(void)
{
    counter += 3;
    return 0;
}
#elif CASE == 4 /* a comparison of 8 bits: cmpb */
word program(void)
{
    if (text[0])
        leave(1);
    return 0;
}
#elif CASE == 5 /* a condition as a number: sete */
word program(void)
{
    return left == right;
}
#elif CASE == 6 /* a product with a number: imul */
word program(void)
{
    return counter * 1000003;
}
#elif CASE == 7 /* a division: divq */
word program(void)
{
    return counter / divisor;
}
#elif CASE == 8 /* an int that becomes a long: cltq */
word program(void)
{
    return (word)(long)(small << 3);
}
#elif CASE == 9 /* a string instruction: rep */
word program(void)
{
    static word cleared[256];
    word *to = cleared, count = 256;
    __asm__ volatile("rep stosq" : "+D"(to), "+c"(count) : "a"(0) : "memory");
    return 0;
}
#elif CASE == 10 /* floating point, which is SSE: movsd */
word program(void)
{
    number = number * 2;
    return 0;
}
#endif
