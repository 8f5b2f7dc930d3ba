/* What to write in the place of the code of avoid.c, for its first seven cases. Exit status 97. */
#include "start.h"

word small, counter, divisor = 7, left = 4, right = 4;
unsigned char text[8] = "xyz";
word letters;

/* A word for each number that is stored, and letters eight in a word. */
static void store(void)
{
    small = 5;
    letters = 'x' | 'y' << 8 | 'z' << 16;
}

/* Load, operation, store. */
static void count(void)
{
    counter = in_register(counter) + 3;
}

/* The letter is loaded by movzx, since it has no sign, and the word is compared. */
static word length(const unsigned char *of)
{
    word at = 0;
    while (in_register(*of)) {
        of = of + 1;
        at = at + 1;
    }
    return at;
}

/* A condition as a number, by a jump or a conditional move. */
static word equal(word first, word second)
{
    word answer = 0;
    if (first == second)
        answer = in_register(1);
    return answer;
}

static word product(word value)
{
    return value * in_register(1000003);
}

/* A quotient by shifts and subtractions, one bit at a time. */
static word quotient(word number, word by)
{
    word result = 0, rest = 0;
    for (word bit = 64; bit > 0; bit = bit - 1) {
        rest = rest << 1 | (number >> (bit - 1) & 1);
        result = result << 1;
        if (rest >= by) {
            rest = rest - by;
            result = result | in_register(1);
        }
    }
    return result;
}

word program(void)
{
    store();
    count();
    count();
    word sum = small + counter + length(text) + equal(left, right) + equal(left, small); /* 5 + 6 + 3 + 1 + 0 */
    sum = sum + (letters >> 16 == 'z' ? in_register(10) : 0);                            /* 25 */
    return sum + quotient(product(sum), 1000003) + quotient(335, in_register(divisor));  /* 25 + 25 + 47 */
}
