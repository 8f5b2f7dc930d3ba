/* Function pointers and a jump table: a small machine with a stack runs a program of its own. Its operations are called
 * through pointers; its switch becomes a jump through a table, which a compiler writes as `notrack jmp` where branches
 * are to be tracked, since no endbr64 stands at a case. Exit status 42. */
#include "start.h"

enum { PUSH, APPLY, DUPLICATE, SWAP, JUMP_IF, DROP, HALT };
enum { PLUS, MINUS, TIMES };

typedef word operation(word, word);

__attribute__((noinline)) static word plus(word left, word right) { return left + right; }
__attribute__((noinline)) static word minus(word left, word right) { return left - right; }
__attribute__((noinline)) static word times(word left, word right) { return left * right; }

/* Not constant, so that the calls stay calls through memory. */
static operation *volatile operations[3] = {plus, minus, times};

__attribute__((noinline)) static word run(const word *code)
{
    static word stack[16];
    word *top = stack, at = 0;
    for (;;) {
        word value = code[at + 1], kept;
        switch (code[at]) {
        case PUSH:
            *top++ = value;
            break;
        case APPLY:
            top = top - 1;
            top[-1] = operations[value](top[-1], top[0]);
            break;
        case DUPLICATE:
            top[0] = top[-1];
            top = top + 1;
            break;
        case SWAP:
            kept = top[-1];
            top[-1] = top[-2];
            top[-2] = kept;
            break;
        case JUMP_IF:
            if (top[-1]) {
                at = value;
                continue;
            }
            break;
        case DROP:
            top = top - 1;
            break;
        default:
            return top[-1];
        }
        at = at + 2;
    }
}

word program(void)
{
    /* The product 1 * 2 * 3, times 7: below a counter that goes down stands the product so far. */
    static const word code[] = {
        PUSH, 7,       PUSH, 3,                                    /* product, counter */
        DUPLICATE, 0,  PUSH, 1,       APPLY, MINUS,                /* product, counter, counter - 1 */
        SWAP, 0,       DROP, 0,                                    /* product, counter - 1 */
        JUMP_IF, 4,    DROP, 0,                                    /* product */
        PUSH, 6,       APPLY, TIMES,  HALT, 0,
    };
    return run(code);
}
