/* Recursion: a sorted tree is built, walked and measured, and Ackermann's function runs. Each call pushes its return
 * address on the shadow stack as well, and each return is compared with it. Exit status 57. */
#include "start.h"

struct node {
    word value;
    struct node *left, *right;
};

static struct node nodes[16];
static word used_nodes;

/* The tree with one more value. */
__attribute__((noinline)) static struct node *insert(struct node *tree, word value)
{
    if (!tree) {
        struct node *made = &nodes[used_nodes];
        used_nodes = used_nodes + 1;
        made->value = value;
        return made;
    }
    if (value < tree->value)
        tree->left = insert(tree->left, value);
    else
        tree->right = insert(tree->right, value);
    return tree;
}

__attribute__((noinline)) static word depth(const struct node *tree)
{
    if (!tree)
        return 0;
    word left = depth(tree->left), right = depth(tree->right);
    return 1 + (left > right ? left : right);
}

__attribute__((noinline)) static word sum(const struct node *tree)
{
    return tree ? sum(tree->left) + tree->value + sum(tree->right) : 0;
}

__attribute__((noinline)) static word ackermann(word m, word n)
{
    if (m == 0)
        return n + 1;
    if (n == 0)
        return ackermann(m - 1, 1);
    return ackermann(m - 1, ackermann(m, n - 1));
}

word program(void)
{
    static const word values[8] = {5, 2, 8, 1, 3, 9, 7, 6};
    struct node *tree = 0;
    for (word at = 0; at < 8; at = at + 1)
        tree = insert(tree, values[at]);
    return sum(tree) + depth(tree) * 3 + ackermann(1, 2); /* 41 + 4 * 3 + 4 */
}
