/* A list of eight nodes under one lock that is mostly read: in each turn a hart goes over the list and sees that all
 * nodes are alike, and in each sixteenth it then adds 1 to every node. Result: 4 writes of 8 nodes, 32, for each hart,
 * or 0 where a reader saw two nodes that differed. */
#include "work.h"

enum { NODES = 8, READS = 16 };

struct node {
    _Alignas(64) struct node *next;
    volatile unsigned value;
};

static struct lock_words lock;
static struct node nodes[NODES] = {
    { &nodes[1], 0 }, { &nodes[2], 0 }, { &nodes[3], 0 }, { &nodes[4], 0 },
    { &nodes[5], 0 }, { &nodes[6], 0 }, { &nodes[7], 0 }, { 0, 0 },
};
static volatile unsigned unlike;

void work(unsigned hart, struct place *place)
{
    (void)hart;
    unsigned differs = 0;
    for (int turn = 1; turn <= TURNS; turn++) {
        take(&lock, place);
        unsigned first = nodes[0].value;
        for (struct node *node = nodes; node != 0; node = node->next)
            differs |= node->value ^ first;
        if (turn % READS == 0)
            for (struct node *node = nodes; node != 0; node = node->next)
                node->value = node->value + 1;
        give(&lock, place);
    }
    if (differs != 0)
        unlike = 1;
}

unsigned result(unsigned harts)
{
    (void)harts;
    unsigned sum = 0;
    for (struct node *node = nodes; node != 0; node = node->next)
        sum += node->value;
    return unlike ? 0 : sum;
}
