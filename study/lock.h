/* What a lock of `locks/` gives, and what a program of `work/` takes. Each lock has its own idea of the two words. */
#ifndef STUDY_LOCK_H
#define STUDY_LOCK_H

/* A lock on a line of 64 bytes of its own, free where its words are 0. */
struct lock_words {
    _Alignas(64) volatile unsigned word;
    volatile unsigned second;
};

/* What a hart that waits keeps of its own, also on a line of its own: its number, and a node of a queue. */
struct place {
    _Alignas(64) struct place *volatile next;
    volatile unsigned waits;
    unsigned hart;
};

void take(struct lock_words *lock, struct place *place);
void give(struct lock_words *lock, struct place *place);

#endif
