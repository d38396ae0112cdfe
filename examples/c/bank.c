/* A bank: four tellers move money between eight accounts, each account under a lock of its own.
 *
 *     tools/haft-cc examples/c/bank.c > bank.ll
 *     ./haft run bank.ll examples/c/round_robin.sched
 *
 * A teller locks the two accounts of a move in the order of their numbers, so that no two tellers wait for each other. A move that an account
 * can't pay for is refused, and how many are refused depends on who comes first; what is put out doesn't: the money of all accounts, whether
 * an account went below zero, and how many moves were asked for.
 */
#include "haft.h"

#include <pthread.h>
#include <stdbool.h>
#include <stddef.h>

#define ACCOUNTS 8
#define TELLERS 4
#define MOVES 12

struct account {
    pthread_mutex_t lock;
    int64_t money;
    int64_t least; /* the least that was ever in it */
};

struct teller {
    pthread_t thread;
    uint32_t state; /* of the teller's own generator */
    unsigned done, refused;
};

static struct account accounts[ACCOUNTS];
static struct teller tellers[TELLERS];

static uint32_t drawn(struct teller *teller, uint32_t below) {
    teller->state = teller->state * 1664525u + 1013904223u;
    return (teller->state >> 16) % below;
}

static void lock_both(struct account *a, struct account *b) {
    pthread_mutex_lock(a < b ? &a->lock : &b->lock);
    pthread_mutex_lock(a < b ? &b->lock : &a->lock);
}

static void unlock_both(struct account *a, struct account *b) {
    pthread_mutex_unlock(&a->lock);
    pthread_mutex_unlock(&b->lock);
}

/* Moves a sum, where it is there. */
static bool move(struct account *from, struct account *to, int64_t sum) {
    lock_both(from, to);
    bool there = from->money >= sum;
    if (there) {
        from->money -= sum;
        to->money += sum;
        if (from->money < from->least)
            from->least = from->money;
    }
    unlock_both(from, to);
    return there;
}

static void *serve(void *arg) {
    struct teller *teller = arg;
    for (int k = 0; k < MOVES; k++) {
        uint32_t from = drawn(teller, ACCOUNTS);
        uint32_t to = (from + 1 + drawn(teller, ACCOUNTS - 1)) % ACCOUNTS;
        if (move(&accounts[from], &accounts[to], 10 + drawn(teller, 90)))
            teller->done++;
        else
            teller->refused++;
    }
    return NULL;
}

int main(void) {
    for (int k = 0; k < ACCOUNTS; k++) {
        pthread_mutex_init(&accounts[k].lock, NULL);
        accounts[k].money = accounts[k].least = 100;
    }
    for (uint32_t k = 0; k < TELLERS; k++) {
        tellers[k].state = 2026u * (k + 1);
        pthread_create(&tellers[k].thread, NULL, serve, &tellers[k]);
    }

    uint64_t moves = 0;
    for (int k = 0; k < TELLERS; k++) {
        pthread_join(tellers[k].thread, NULL);
        moves += tellers[k].done + tellers[k].refused;
    }

    int64_t sum = 0;
    bool below = false;
    for (int k = 0; k < ACCOUNTS; k++) {
        sum += accounts[k].money;
        below |= accounts[k].least < 0;
    }
    haft_out((uint64_t)sum);
    haft_out(below);
    haft_out(moves);
    return sum == 100 * ACCOUNTS && !below ? 0 : 1;
}
