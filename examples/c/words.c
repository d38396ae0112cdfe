/* A word count: three threads read a part of a text each, and count its words in one table with a lock for each slot.
 *
 *     tools/haft-cc examples/c/words.c > words.ll
 *     ./haft run words.ll examples/c/round_robin.sched
 *
 * A part begins after the word that the one before it ends in, so that each word is read once. Main sorts the table and puts it out: each
 * word as bytes, then its count.
 */
#include "haft.h"

#include <ctype.h>
#include <pthread.h>
#include <stddef.h>
#include <stdio.h>
#include <stdlib.h>
#include <string.h>

#define SLOTS 8
#define THREADS 3
#define LONGEST 12
#define MOST 32

static const char text[] =
    "One two three four, one two three; one two, one. Three threads read two or three words at one time, "
    "and four at one other time.";

struct word {
    struct word *next;
    unsigned count;
    char letters[LONGEST];
};

struct slot {
    pthread_mutex_t lock;
    struct word *words;
};

struct part {
    pthread_t thread;
    const char *at, *end;
};

static struct slot slots[SLOTS];
static struct part parts[THREADS];

static unsigned slot_of(const char *letters) {
    unsigned hash = 5381;
    for (; *letters; letters++)
        hash = hash * 33 + (unsigned char)*letters;
    return hash % SLOTS;
}

static void count(const char *letters) {
    struct slot *slot = &slots[slot_of(letters)];
    pthread_mutex_lock(&slot->lock);
    struct word *word = slot->words;
    while (word && strcmp(word->letters, letters) != 0)
        word = word->next;
    if (!word) {
        word = malloc(sizeof *word);
        if (!word)
            exit(1);
        strcpy(word->letters, letters);
        word->count = 0;
        word->next = slot->words;
        slot->words = word;
    }
    word->count++;
    pthread_mutex_unlock(&slot->lock);
}

static void *read_part(void *arg) {
    struct part *part = arg;
    const char *at = part->at;
    while (at < part->end) {
        char letters[LONGEST];
        int n = 0;
        while (isalpha((unsigned char)*at) && n < LONGEST - 1)
            letters[n++] = (char)tolower((unsigned char)*at++);
        letters[n] = 0;
        if (n > 0)
            count(letters);
        else
            at++;
    }
    return NULL;
}

/* Where a part may begin: not inside of a word. */
static const char *after_word(const char *at) {
    while (isalpha((unsigned char)*at))
        at++;
    return at;
}

static void put_sorted(void) {
    const struct word *all[MOST];
    int used = 0;
    for (int k = 0; k < SLOTS; k++)
        for (const struct word *word = slots[k].words; word && used < MOST; word = word->next) {
            int at = used++;
            for (; at > 0 && strcmp(all[at - 1]->letters, word->letters) > 0; at--)
                all[at] = all[at - 1];
            all[at] = word;
        }
    for (int k = 0; k < used; k++) {
        puts(all[k]->letters);
        haft_out(all[k]->count);
    }
}

int main(void) {
    const size_t size = sizeof text - 1;
    for (int k = 0; k < SLOTS; k++)
        pthread_mutex_init(&slots[k].lock, NULL);
    for (size_t k = 0; k < THREADS; k++) {
        parts[k].at = k == 0 ? text : parts[k - 1].end;
        parts[k].end = k + 1 < THREADS ? after_word(text + size * (k + 1) / THREADS) : text + size;
    }
    for (int k = 0; k < THREADS; k++)
        pthread_create(&parts[k].thread, NULL, read_part, &parts[k]);
    for (int k = 0; k < THREADS; k++)
        pthread_join(parts[k].thread, NULL);
    put_sorted();
    return 0;
}
