/*
 * A host of the numbered gate in C, which is C++ too: document 01's worked table, every
 * number that its functions return, and the end of the counters. Each call prints a line as
 * gaterun does: letter, plugin, number, answer, ISSUE, VALID.
 */
#include "slot_gate.h"

#include <stdio.h>
#include <stdlib.h>
#include <string.h>

#define MOST 4

struct host {
    struct numbered_gate_words words;
    size_t length;
    uint8_t regions[MOST];
    uint8_t marks[MOST];
    uint64_t tickets[MOST];
};

static void require(int holds, const char *what)
{
    if (!holds) {
        printf("%s\n", what);
        exit(1);
    }
}

static int same_words(const struct numbered_gate_words *a, const struct numbered_gate_words *b)
{
    return a->n == b->n && a->k == b->k && a->issue == b->issue && a->valid == b->valid;
}

static int same(const struct host *a, const struct host *b)
{
    return same_words(&a->words, &b->words) &&
           memcmp(a->regions, b->regions, sizeof a->regions) == 0 &&
           memcmp(a->marks, b->marks, sizeof a->marks) == 0 &&
           memcmp(a->tickets, b->tickets, sizeof a->tickets) == 0;
}

/* A refused open returns words that are all 0; the host keeps what it had. */
static void open_with(struct host *h, uint64_t n, uint64_t k, size_t length)
{
    struct host before = *h;
    struct numbered_gate_words none;
    struct numbered_gate_told told = numbered_gate_open(n, k, h->regions, length, h->marks, length,
                                                        h->tickets, length);
    memset(&none, 0, sizeof none);
    printf("O %lu %lu %d\n", (unsigned long)n, (unsigned long)k, told.shown.number);
    if (told.shown.number == SLOT_GATE_ACCEPTED) {
        h->words = told.words;
        h->length = length;
    } else {
        require(same_words(&told.words, &none), "a refused open returns no words");
        require(same(h, &before), "a refused open changes nothing");
    }
}

/* What the kind does not have is 0. */
static void print_answer(const struct numbered_gate_shown *shown)
{
    require(shown->kind == SLOT_GATE_KIND_TICKET || shown->ticket == 0, "only a take has a ticket");
    require(shown->kind == SLOT_GATE_KIND_YES_OR_NO || shown->yes == 0, "only a look has a yes");
    require(shown->kind == SLOT_GATE_KIND_PLACE || shown->place == 0, "only a place has a place");
    require((shown->kind == SLOT_GATE_KIND_REFUSED) == (shown->number != SLOT_GATE_ACCEPTED),
            "only a refusal has a number");
    switch (shown->kind) {
    case SLOT_GATE_KIND_TICKET:
        printf("%llu", (unsigned long long)shown->ticket);
        break;
    case SLOT_GATE_KIND_YES_OR_NO:
        printf("%d", shown->yes);
        break;
    case SLOT_GATE_KIND_PLACE:
        printf("%llu", (unsigned long long)shown->place);
        break;
    default:
        printf("-");
    }
}

/* A place is the same on a list that is only read. */
static void require_same_place(const struct host *h, uint64_t p,
                               const struct numbered_gate_shown *shown)
{
    struct numbered_gate_shown place = numbered_gate_place(
        h->words, h->regions, h->length, h->marks, h->length, h->tickets, h->length, p);
    require(place.number == shown->number && place.kind == shown->kind &&
                place.yes == shown->yes && place.ticket == shown->ticket &&
                place.place == shown->place,
            "a place is one place");
}

static void call(struct host *h, char letter, uint64_t p)
{
    struct host before = *h;
    struct numbered_gate_told told =
        numbered_gate_call((uint8_t)letter, h->words, h->regions, h->length, h->marks, h->length,
                           h->tickets, h->length, p);
    h->words = told.words;
    printf("%c %lu %d ", letter, (unsigned long)p, told.shown.number);
    print_answer(&told.shown);
    printf(" %llu %llu\n", (unsigned long long)h->words.issue, (unsigned long long)h->words.valid);
    if (told.shown.number != SLOT_GATE_ACCEPTED) {
        require(same(h, &before), "a refusal changes nothing");
    }
    if (letter == SLOT_GATE_PLACE) {
        require_same_place(h, p, &told.shown);
    }
}

/* The calls of a text: a letter and a plugin number of one digit each, as `T1 L1`. */
static void calls(struct host *h, const char *text)
{
    while (*text != '\0') {
        call(h, text[0], (uint64_t)(text[1] - '0'));
        text += text[2] == ' ' ? 3 : 2;
    }
}

static void record(struct host *h, size_t i, uint8_t region, uint64_t ticket)
{
    h->regions[i] = region;
    h->marks[i] = 0;
    h->tickets[i] = ticket;
}

int main(void)
{
    const uint64_t last = UINT64_MAX;
    struct host h;
    memset(&h, 0, sizeof h);
    open_with(&h, 3, 1, 3);
    calls(&h, "T1 T2 L2 T3 L1 L3 B1 L2 B2 T3 L3 B3");
    open_with(&h, SLOT_GATE_MOST_PLUGINS + 1, 1, 3);
    open_with(&h, 4, SLOT_GATE_MOST_SLOTS + 1, 3);
    open_with(&h, 4, SLOT_GATE_MOST_SLOTS, 3);
    open_with(&h, 4, 1, 4);
    calls(&h, "T3 T1 P3 P1 T0 T5 T3 B1 S1 S1 L1 W1 W1 L4 X1");
    h.words.issue++;
    call(&h, SLOT_GATE_TAKE, 4);
    h.words.issue--;
    h.length--;
    call(&h, SLOT_GATE_TAKE, 4);
    /* Plugin 1 is inside with the last ticket but one, and plugin 2 is idle. */
    memset(&h, 0, sizeof h);
    h.words.n = 2;
    h.words.k = 1;
    h.words.issue = h.words.valid = last - 1;
    h.length = 2;
    record(&h, 0, SLOT_GATE_INSIDE, last - 1);
    record(&h, 1, SLOT_GATE_IDLE, 0);
    calls(&h, "T2 B1 T1 B2 B1 T2 L2");
    require(SLOT_GATE_COUNTER_AT_END == 11, "the number of a counter at its end");
    return 0;
}
