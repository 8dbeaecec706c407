/*
 * A host in C, which is C++ too: the names of the header, document 01's worked
 * table, then every number that the exported functions return. It keeps its list in
 * both forms and makes each call on both; they must agree. Each call prints a line as
 * gaterun does: letter, plugin, number, answer, ISSUE, VALID; a line of another form
 * says what it shows.
 */
#include "slot_gate.h"

#include <stdio.h>
#include <stdlib.h>
#include <string.h>

#define MOST 8

/* The calls made so far. It is a global name of the host's own, which no archive may have. */
int next_line = 0;

struct host {
    struct slot_gate_words words;
    size_t length;
    uint8_t regions[MOST];
    uint8_t marks[MOST];
    uint16_t values[MOST];
    uint8_t colours[MOST];
    uint8_t slots[MOST];
    struct slot_gate_record records[MOST];
};

static int same_ticket(struct slot_gate_ticket a, struct slot_gate_ticket b)
{
    return a.value == b.value && a.colour == b.colour;
}

static int same_words(const struct slot_gate_words *a, const struct slot_gate_words *b)
{
    return a->year == b->year && a->n == b->n && a->k == b->k &&
           same_ticket(a->issue, b->issue) && same_ticket(a->valid, b->valid) &&
           memcmp(a->counts, b->counts, sizeof a->counts) == 0 &&
           memcmp(a->free, b->free, sizeof a->free) == 0;
}

static int same_shown(const struct slot_gate_shown *a, const struct slot_gate_shown *b)
{
    return a->number == b->number && a->kind == b->kind && a->yes == b->yes &&
           a->slot == b->slot && same_ticket(a->ticket, b->ticket) && a->place == b->place &&
           a->rule.number == b->rule.number && a->rule.of_ticket == b->rule.of_ticket &&
           a->rule.against == b->rule.against;
}

static int same_entry(const struct host *a, const struct host *b, size_t i)
{
    return a->regions[i] == b->regions[i] && a->marks[i] == b->marks[i] &&
           a->values[i] == b->values[i] && a->colours[i] == b->colours[i] &&
           a->slots[i] == b->slots[i];
}

static int same(const struct host *a, const struct host *b)
{
    size_t i;
    for (i = 0; i < MOST; i++) {
        if (!same_entry(a, b, i)) {
            return 0;
        }
    }
    return same_words(&a->words, &b->words) && a->length == b->length;
}

static void require(int holds, const char *what)
{
    if (!holds) {
        printf("line %d: %s\n", next_line, what);
        exit(1);
    }
}

/* The list in one form is that in the other. */
static void require_one_list(const struct host *h)
{
    size_t i;
    for (i = 0; i < MOST; i++) {
        const struct slot_gate_record *r = &h->records[i];
        require(r->region == h->regions[i] && r->mark == h->marks[i] &&
                    r->value == h->values[i] && r->colour == h->colours[i] &&
                    r->slot == h->slots[i],
                "the two forms leave different lists");
    }
}

static void require_one_told(const struct slot_gate_told *a, const struct slot_gate_told *b)
{
    require(same_words(&a->words, &b->words), "the two forms return different words");
    require(same_shown(&a->shown, &b->shown), "the two forms show different answers");
}

/* A refused open returns words that are all 0; the host keeps what it had. */
static int open_year(struct host *h, uint64_t year, uint64_t n, uint64_t k, size_t length)
{
    struct slot_gate_words none;
    struct slot_gate_told told =
        slot_gate_open(year, n, k, h->regions, length, h->marks, length, h->values, length,
                       h->colours, length, h->slots, length);
    struct slot_gate_told by_records = slot_gate_records_open(year, n, k, h->records, length);
    next_line++;
    require_one_told(&told, &by_records);
    require_one_list(h);
    memset(&none, 0, sizeof none);
    if (told.shown.number == SLOT_GATE_ACCEPTED) {
        require(told.shown.kind == SLOT_GATE_KIND_DONE, "an accepted open is done");
        require(told.words.year == year, "the words keep the year");
        h->words = told.words;
        h->length = length;
    } else {
        require(told.shown.kind == SLOT_GATE_KIND_REFUSED, "a refused open is refused");
        require(same_words(&told.words, &none), "a refused open returns no words");
    }
    return told.shown.number;
}

/* A gate of 1989, as gaterun opens it. */
static void open_with(struct host *h, uint64_t n, uint64_t k, size_t length)
{
    int number = open_year(h, SLOT_GATE_1989, n, k, length);
    printf("O %lu %lu %d\n", (unsigned long)n, (unsigned long)k, number);
}

/* A look's yes is by rule 1 or 3, its no by 2 or 4; no other call has a rule. */
static void require_right_rule(char letter, const struct slot_gate_shown *shown)
{
    const struct slot_gate_rule *rule = &shown->rule;
    if (letter != SLOT_GATE_LOOK || shown->number != SLOT_GATE_ACCEPTED) {
        require(rule->number == SLOT_GATE_RULE_NONE && rule->of_ticket == 0 && rule->against == 0,
                "only a look has a rule");
    } else if (shown->yes) {
        require(rule->number == SLOT_GATE_RULE_NOT_ABOVE || rule->number == SLOT_GATE_RULE_COUNTED,
                "a yes has the rule of a yes");
    } else {
        require(rule->number == SLOT_GATE_RULE_ABOVE || rule->number == SLOT_GATE_RULE_NOT_COUNTED,
                "a no has the rule of a no");
    }
}

static struct slot_gate_shown make_call(struct host *h, char letter, uint64_t p)
{
    struct slot_gate_told told = slot_gate_call(
        (uint8_t)letter, h->words, h->regions, h->length, h->marks, h->length, h->values,
        h->length, h->colours, h->length, h->slots, h->length, p);
    struct slot_gate_told by_records =
        slot_gate_records_call((uint8_t)letter, h->words, h->records, h->length, p);
    next_line++;
    require_one_told(&told, &by_records);
    require_one_list(h);
    require_right_rule(letter, &told.shown);
    h->words = told.words;
    return told.shown;
}

static void call(struct host *h, char letter, uint64_t p)
{
    struct slot_gate_shown shown = make_call(h, letter, p);
    printf("%c %lu %d ", letter, (unsigned long)p, shown.number);
    switch (shown.kind) {
    case SLOT_GATE_KIND_TICKET:
        printf("%d/%d", shown.ticket.value, shown.ticket.colour);
        break;
    case SLOT_GATE_KIND_YES_OR_NO:
        printf("%d", shown.yes);
        break;
    case SLOT_GATE_KIND_PLACE:
        printf("%d", shown.place);
        break;
    case SLOT_GATE_KIND_DONE:
    case SLOT_GATE_KIND_REFUSED:
        printf("-");
        break;
    default:
        printf("no kind");
    }
    printf(" %d/%d %d/%d\n", h->words.issue.value, h->words.issue.colour, h->words.valid.value,
           h->words.valid.colour);
}

/* A place of a gate that is only read is the place that the call answers. */
static void place(const struct host *h, uint64_t p)
{
    struct host copy = *h;
    struct slot_gate_shown shown =
        slot_gate_place(h->words, h->regions, h->length, h->marks, h->length, h->values,
                        h->length, h->colours, h->length, h->slots, h->length, p);
    struct slot_gate_shown called = make_call(&copy, SLOT_GATE_PLACE, p);
    require(same_shown(&shown, &called), "a place read and a place called differ");
    require(same(h, &copy), "a place changes nothing");
    printf("place of %lu: %d %d\n", (unsigned long)p, shown.number, shown.place);
}

static void alike(const char *what, const struct host *a, const struct host *b)
{
    struct slot_gate_shown shown = slot_gate_alike(
        a->words, a->regions, a->length, a->marks, a->length, a->values, a->length, a->colours,
        a->length, a->slots, a->length, b->words, b->regions, b->length, b->marks, b->length,
        b->values, b->length, b->colours, b->length, b->slots, b->length);
    struct slot_gate_shown by_records = slot_gate_records_alike(
        a->words, a->records, a->length, b->words, b->records, b->length);
    require(same_shown(&shown, &by_records), "the two forms compare differently");
    require(shown.slot == 0, "alike gives no slot");
    require(shown.rule.number == SLOT_GATE_RULE_NONE, "alike has no rule");
    printf("alike, %s: %d %d\n", what, shown.number, shown.yes);
}

static void names(void)
{
    static const int numbers[] = {
        SLOT_GATE_ACCEPTED, SLOT_GATE_OUT_OF_RANGE, SLOT_GATE_WRONG_LENGTH, SLOT_GATE_NOT_SOUND,
        SLOT_GATE_NO_SUCH_PLUGIN, SLOT_GATE_STOPPED, SLOT_GATE_WRONG_REGION, SLOT_GATE_NOT_STOPPED,
        SLOT_GATE_NO_SUCH_CALL, SLOT_GATE_NOT_YET_VALID, SLOT_GATE_TOO_MANY_SLOTS,
    };
    size_t i;
    printf("numbers");
    for (i = 0; i < sizeof numbers / sizeof numbers[0]; i++) {
        printf(" %d", numbers[i]);
    }
    printf("; regions %d %d %d; N to %d, k to %d, %d counts\n", SLOT_GATE_IDLE, SLOT_GATE_WAITING,
           SLOT_GATE_INSIDE, SLOT_GATE_MOST_PLUGINS, SLOT_GATE_MOST_SLOTS, SLOT_GATE_COLOURS);
}

static void worked_table(struct host *h)
{
    static const struct {
        char letter;
        uint64_t p;
    } calls[] = {
        {SLOT_GATE_TAKE, 1}, {SLOT_GATE_TAKE, 2}, {SLOT_GATE_LOOK, 2}, {SLOT_GATE_TAKE, 3},
        {SLOT_GATE_LOOK, 1}, {SLOT_GATE_LOOK, 3}, {SLOT_GATE_LEAVE, 1}, {SLOT_GATE_LOOK, 2},
        {SLOT_GATE_LEAVE, 2}, {SLOT_GATE_TAKE, 3}, {SLOT_GATE_LOOK, 3}, {SLOT_GATE_LEAVE, 3},
    };
    size_t i;
    open_with(h, 3, 1, 3);
    for (i = 0; i < sizeof calls / sizeof calls[0]; i++) {
        call(h, calls[i].letter, calls[i].p);
    }
}

static void print_record(const struct host *h, size_t p)
{
    printf("record %lu: region %d, mark %d, %d/%d, slot %d\n", (unsigned long)p,
           h->regions[p - 1], h->marks[p - 1], h->values[p - 1], h->colours[p - 1],
           h->slots[p - 1]);
}

static void print_free(const struct host *h)
{
    size_t i;
    printf("free");
    for (i = 0; i < SLOT_GATE_MOST_SLOTS && h->words.free[i] != 0; i++) {
        printf(" %d", h->words.free[i]);
    }
    printf("\n");
}

/* Plugin p takes a ticket, and its turn has come. */
static void enter(struct host *h, uint64_t p)
{
    struct slot_gate_shown shown;
    make_call(h, SLOT_GATE_TAKE, p);
    shown = make_call(h, SLOT_GATE_LOOK, p);
    require(shown.yes == 1, "a look is answered yes");
    require(shown.slot == h->slots[p - 1], "the slot given is the record's");
    printf("%lu enters: slot %d\n", (unsigned long)p, shown.slot);
}

/* The slot returned longest ago goes out first; a turn handed back returns none. */
static void slots(void)
{
    struct host h;
    memset(&h, 0, sizeof h);
    open_with(&h, 2, 3, 2);
    print_free(&h);
    enter(&h, 1);
    enter(&h, 2);
    print_free(&h);
    make_call(&h, SLOT_GATE_LEAVE, 1);
    make_call(&h, SLOT_GATE_LEAVE, 2);
    print_free(&h);
    enter(&h, 1);
    print_record(&h, 1);
    make_call(&h, SLOT_GATE_TAKE, 2);
    make_call(&h, SLOT_GATE_LEAVE, 2);
    print_record(&h, 2);
    print_free(&h);
}

/* A look, with its rule and what the rule carries. */
static void look(struct host *h, uint64_t p)
{
    struct slot_gate_shown shown = make_call(h, SLOT_GATE_LOOK, p);
    printf("%lu looks: %d, ", (unsigned long)p, shown.yes);
    switch (shown.rule.number) {
    case SLOT_GATE_RULE_NOT_ABOVE:
        printf("value %d not above %d\n", shown.rule.of_ticket, shown.rule.against);
        break;
    case SLOT_GATE_RULE_ABOVE:
        printf("value %d above %d\n", shown.rule.of_ticket, shown.rule.against);
        break;
    case SLOT_GATE_RULE_COUNTED:
        printf("colour %d counted %d\n", shown.rule.of_ticket, shown.rule.against);
        break;
    case SLOT_GATE_RULE_NOT_COUNTED:
        printf("colour %d not counted, %d\n", shown.rule.of_ticket, shown.rule.against);
        break;
    default:
        printf("no rule\n");
    }
}

/* Each of the four rules decides a look. */
static void rules(void)
{
    struct host h;
    memset(&h, 0, sizeof h);
    open_with(&h, 3, 3, 3);
    make_call(&h, SLOT_GATE_TAKE, 1);
    make_call(&h, SLOT_GATE_TAKE, 2);
    look(&h, 2);
    open_with(&h, 3, 1, 3);
    make_call(&h, SLOT_GATE_TAKE, 1);
    make_call(&h, SLOT_GATE_TAKE, 2);
    look(&h, 2);
    open_with(&h, 1, 2, 1);
    make_call(&h, SLOT_GATE_TAKE, 1);
    make_call(&h, SLOT_GATE_LEAVE, 1);
    make_call(&h, SLOT_GATE_TAKE, 1);
    look(&h, 1);
    open_with(&h, 2, 1, 2);
    make_call(&h, SLOT_GATE_TAKE, 1);
    make_call(&h, SLOT_GATE_TAKE, 2);
    look(&h, 2);
}

static void stops_and_places(struct host *h)
{
    open_with(h, 4, 1, 4);
    call(h, SLOT_GATE_TAKE, 3);
    call(h, SLOT_GATE_TAKE, 1);
    call(h, SLOT_GATE_TAKE, 2);
    call(h, SLOT_GATE_PLACE, 3);
    call(h, SLOT_GATE_PLACE, 1);
    call(h, SLOT_GATE_PLACE, 2);
    place(h, 2);
    place(h, 4);
    place(h, 5);
    call(h, SLOT_GATE_STOP, 3);
    call(h, SLOT_GATE_STOP, 3);
    call(h, SLOT_GATE_LOOK, 3);
    place(h, 3);
    print_record(h, 3);
    print_record(h, 4);
    call(h, SLOT_GATE_LEAVE, 3);
    call(h, SLOT_GATE_WAKE, 3);
    call(h, SLOT_GATE_WAKE, 3);
    call(h, SLOT_GATE_LOOK, 3);
    call(h, SLOT_GATE_TAKE, 3);
    call(h, SLOT_GATE_LEAVE, 1);
    call(h, SLOT_GATE_LEAVE, 4);
    call(h, SLOT_GATE_TAKE, 0);
    call(h, SLOT_GATE_TAKE, 5);
    print_record(h, 3);
}

static void not_right(const struct host *sound)
{
    struct host h = *sound;
    struct slot_gate_shown shown;
    h.length = 3;
    call(&h, SLOT_GATE_TAKE, 4);
    place(&h, 1);
    h = *sound;
    h.marks[3] = h.records[3].mark = 2;
    call(&h, SLOT_GATE_TAKE, 4);
    place(&h, 1);
    h = *sound;
    h.slots[3] = h.records[3].slot = 1;
    call(&h, SLOT_GATE_TAKE, 4);
    place(&h, 1);
    h = *sound;
    h.words.free[SLOT_GATE_MOST_SLOTS - 1] = 1;
    call(&h, SLOT_GATE_TAKE, 4);
    place(&h, 1);
    h = *sound;
    shown = make_call(&h, 'O', 4);
    printf("letter O: %d, kind %d, yes %d, slot %d, ticket %d/%d, place %d,", shown.number,
           shown.kind, shown.yes, shown.slot, shown.ticket.value, shown.ticket.colour, shown.place);
    printf(" %s\n", same(&h, sound) ? "nothing changed" : "changed");
    open_with(&h, SLOT_GATE_MOST_PLUGINS + 1, 1, 4);
    open_with(&h, 4, SLOT_GATE_MOST_SLOTS + 1, 4);
    open_with(&h, 4, SLOT_GATE_MOST_SLOTS, 3);
    printf("after refused opens: %s\n", same(&h, sound) ? "nothing changed" : "changed");
    open_with(&h, 4, SLOT_GATE_MOST_SLOTS, 4);
    printf("N %d, k %d, count of colour 0 %d, of colour 64 %d, free slots %d to %d\n", h.words.n,
           h.words.k, h.words.counts[0], h.words.counts[SLOT_GATE_COLOURS - 1], h.words.free[0],
           h.words.free[SLOT_GATE_MOST_SLOTS - 1]);
}

static void comparisons(const struct host *h)
{
    struct host other = *h;
    alike("one gate", h, h);
    other.length = 3;
    alike("a list too short", h, &other);
    other = *h;
    other.words.counts[0]++;
    alike("a count too many", &other, h);
    other = *h;
    call(&other, SLOT_GATE_STOP, 2);
    alike("one stopped", h, &other);
    call(&other, SLOT_GATE_WAKE, 2);
    alike("awake again", h, &other);
    call(&other, SLOT_GATE_LEAVE, 3);
    alike("one left", h, &other);
    /* Plugin 1 waits, and its turn has come: it hands it back. */
    call(&other, SLOT_GATE_LEAVE, 1);
    print_record(&other, 1);
}

static void open_named(struct host *h, uint64_t year, uint64_t n, uint64_t k, size_t length)
{
    int number = open_year(h, year, n, k, length);
    printf("open of %lu, N %lu, k %lu: %d\n", (unsigned long)year, (unsigned long)n,
           (unsigned long)k, number);
}

/* Both years: how they open, a run of 1979, and words of a wrong year. */
static void years(void)
{
    struct host h, late;
    memset(&h, 0, sizeof h);
    open_named(&h, 1990, 4, 4, 3);
    open_named(&h, SLOT_GATE_1979, 4, SLOT_GATE_MOST_SLOTS + 1, 3);
    open_named(&h, SLOT_GATE_1979, 4, 4, 3);
    open_named(&h, SLOT_GATE_1979, 4, 3, 3);
    open_named(&h, SLOT_GATE_1979, 4, 2, 4);
    late = h;
    open_named(&late, SLOT_GATE_1989, 4, 2, 4);
    alike("1979 and 1989", &h, &late);
    call(&h, SLOT_GATE_TAKE, 1);
    call(&h, SLOT_GATE_TAKE, 2);
    call(&h, SLOT_GATE_TAKE, 3);
    call(&h, SLOT_GATE_TAKE, 4);
    call(&h, SLOT_GATE_PLACE, 4);
    call(&h, SLOT_GATE_LOOK, 1);
    call(&h, SLOT_GATE_LEAVE, 1);
    call(&h, SLOT_GATE_LEAVE, 2);
    call(&h, SLOT_GATE_LOOK, 4);
    print_record(&h, 4);
    print_record(&h, 1);
    h.words.year = 1990;
    call(&h, SLOT_GATE_TAKE, 1);
    late.words.year = SLOT_GATE_1979;
    call(&late, SLOT_GATE_TAKE, 1);
}

int main(void)
{
    struct host h;
    memset(&h, 0, sizeof h);
    names();
    worked_table(&h);
    stops_and_places(&h);
    not_right(&h);
    comparisons(&h);
    slots();
    rules();
    years();
    return 0;
}
