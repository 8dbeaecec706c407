/*
 * The proved slot gate for C and C++: k identical slots shared among N plugins,
 * first come, first served.
 *
 * The host keeps the gate words (struct slot_gate_words) and the plugin list, and
 * lends both to each call: the words by value, the list to be changed in place. A
 * call returns the words to keep and what it answers. The list has one of two
 * forms, and each has an archive of its own, which `rt lib` writes in its crate's folder:
 *
 *   five arrays of numbers       crates/gate_c/out/libgate_c.a
 *   one array of records         crates/records_c/out/librecords_c.a
 *
 * The numbered gate, at the end of this file, has the archive
 * crates/numbered_gate_c/out/libnumbered_gate_c.a. It is the readable gate that the slot gate
 * is proved to answer like.
 *
 * Plugin p has its entry at p - 1. Of the five arrays each has a length of its
 * own, in entries; such a list is right when all five are N.
 *
 * Slots are numbered 1 to k. A look that is answered yes gives the plugin the slot
 * that was returned longest ago; at opening all are free, in rising order. A leave
 * from inside returns the slot; a turn handed back returns none.
 *
 * A gate is of 1979 or of 1989, and the words keep the year. It says how the tickets
 * are numbered, and nothing else: in a gate of 1989 the values of a colour begin with
 * 0, and there is one more of them than the larger of k and N - k; in one of 1979 they
 * are 1 to N, and k must be below N.
 *
 * A look's yes or no is shown with the rule that decided it, which carries the ticket's
 * value and VALID's, or the ticket's colour and its count.
 *
 * A refused call (shown.number is not 0) changes no entry of the list and returns
 * the words that it was given; a refused open returns words that are all 0, and the
 * host keeps what it had. The numbers lent may be any: words and lists that are not
 * sound are refused and do no harm.
 *
 * What the functions rely on: no pointer is null, also where a length is 0; each
 * array has at least the length that is given; what a function changes does not
 * overlap anything else that it is lent; and one gate is called by one caller at a
 * time.
 */
#ifndef SLOT_GATE_H
#define SLOT_GATE_H

#include <stddef.h>
#include <stdint.h>

#define SLOT_GATE_MOST_PLUGINS 1024
#define SLOT_GATE_MOST_SLOTS 64
#define SLOT_GATE_COLOURS 65

/* The years. */
#define SLOT_GATE_1979 1979
#define SLOT_GATE_1989 1989

/* Numbers: of an accepted call, and of each refusal. */
#define SLOT_GATE_ACCEPTED 0
#define SLOT_GATE_OUT_OF_RANGE 1    /* open: N is not 1 to 1,024, k not 1 to 64, or no such year */
#define SLOT_GATE_WRONG_LENGTH 2    /* the list's length is not N */
#define SLOT_GATE_NOT_SOUND 3       /* words and list are not sound */
#define SLOT_GATE_NO_SUCH_PLUGIN 4  /* the plugin number is 0 or above N */
#define SLOT_GATE_STOPPED 5         /* the plugin is stopped */
#define SLOT_GATE_WRONG_REGION 6    /* take: not idle; look, place: not waiting; leave: idle */
#define SLOT_GATE_NOT_STOPPED 7     /* wake: the plugin is not stopped */
#define SLOT_GATE_NO_SUCH_CALL 8    /* the letter names no call */
#define SLOT_GATE_NOT_YET_VALID 9   /* leave: the plugin waits, and its ticket is not valid */
#define SLOT_GATE_TOO_MANY_SLOTS 10 /* open: the year is 1979, and k is not below N */
#define SLOT_GATE_COUNTER_AT_END 11 /* numbered gate, take and leave: no number is greater */

/* Letters of the calls that name a plugin. */
#define SLOT_GATE_TAKE 'T'  /* an idle plugin takes a ticket and waits */
#define SLOT_GATE_LOOK 'L'  /* a waiting plugin looks whether it may go in; yes gives it a slot */
#define SLOT_GATE_LEAVE 'B' /* a plugin leaves, or hands back the turn that has come; it is idle */
#define SLOT_GATE_PLACE 'P' /* how many returns a waiting plugin still waits for */
#define SLOT_GATE_STOP 'S'  /* stops a plugin; it keeps its region and its ticket */
#define SLOT_GATE_WAKE 'W'  /* wakes a stopped plugin */

/* Regions of a plugin. */
#define SLOT_GATE_IDLE 0
#define SLOT_GATE_WAITING 1
#define SLOT_GATE_INSIDE 2

/* Kinds of what is shown. */
#define SLOT_GATE_KIND_TICKET 0    /* take */
#define SLOT_GATE_KIND_YES_OR_NO 1 /* look, alike */
#define SLOT_GATE_KIND_PLACE 2     /* place */
#define SLOT_GATE_KIND_DONE 3      /* open, leave, stop, wake */
#define SLOT_GATE_KIND_REFUSED 4   /* refused: nothing but the number is shown */

/* Rules by which a look is answered: just one applies to a ticket. */
#define SLOT_GATE_RULE_NONE 0        /* no look was answered */
#define SLOT_GATE_RULE_NOT_ABOVE 1   /* yes: VALID's colour, and not above VALID's value */
#define SLOT_GATE_RULE_ABOVE 2       /* no: VALID's colour, and above VALID's value */
#define SLOT_GATE_RULE_COUNTED 3     /* yes: another colour, which is counted */
#define SLOT_GATE_RULE_NOT_COUNTED 4 /* no: another colour, which is not counted */

/* A ticket: a place inside a block, and the block. */
struct slot_gate_ticket {
    uint16_t value;
    uint8_t colour;
};

/* The gate words. */
struct slot_gate_words {
    uint16_t year; /* SLOT_GATE_1979 or SLOT_GATE_1989 */
    uint16_t n;    /* the number of plugins */
    uint8_t k;     /* the number of slots */
    struct slot_gate_ticket issue; /* the ticket last handed out */
    struct slot_gate_ticket valid; /* the ticket last made valid */
    uint8_t counts[SLOT_GATE_COLOURS]; /* a count for each of the colours 0 to 64 */
    uint8_t free[SLOT_GATE_MOST_SLOTS]; /* the free slots in order, 0 after the last */
};

/* A plugin's record, of a list that is one array. */
struct slot_gate_record {
    uint8_t region; /* SLOT_GATE_IDLE, SLOT_GATE_WAITING or SLOT_GATE_INSIDE */
    uint8_t mark;   /* 1 for a stopped plugin, else 0 */
    uint16_t value; /* the ticket that the plugin holds, 0 and 0 when it is idle */
    uint8_t colour;
    uint8_t slot; /* the slot that the plugin has, 0 unless it is inside */
};

/* The rule that decided a look. Where no look was answered all is 0. */
struct slot_gate_rule {
    uint8_t number; /* SLOT_GATE_RULE_NONE, or the rule */
    uint16_t of_ticket; /* rules 1 and 2: the ticket's value; 3 and 4: its colour */
    uint16_t against;   /* rules 1 and 2: VALID's value; 3 and 4: the colour's count */
};

/* What a call shows. What its kind does not have is 0. */
struct slot_gate_shown {
    uint8_t number; /* SLOT_GATE_ACCEPTED, or why the call was refused */
    uint8_t kind;   /* which of the following there is */
    uint8_t yes;    /* look: 1 when the plugin is now inside; alike: 1 when they are */
    uint8_t slot;   /* look: the slot that a yes gave */
    struct slot_gate_ticket ticket; /* take: the plugin's ticket */
    uint16_t place; /* place: the returns until the ticket is valid */
    struct slot_gate_rule rule; /* look: the rule that decided it */
};

/* What a call returns that may change the words: those to keep, and what it shows. */
struct slot_gate_told {
    struct slot_gate_words words;
    struct slot_gate_shown shown;
};

/* The words of a numbered gate. */
struct numbered_gate_words {
    uint16_t n; /* the number of plugins */
    uint8_t k;  /* the number of plugins that may be inside */
    uint64_t issue; /* the ticket last handed out */
    uint64_t valid; /* the ticket last made valid */
};

/* What a call of a numbered gate shows. What its kind does not have is 0. */
struct numbered_gate_shown {
    uint8_t number; /* SLOT_GATE_ACCEPTED, or why the call was refused */
    uint8_t kind;   /* which of the following there is: SLOT_GATE_KIND_TICKET, .. */
    uint8_t yes;    /* look: 1 when the plugin is now inside */
    uint64_t ticket; /* take: the plugin's ticket */
    uint64_t place;  /* place: the returns until the ticket is valid */
};

/* What a call of a numbered gate returns: the words to keep, and what it shows. */
struct numbered_gate_told {
    struct numbered_gate_words words;
    struct numbered_gate_shown shown;
};

/* The layouts that the archives have. */
#if defined(__cplusplus)
#define SLOT_GATE_HOLDS(what) static_assert(what, "the archives have another layout");
#elif defined(__STDC_VERSION__) && __STDC_VERSION__ >= 201112L
#define SLOT_GATE_HOLDS(what) _Static_assert(what, "the archives have another layout");
#else
#define SLOT_GATE_HOLDS(what)
#endif
#define SLOT_GATE_SIZE(type, size) SLOT_GATE_HOLDS(sizeof(struct type) == (size))
#define SLOT_GATE_AT(type, field, offset) SLOT_GATE_HOLDS(offsetof(struct type, field) == (offset))

SLOT_GATE_SIZE(slot_gate_ticket, 4)
SLOT_GATE_AT(slot_gate_ticket, value, 0)
SLOT_GATE_AT(slot_gate_ticket, colour, 2)
SLOT_GATE_SIZE(slot_gate_words, 144)
SLOT_GATE_AT(slot_gate_words, year, 0)
SLOT_GATE_AT(slot_gate_words, n, 2)
SLOT_GATE_AT(slot_gate_words, k, 4)
SLOT_GATE_AT(slot_gate_words, issue, 6)
SLOT_GATE_AT(slot_gate_words, valid, 10)
SLOT_GATE_AT(slot_gate_words, counts, 14)
SLOT_GATE_AT(slot_gate_words, free, 79)
SLOT_GATE_SIZE(slot_gate_record, 6)
SLOT_GATE_AT(slot_gate_record, region, 0)
SLOT_GATE_AT(slot_gate_record, mark, 1)
SLOT_GATE_AT(slot_gate_record, value, 2)
SLOT_GATE_AT(slot_gate_record, colour, 4)
SLOT_GATE_AT(slot_gate_record, slot, 5)
SLOT_GATE_SIZE(slot_gate_rule, 6)
SLOT_GATE_AT(slot_gate_rule, number, 0)
SLOT_GATE_AT(slot_gate_rule, of_ticket, 2)
SLOT_GATE_AT(slot_gate_rule, against, 4)
SLOT_GATE_SIZE(slot_gate_shown, 16)
SLOT_GATE_AT(slot_gate_shown, number, 0)
SLOT_GATE_AT(slot_gate_shown, kind, 1)
SLOT_GATE_AT(slot_gate_shown, yes, 2)
SLOT_GATE_AT(slot_gate_shown, slot, 3)
SLOT_GATE_AT(slot_gate_shown, ticket, 4)
SLOT_GATE_AT(slot_gate_shown, place, 8)
SLOT_GATE_AT(slot_gate_shown, rule, 10)
SLOT_GATE_SIZE(slot_gate_told, 160)
SLOT_GATE_AT(slot_gate_told, words, 0)
SLOT_GATE_AT(slot_gate_told, shown, 144)
SLOT_GATE_SIZE(numbered_gate_words, 24)
SLOT_GATE_AT(numbered_gate_words, n, 0)
SLOT_GATE_AT(numbered_gate_words, k, 2)
SLOT_GATE_AT(numbered_gate_words, issue, 8)
SLOT_GATE_AT(numbered_gate_words, valid, 16)
SLOT_GATE_SIZE(numbered_gate_shown, 24)
SLOT_GATE_AT(numbered_gate_shown, number, 0)
SLOT_GATE_AT(numbered_gate_shown, kind, 1)
SLOT_GATE_AT(numbered_gate_shown, yes, 2)
SLOT_GATE_AT(numbered_gate_shown, ticket, 8)
SLOT_GATE_AT(numbered_gate_shown, place, 16)
SLOT_GATE_SIZE(numbered_gate_told, 48)
SLOT_GATE_AT(numbered_gate_told, words, 0)
SLOT_GATE_AT(numbered_gate_told, shown, 24)

#undef SLOT_GATE_AT
#undef SLOT_GATE_SIZE
#undef SLOT_GATE_HOLDS

#ifdef __cplusplus
extern "C" {
#endif

/*
 * Open: a gate of a year, with k slots for n plugins. All slots are free; all entries
 * of the list become idle and unmarked, whatever they held. Its number is 0, 1, 10 or
 * 2, the first of these that applies.
 */
struct slot_gate_told slot_gate_open(
    uint64_t year, uint64_t n, uint64_t k,
    uint8_t *regions, size_t regions_length,
    uint8_t *marks, size_t marks_length,
    uint16_t *values, size_t values_length,
    uint8_t *colours, size_t colours_length,
    uint8_t *slots, size_t slots_length);

/*
 * Take, look, leave, place, stop or wake, by its letter, of plugin p. Its number is
 * 0, 2 to 7 or 9, and 8 for any other letter.
 */
struct slot_gate_told slot_gate_call(
    uint8_t letter, struct slot_gate_words words,
    uint8_t *regions, size_t regions_length,
    uint8_t *marks, size_t marks_length,
    uint16_t *values, size_t values_length,
    uint8_t *colours, size_t colours_length,
    uint8_t *slots, size_t slots_length,
    uint64_t p);

/* Place, on a list that is only read. Its number is 0 or 2 to 6. */
struct slot_gate_shown slot_gate_place(
    struct slot_gate_words words,
    const uint8_t *regions, size_t regions_length,
    const uint8_t *marks, size_t marks_length,
    const uint16_t *values, size_t values_length,
    const uint8_t *colours, size_t colours_length,
    const uint8_t *slots, size_t slots_length,
    uint64_t p);

/*
 * Alike: yes when both gates have the same N and k, each plugin the same region and
 * stop mark in both, each that holds a ticket the same validity, and the tickets not
 * yet valid the same order; the years may differ. Then the same calls give the same
 * numbers, yes or no and places from both, and leave them alike. Its number is 0, 2 or
 * 3. Both gates are only read and may be one and the same.
 */
struct slot_gate_shown slot_gate_alike(
    struct slot_gate_words first,
    const uint8_t *regions, size_t regions_length,
    const uint8_t *marks, size_t marks_length,
    const uint16_t *values, size_t values_length,
    const uint8_t *colours, size_t colours_length,
    const uint8_t *slots, size_t slots_length,
    struct slot_gate_words second,
    const uint8_t *regions2, size_t regions_length2,
    const uint8_t *marks2, size_t marks_length2,
    const uint16_t *values2, size_t values_length2,
    const uint8_t *colours2, size_t colours_length2,
    const uint8_t *slots2, size_t slots_length2);

/* The same over a list that is one array of records. */

struct slot_gate_told slot_gate_records_open(
    uint64_t year, uint64_t n, uint64_t k, struct slot_gate_record *list, size_t length);

struct slot_gate_told slot_gate_records_call(
    uint8_t letter, struct slot_gate_words words, struct slot_gate_record *list, size_t length,
    uint64_t p);

struct slot_gate_shown slot_gate_records_alike(
    struct slot_gate_words first, const struct slot_gate_record *list, size_t length,
    struct slot_gate_words second, const struct slot_gate_record *list2, size_t length2);

/*
 * The numbered gate: tickets are numbers, a take adds 1 to ISSUE, a leave adds 1 to VALID,
 * and a ticket is valid when it is not above VALID. Given the same open and calls it gives
 * the numbers, yes or no and places of a gate of 1989. Its list is three arrays; it has no
 * slots and no rules.
 */

/* Open: k of n plugins may be inside. Its number is 0, 1 or 2. */
struct numbered_gate_told numbered_gate_open(
    uint64_t n, uint64_t k,
    uint8_t *regions, size_t regions_length,
    uint8_t *marks, size_t marks_length,
    uint64_t *tickets, size_t tickets_length);

/*
 * Take, look, leave, place, stop or wake, by its letter, of plugin p. Its number is 0, 2 to
 * 7, 9 or, last in take and leave, 11; and 8 for any other letter.
 */
struct numbered_gate_told numbered_gate_call(
    uint8_t letter, struct numbered_gate_words words,
    uint8_t *regions, size_t regions_length,
    uint8_t *marks, size_t marks_length,
    uint64_t *tickets, size_t tickets_length,
    uint64_t p);

/* Place, on a list that is only read. Its number is 0 or 2 to 6. */
struct numbered_gate_shown numbered_gate_place(
    struct numbered_gate_words words,
    const uint8_t *regions, size_t regions_length,
    const uint8_t *marks, size_t marks_length,
    const uint64_t *tickets, size_t tickets_length,
    uint64_t p);

#ifdef __cplusplus
}
#endif

#endif
