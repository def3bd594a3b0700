/* Rewrites a table whose definitions call themselves, builds its net, runs it from its initial marking, makes each
 * firing of the run again after a look at what it would leave, and reads the state back. What is a copy is shown with
 * the number in the table that it is a copy of.
 *
 *     run [TABLE-FILE [LIMIT [next]]]
 *
 * A table file has 16-bit words, low byte first. With no file it is table E, a new name sent from one thread to
 * another; the limit is 5 firings unless it is given. With `next` it prints before each firing, and at the end, how
 * many transitions are enabled and the lowest of them. Ends with 1 where the library refuses, with 2 where the program
 * cannot do what it was asked. */
#include "dekohuna.h"

#include <inttypes.h>
#include <stdio.h>
#include <stdlib.h>
#include <string.h>

static const uint16_t table_e[48] = {
    1, 2, 2, 2, 5, 2, 0, 13, 15, 23, 25, 40, 48,     /* counts and offsets */
    0, 1,                                            /* names */
    0, 0, 0, 0, 1, 3, 0, 0,                          /* definitions */
    0, 1,                                            /* threads */
    2, 1, 1, 1, 0, 1, 0, 0, 0, 1, 1, 1, 0, 0, 0,     /* nodes */
    1, 0, 1, 2, 2, 0, 2, 4,                          /* branches */
};

struct table {
    const uint16_t *words;
    size_t count;
};

struct image {
    uint32_t *words;
    size_t count;
};

static void fail(const char *what) {
    fprintf(stderr, "run: %s\n", what);
    exit(2);
}

/* Room for some elements, at least one, so that no pointer is null. */
static void *room(size_t count, size_t size) {
    void *space = calloc(count == 0 ? 1 : count, size);
    if (space == NULL)
        fail("no memory");
    return space;
}

/* The value of a word; ends the program where the call was refused. */
static size_t accepted(uint64_t word) {
    if (DEKOHUNA_CODE(word) != DEKOHUNA_DONE) {
        printf("refused: cause %u\n", DEKOHUNA_CODE(word));
        exit(1);
    }
    return (size_t)DEKOHUNA_VALUE(word);
}

/* The words of a file. A table has fewer than 4,096: more are cut off, and the library refuses what is left. */
static struct table read_table(const char *path) {
    static uint8_t bytes[8192];
    static uint16_t words[4096];
    FILE *file = fopen(path, "rb");
    if (file == NULL)
        fail("the table cannot be opened");
    size_t length = fread(bytes, 1, sizeof bytes, file);
    if (ferror(file) || length % 2 != 0)
        fail("the table cannot be read as 16-bit words");
    fclose(file);
    for (size_t i = 0; i < length / 2; i++)
        words[i] = (uint16_t)(bytes[2 * i] | bytes[2 * i + 1] << 8);
    struct table table = {words, length / 2};
    return table;
}

/* The table in which no definition calls itself; one that is so already is rewritten to itself. */
static struct table rewrite(struct table table) {
    static uint16_t words[2229]; /* the longest table */
    struct table rewritten = {words, accepted(dekohuna_rewrite(table.words, table.count, words, 2229))};
    return rewritten;
}

/* The image of a table, in a buffer of just its size. */
static struct image build(struct table table) {
    size_t words = accepted(dekohuna_size(table.words, table.count));
    struct image image = {room(words, sizeof(uint32_t)), words};
    accepted(dekohuna_build(table.words, table.count, image.words, image.count));
    return image;
}

/* A number of the rewritten table behind a text, and, of a copy, the number that it is a copy of. */
static void print_number(const char *text, uint32_t number, uint64_t original) {
    size_t first = accepted(original);
    printf("%s%" PRIu32, text, number);
    if (first != number)
        printf(" (copy of %zu)", first);
}

static void print_node(const char *text, struct table table, uint32_t node) {
    print_number(text, node, dekohuna_original_node(table.words, table.count, node));
}

static void print_branch(const char *text, struct table table, uint32_t branch) {
    print_number(text, branch, dekohuna_original_branch(table.words, table.count, branch));
}

static void print_name(const char *text, struct table table, uint32_t name) {
    print_number(text, name, dekohuna_original_name(table.words, table.count, name));
}

/* What a label says, by the table that was rewritten. */
static void print_label(struct table table, uint32_t kind, uint32_t a, uint32_t b) {
    static const char *names[3] = {" copies a value to formal ", " releases name ", " makes a new value for name "};
    if (kind == 3 || kind == 4)
        print_branch("branch ", table, a);
    else
        print_node("node ", table, a);
    if (kind == 3)
        printf(" goes on silently");
    else if (kind == 4)
        print_branch(" sends to branch ", table, b);
    else if (kind < 3)
        print_name(names[kind], table, b);
    else
        printf(" calls its definition");
}

/* A firing, by its label. */
static void print_firing(struct table table, struct image image, uint32_t number) {
    const uint32_t *label = image.words + image.words[6] + 6 * (size_t)number;
    printf("fired %" PRIu32 " (%" PRIu32 " %" PRIu32 " %" PRIu32 "): ", number, label[0], label[1], label[2]);
    print_label(table, label[0], label[1], label[2]);
    printf("\n");
}

/* How many transitions are enabled, and the lowest of them. */
static void print_next(const uint64_t *enabled, size_t words) {
    uint64_t lowest = dekohuna_summary_lowest(enabled, words);
    printf("can be done next: %zu", accepted(dekohuna_summary_number(enabled, words)));
    if (DEKOHUNA_CODE(lowest) == DEKOHUNA_DONE)
        printf(", the lowest is %" PRIu64, DEKOHUNA_VALUE(lowest));
    printf("\n");
}

/* Makes the firings of a history once more, each after a look at what it would leave, and prints them. A summary beside
 * the marking tells what can be done next, which is printed if it is asked for. */
static void fire_again(struct table table, struct image image, const uint32_t *history, size_t firings, int next_too) {
    size_t places = image.words[0], transitions = image.words[1], words = (transitions + 63) / 64;
    uint8_t *marking = room(places, 1), *next = room(places, 1);
    uint32_t *counts = room(transitions, sizeof(uint32_t));
    uint64_t *enabled = room(words, sizeof(uint64_t));
    accepted(dekohuna_replay(image.words, image.count, marking, places, history, 0));
    accepted(dekohuna_summary_make(image.words, image.count, marking, places, counts, transitions, enabled, words));
    for (size_t i = 0; i < firings; i++) {
        if (next_too)
            print_next(enabled, words);
        if ((enabled[history[i] / 64] >> (history[i] % 64) & 1) == 0)
            fail("the run fired a transition that the set has not");
        accepted(dekohuna_look(image.words, image.count, marking, places, history[i], next, places));
        accepted(dekohuna_summary_fire(image.words, image.count, marking, places, counts, transitions, enabled, words,
                                       history[i]));
        if (memcmp(marking, next, places) != 0)
            fail("a firing leaves another marking than the look showed");
        print_firing(table, image, history[i]);
    }
    if (next_too)
        print_next(enabled, words);
    accepted(dekohuna_summary_check(image.words, image.count, marking, places, counts, transitions, enabled, words));
    free(enabled);
    free(counts);
    free(next);
    free(marking);
}

static const char *reason(unsigned code) {
    switch (code) {
    case DEKOHUNA_LIMIT_REACHED: return "limit reached";
    case DEKOHUNA_HISTORY_FULL: return "history full";
    case DEKOHUNA_NOTHING_ENABLED: return "nothing enabled";
    default: return "stopped by a cause";
    }
}

/* The node of each thread, then the value of each bound name; of a state of so many words. */
static void print_state(struct table table, const uint16_t *state, size_t words) {
    size_t publics = table.words[0], threads = table.words[3];
    for (size_t t = 0; t < threads; t++) {
        printf("thread %zu stands at", t);
        print_node(" node ", table, state[t]);
        printf("\n");
    }
    for (size_t i = threads; i < words; i++) {
        print_name("name ", table, (uint32_t)(publics + i - threads));
        if (state[i] == 65535)
            printf(" is not held\n");
        else
            printf(" has the %s value %u\n", state[i] < publics ? "public" : "private", state[i]);
    }
}

static void run(struct table own, uint64_t limit, int next_too) {
    struct table table = rewrite(own);
    struct image image = build(table);
    printf("table of %zu words: net of %" PRIu32 " places and %" PRIu32 " transitions in %zu words\n", table.count,
           image.words[0], image.words[1], image.count);

    size_t places = image.words[0];
    uint8_t *marking = room(places, 1);
    uint32_t *history = room((size_t)limit, sizeof(uint32_t));
    accepted(dekohuna_replay(image.words, image.count, marking, places, history, 0));
    uint64_t word = dekohuna_run(image.words, image.count, marking, places, limit, history, (size_t)limit);
    size_t firings = (size_t)DEKOHUNA_VALUE(word);
    fire_again(own, image, history, firings, next_too);
    printf("firings made: %zu, %s (%u)\n", firings, reason(DEKOHUNA_CODE(word)), DEKOHUNA_CODE(word));

    uint16_t state[40]; /* at most 8 threads and 32 bound names */
    size_t words = accepted(dekohuna_read(table.words, table.count, marking, places, state, 40));
    print_state(own, state, words);
    free(history);
    free(marking);
    free(image.words);
}

int main(int argc, char **argv) {
    int next_too = argc == 4 && strcmp(argv[3], "next") == 0;
    if (argc > 3 && !next_too)
        fail("usage: run [TABLE-FILE [LIMIT [next]]]");
    uint64_t limit = 5;
    if (argc > 2) {
        char *end;
        limit = strtoull(argv[2], &end, 10);
        if (*end != '\0' || argv[2][0] < '0' || argv[2][0] > '9' || limit > 10000000)
            fail("the limit is a number up to 10000000");
    }
    struct table table = {table_e, 48};
    if (argc > 1)
        table = read_table(argv[1]);
    run(table, limit, next_too);
    return 0;
}
