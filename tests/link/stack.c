/* How much stack each entry touches. A thread paints all that is below its stack pointer, calls the entry, and looks how far down the paint
 * is gone. Asked are a full book with a clock change and events inside the window, one without clock changes, none, and books, queries,
 * rows and rooms that are refused; the most of all answered and of all refused calls is told. */
#define _XOPEN_SOURCE 700
#include "../../include/market_time.h"

#include <pthread.h>
#include <stdio.h>
#include <stdlib.h>
#include <string.h>

#define SIZE (1 << 20)
#define PAINT 0xa5

#define MONDAY 1767571200
#define SECOND 1000000000ll

typedef struct {
    uint8_t bytes[65536];
    size_t used;
} buffer;

static buffer full, without_changes, cut_short, empty, row, bad_row, rows, bad_rows, no_rows;
static uint8_t room[1 << 22];

static void put(buffer *b, uint64_t value, int bytes) {
    for (int i = 0; i < bytes; i++) b->bytes[b->used++] = (uint8_t)(value >> (8 * i));
}

/* 256 rules of 16 points and 32 events of 8 times, all for 2026; 640 clock changes, three days apart, one of them on that Monday at 10:00. */
static void make(buffer *b, bool changes) {
    put(b, 22, 2), put(b, 1, 2), put(b, 1767225600 * SECOND, 8), put(b, 1798761600 * SECOND, 8), put(b, 0, 4);
    for (int i = 0; changes && i < 640; i++) {
        put(b, 14, 2), put(b, 2, 2), put(b, (uint64_t)(MONDAY + 36000 + (i - 320) * 259200ll), 8), put(b, i % 2 ? 3600 : 0, 4);
    }
    for (int i = 0; i < 256; i++) {
        put(b, 30 + 9 * 16, 2), put(b, 3, 2), put(b, 20454, 4), put(b, 20818, 4), put(b, 0, 1), put(b, 127, 1);
        put(b, 0, 2), put(b, 1, 2), put(b, 0, 2), put(b, 0, 1), put(b, 0, 8), put(b, 0, 2), put(b, 16, 1);
        for (int j = 0; j < 16; j++) put(b, j * 3600 * SECOND, 8), put(b, j % 8, 1);
    }
    for (int i = 0; i < 32; i++) {
        put(b, 26 + 64, 2), put(b, 4, 2), put(b, 20454, 4), put(b, 20818, 4), put(b, 7, 2), put(b, 9, 2);
        put(b, 0, 1), put(b, 0, 8), put(b, 0, 2), put(b, 8, 1);
        for (int j = 0; j < 8; j++) put(b, j * 7200 * SECOND, 8);
    }
}

/* One call: the entry reads these and says its number. */
static const buffer *lent;
static int64_t from, to, columns;
static size_t lent_room;
static uint32_t number;

static void nothing(void) {
}

static void point(void) {
    number = market_time_point(lent->bytes, lent->used, from, room, lent_room).number;
}

static void window(void) {
    number = market_time_window(lent->bytes, lent->used, from, to, room, lent_room).number;
}

static void tally(void) {
    number = market_time_tally(lent->bytes, lent->used, from, to, room, lent_room).number;
}

static void cells(void) {
    number = market_time_cells(lent->bytes, lent->used, from, to, columns, true, from + 1, room, lent_room).number;
}

static void class(void) {
    number = market_time_class(lent->bytes, lent->used, from).number;
}

static void count(void) {
#if defined(__x86_64__)
    number = market_time_count(lent->bytes, lent->used, from).number;
#else
    market_time_count_reply reply;
    market_time_count(&reply, lent->bytes, lent->used, from);
    number = reply.number;
#endif
}

static uint8_t *stack;
static void (*entry)(void);
static size_t touched;

static void *run(void *unused) {
    uint8_t *top;
#if defined(__x86_64__)
    __asm__ volatile("mov %%rsp, %0" : "=r"(top));
#else
    __asm__ volatile("mov %0, sp" : "=r"(top));
#endif
    /* No call here: what is below the stack pointer belongs to nobody. */
    for (volatile uint8_t *p = stack; p < top; p++) *p = PAINT;
    entry();
    size_t i = 0;
    while (stack[i] == PAINT) i++;
    touched = (size_t)(top - stack) - i;
    return unused;
}

static size_t of(void (*called)(void)) {
    pthread_attr_t attributes;
    pthread_t thread;
    entry = called;
    stack = aligned_alloc(4096, SIZE);
    pthread_attr_init(&attributes);
    pthread_attr_setstack(&attributes, stack, SIZE);
    pthread_create(&thread, &attributes, run, NULL);
    pthread_join(thread, NULL);
    free(stack);
    return touched;
}

typedef struct {
    size_t answered, refused;
    uint32_t numbers; /* a bit for each that was met */
} most;

static void ask(most *m, void (*called)(void), const buffer *what, int64_t start, int64_t end, int64_t many, size_t out) {
    lent = what, from = start, to = end, columns = many, lent_room = out;
    size_t bytes = of(called), *kept = number ? &m->refused : &m->answered;
    if (*kept < bytes) *kept = bytes;
    m->numbers |= 1u << number;
}

/* Every kind of call that the entry has a different number for, and those that go deepest. */
static most all(void (*called)(void), const buffer *const *lent_to, size_t many) {
    const int64_t start = MONDAY * SECOND, day = 86400 * SECOND;
    most m = {0, 0, 0};
    for (size_t i = 0; i < many; i++) {
        ask(&m, called, lent_to[i], start, start + day, 512, sizeof room);
        ask(&m, called, lent_to[i], start + 36000 * SECOND, start + 40 * day, 12, sizeof room);
        ask(&m, called, lent_to[i], start, start + day, 512, 0);
        ask(&m, called, lent_to[i], start, start + day, 513, sizeof room);
        ask(&m, called, lent_to[i], start, start + 401 * day, 12, sizeof room);
        ask(&m, called, lent_to[i], start, start - day, 12, sizeof room);
        ask(&m, called, lent_to[i], start, start, 12, sizeof room);
        ask(&m, called, lent_to[i], INT64_MIN, start, 12, sizeof room);
    }
    return m;
}

int main(void) {
    make(&full, true), make(&without_changes, false);
    cut_short = full, cut_short.used--;
    row.used = market_time_window(full.bytes, full.used, MONDAY * SECOND, (MONDAY + 36000) * SECOND, row.bytes, sizeof row.bytes).length;
    bad_row = row, bad_row.used--;
    memcpy(rows.bytes, "\4\0\25\0\0\0", 6), memcpy(rows.bytes + 6, row.bytes, row.used), rows.used = 6 + row.used;
    bad_rows = rows, bad_rows.used--;
    if (row.used == 0) return puts("stack: no row"), 1;

    const buffer *const books[] = {&full, &without_changes, &empty, &cut_short}, *const one[] = {&row, &empty, &bad_row}, *const marked[] = {&rows, &no_rows, &bad_rows};
    const struct {
        const char *name;
        void (*run)(void);
        const buffer *const *lent_to;
        size_t many;
        uint32_t numbers;
    } entries[] = {
        {"point", point, books, 4, 1u << 0 | 1u << 2 | 1u << 10 | 1u << 16},
        {"window", window, books, 4, 1u << 0 | 1u << 2 | 1u << 10 | 1u << 11 | 1u << 12 | 1u << 16},
        {"tally", tally, books, 4, 1u << 0 | 1u << 2 | 1u << 10 | 1u << 11 | 1u << 12 | 1u << 13 | 1u << 16},
        {"cells", cells, one, 3, 1u << 0 | 1u << 10 | 1u << 11 | 1u << 12 | 1u << 14 | 1u << 15 | 1u << 16},
        {"class", class, one, 3, 1u << 0 | 1u << 10 | 1u << 15},
        {"count", count, marked, 3, 1u << 0 | 1u << 10 | 1u << 15},
    };
    int wrong = 0;
    printf("stack: an entry that does nothing touches %zu bytes\n", of(nothing));
    for (size_t i = 0; i < sizeof entries / sizeof *entries; i++) {
        most m = all(entries[i].run, entries[i].lent_to, entries[i].many);
        printf("%s: at most %zu bytes of stack where it answers, %zu where it refuses\n", entries[i].name, m.answered, m.refused);
        if (m.numbers != entries[i].numbers) printf("stack: %s gave other numbers: %x\n", entries[i].name, m.numbers), wrong = 1;
    }
    return wrong;
}
