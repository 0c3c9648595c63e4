/* Bytes that nobody should lend, through every entry: chance, and good books and rows with something changed.
 *
 *     hostile SEED ROUND CALLS BOOK..     from this round on until so many calls are made; the books are mutated too
 *
 * What include/market_time.h asks of a pointer is that it is good for its length and that the room overlaps nothing; an empty slice may have any.
 * So null is not lent here: zero bytes are lent where a page begins that nobody may touch. lent.h has how a byte outside is caught.
 *
 * Every question is asked at both ends of the lent memory, with the room and the unused stack filled differently, and then with other rooms: none, a
 * byte short, exact, larger. A refused call must have length 0 and a room as it was; an answered one a length that fits, and the room behind it as it was.
 * The number is one of its entry's; number, length and bytes are the same each time, but for 16 where the room is too short; what was lent to read is as
 * it was. A problem is printed with its seed and round, and `hostile SEED ROUND 1 BOOK..` asks that round again. It ends with 1 if there was any. */
#define _GNU_SOURCE
#include "../../include/market_time.h"
#include "chance.h"
#include "lent.h"
#include "books.h"

#include <signal.h>

enum { POINT, WINDOW, TALLY, CELLS, CLASS, COUNT, ENTRIES };
static const char *const NAMES[ENTRIES] = {"point", "window", "tally", "cells", "class", "count"};

/* The numbers that an entry may give, a bit for each, and the room that it is first lent. */
#define LAST_NUMBER 16
#define NUMBERS (LAST_NUMBER + 1)
#define TO(number) ((UINT32_C(2) << (number)) - 1)
#define SHORT (UINT32_C(1) << 16)
#define OF_ROW (UINT32_C(1) | 1 << 10 | 1 << 15)
static const uint32_t MAY[ENTRIES] = {TO(10) | SHORT, TO(12) | SHORT, TO(13) | SHORT, OF_ROW | 1 << 11 | 1 << 12 | 1 << 14 | SHORT, OF_ROW, OF_ROW};
static const size_t FIRST_ROOM[ENTRIES] = {256, 2048, 2048, 600, 0, sizeof(market_time_count_reply)};
#define ROOM_MOST ((size_t)2 * 1024 * 1024)

typedef struct {
    int entry;
    const uint8_t *bytes; /* a book, a row, or rows behind marks */
    size_t length;
    bool good; /* must not be refused for its bytes */
    int64_t at, end, columns, now;
    bool marked;
} question;

typedef struct {
    uint32_t number;
    size_t length;
    uint64_t values[4]; /* a class, or a count's four */
    const uint8_t *room;
} reply;

static space input, rooms[2];
static uint8_t fills[2][ROOM_MOST];

static uint64_t seed, round_at, calls[ENTRIES], questions[ENTRIES], numbers[ENTRIES][NUMBERS], problems;
static const question *asked;

/* What was lent: how many calls of each, and the longest. */
static uint64_t inputs_empty, inputs_single, rooms_empty, rooms_short, rooms_exact;
static size_t input_longest, answer_longest;

static void problem(const char *what) {
    if (problems++ < 20)
        printf("PROBLEM: %s: seed %llu round %llu, %s of %zu bytes\n", what, (unsigned long long)seed, (unsigned long long)round_at, NAMES[asked->entry],
               asked->length);
}

static void fault(int signal, siginfo_t *about, void *context) {
    (void)signal, (void)context;
    uint8_t *at = about->si_addr;
    printf("FAULT: at %p: seed %llu round %llu, %s of %zu bytes\n", (void *)at, (unsigned long long)seed, (unsigned long long)round_at,
           asked ? NAMES[asked->entry] : "no entry", asked ? asked->length : 0);
    printf("bytes from %p, rooms from %p and %p\n", (void *)input.lent, (void *)rooms[0].lent, (void *)rooms[1].lent);
    fflush(stdout);
    _exit(1);
}

/* Fills the stack that the next call will use: a result that depended on what it has not written there would not be the same twice. */
#define STACK 16384
static __attribute__((noinline)) void fill_stack(const uint8_t *filled) {
    uint8_t unused[STACK];
    memcpy(unused, filled, STACK);
    __asm__ volatile("" : : "r"(unused) : "memory");
}

/* Where the result comes through a pointer, that is a lent room too. */
static reply counted(const question *q, const uint8_t *bytes, uint8_t *out) {
    market_time_count_reply *r = (market_time_count_reply *)out;
#if defined(__x86_64__)
    *r = market_time_count(bytes, q->length, q->at);
#else
    market_time_count(r, bytes, q->length, q->at);
#endif
    return (reply){r->number, 0, {r->venues, r->trading, r->not_trading, r->not_known}, NULL};
}

static reply called(const question *q, const uint8_t *bytes, uint8_t *out, size_t room) {
    market_time_reply r = {0, 0};
    switch (q->entry) {
    case POINT: r = market_time_point(bytes, q->length, q->at, out, room); break;
    case WINDOW: r = market_time_window(bytes, q->length, q->at, q->end, out, room); break;
    case TALLY: r = market_time_tally(bytes, q->length, q->at, q->end, out, room); break;
    case CELLS: r = market_time_cells(bytes, q->length, q->at, q->end, q->columns, q->marked, q->now, out, room); break;
    }
    return (reply){r.number, r.length, {0}, out};
}

static reply classed(const question *q, const uint8_t *bytes) {
    market_time_class_reply r = market_time_class(bytes, q->length, q->at);
    return (reply){r.number, 0, {r.shown}, NULL};
}

/* Whether an answer is whole records of the kinds that its entry writes, or cells between brackets. */
static bool well_formed(int entry, const uint8_t *answer, size_t length) {
    static const uint8_t KINDS[CELLS][3] = {{16, 18, 19}, {16, 17, 18}, {22, 23, 23}};
    if (entry == CELLS) return length >= 14 && length <= 514 && answer[0] == '[' && answer[length - 1] == ']';
    size_t at = 0;
    for (size_t next; at < length; at = next) {
        if (length - at < 4 || !memchr(KINDS[entry], answer[at + 2], 3) || answer[at + 3]) return false;
        next = at + 2 + get(answer + at, 2);
    }
    return at == length && (length > 0 || entry == WINDOW);
}

/* What a reply must be, whatever was asked. */
static void judge(const question *q, const reply *r, const uint8_t *filled, size_t room) {
    if (VALGRIND_CHECK_MEM_IS_DEFINED(&r->number, sizeof r->number) || VALGRIND_CHECK_MEM_IS_DEFINED(&r->length, sizeof r->length) ||
        VALGRIND_CHECK_MEM_IS_DEFINED(r->values, sizeof r->values))
        problem("a result that was never written");
    if (r->number >= NUMBERS || !(MAY[q->entry] >> r->number & 1)) problem("a number that the entry has not");
    if (q->good && (r->number == 15 || (0 < r->number && r->number < 10))) problem("good bytes refused");
    bool refused = r->number != 0;
    if (q->entry == CLASS && (refused ? r->values[0] != 0 : r->values[0] < 1 || r->values[0] > 4)) problem("a class that does not go with the number");
    if (q->entry == COUNT && refused && (r->values[0] | r->values[1] | r->values[2] | r->values[3])) problem("refused with counts");
    if (q->entry == COUNT && r->values[1] + r->values[2] + r->values[3] > r->values[0]) problem("more rows than venues");
    if (memcmp(input.lent, q->bytes, q->length)) problem("a byte altered that was lent to read");
    if (q->entry >= CLASS) return;
    if (refused && r->length != 0) problem("refused with a length");
    if (r->length > room) problem("a length beyond the room");
    size_t length = refused ? 0 : r->length > room ? room : r->length;
    if (VALGRIND_CHECK_MEM_IS_DEFINED(r->room, length)) problem("a byte of the answer that was never written");
    VALGRIND_MAKE_MEM_DEFINED(r->room, room);
    if (!refused && !well_formed(q->entry, r->room, length)) problem("an answer that is none of the entry's");
    if (memcmp(r->room + length, filled + length, room - length)) problem(refused ? "refused, and the room altered" : "the room altered behind the answer");
}

/* One call, judged and counted. */
static reply ask(const question *q, size_t room, bool at_end, int which) {
    const uint8_t *bytes = lend_input(&input, q->bytes, q->length, at_end);
    uint8_t *out = lend_room(&rooms[which], fills[which], room, at_end);
    asked = q;
    fill_stack(fills[which]);
    reply r = q->entry == COUNT ? counted(q, bytes, out) : q->entry == CLASS ? classed(q, bytes) : called(q, bytes, out, room);
    judge(q, &r, fills[which], room);
    calls[q->entry]++;
    if (r.number < NUMBERS) numbers[q->entry][r.number]++;
    inputs_empty += q->length == 0, inputs_single += q->length == 1, rooms_empty += room == 0 && q->entry < CLASS;
    input_longest = q->length > input_longest ? q->length : input_longest;
    answer_longest = r.length > answer_longest ? r.length : answer_longest;
    return r;
}

static void same(const reply *one, const reply *other) {
    bool lengths = one->length == other->length;
    if (one->number != other->number || !lengths || memcmp(one->values, other->values, sizeof one->values)) problem("another reply to the same call");
    if (lengths && one->room && memcmp(one->room, other->room, one->length)) problem("another answer to the same call");
}

/* The same question with another room. */
static void ask_short_or_long(const question *q, const reply *first, size_t room) {
    reply r = ask(q, room, percent(50), 1);
    if (first->number == 0) rooms_short += room + 1 == first->length, rooms_exact += room == first->length;
    if (first->number == 0 && room >= first->length)
        same(first, &r);
    else if (r.number != (first->number ? first->number : 16))
        problem("another number in another room");
}

/* Asks until the room is large enough or as large as any, once more at the other end, then in other rooms. What was answered is in the first room. */
static reply put_question(const question *q) {
    questions[q->entry]++;
    size_t room = FIRST_ROOM[q->entry];
    reply first = ask(q, room, true, 0);
    while (first.number == 16 && room < ROOM_MOST) {
        room = room * 8 < ROOM_MOST ? room * 8 : ROOM_MOST;
        first = ask(q, room, true, 0);
    }
    reply again = ask(q, room, false, 1);
    same(&first, &again);
    if (q->entry >= CLASS) return first;
    size_t length = first.length;
    if (first.number != 0) {
        ask_short_or_long(q, &first, PICK(size_t, 0, 1, below(300)));
    } else {
        ask_short_or_long(q, &first, length > 0 && percent(70) ? length - 1 : PICK(size_t, 0, 1, below(length + 1)));
        ask_short_or_long(q, &first, percent(70) ? length : length + 1 + (percent(50) ? 0 : below(200)));
    }
    return first;
}

static int64_t plus(int64_t one, int64_t other) {
    int64_t sum;
    return __builtin_add_overflow(one, other, &sum) ? other < 0 ? INT64_MIN : INT64_MAX : sum;
}

/* An instant: most lie at, beside or between the first two numbers of a record, which are a book's coverage and a segment's edges. */
static int64_t instant(const uint8_t *bytes, size_t length) {
    size_t many = records(bytes, length), at = 0;
    for (int tries = 0; many > 0 && tries < 4 && (tries == 0 || get(bytes + at, 2) < 18); tries++) at = record_starts[percent(50) ? 0 : below(many)];
    if (percent(6)) return (int64_t)word();
    if (percent(6)) return PICK(int64_t, INT64_MIN, INT64_MAX, LOW - 1, LOW, LOW + 1, HIGH - 1, HIGH, HIGH + 1, -1, 0, 1);
    bool whole = length >= at + 20;
    int64_t from = whole ? (int64_t)get(bytes + at + 4, 8) : 20454 * DAY, to = whole ? (int64_t)get(bytes + at + 12, 8) : 20819 * DAY;
    int64_t between = from < to ? from_to(from, to) : from;
    switch (below(6)) {
    case 0: return plus(percent(50) ? from : to, from_to(-1, 1));
    case 1: return plus(percent(50) ? from : to, from_to(-3 * DAY, 3 * DAY));
    case 2: return plus(between / DAY * DAY, from_to(-1, 1));
    default: return between;
    }
}

/* How far a window goes. Few are of 400 days or of as many as a walk has turns. */
static int64_t reach(size_t length) {
    bool large = length > 10000;
    if (below(large ? 100 : 1000) == 0) return DAY * from_to(3658, 3662) + from_to(-1, 1);
    if (below(50) == 0) return DAY * PICK(int64_t, 400, 400, 400, 399, from_to(7, 401)) + from_to(-1, 1);
    switch (below(10)) {
    case 0: return from_to(-3, 3);
    case 1: return -from_to(0, 10 * DAY);
    case 2: return DAY * from_to(1, 6) + from_to(-1, 1);
    default: return from_to(1, INT64_C(1) << (1 + below(large ? 47 : 50)));
    }
}

static void put_window(question *q) {
    q->at = instant(q->bytes, q->length);
    q->end = below(1000) == 0 ? instant(q->bytes, q->length) : plus(q->at, reach(q->length));
}

static void put_grid(question *q) {
    put_window(q);
    if (percent(30)) q->end = instant(q->bytes, q->length);
    q->columns = percent(50) ? from_to(12, 512) : PICK(int64_t, INT64_MIN, -1, 0, 11, 12, 13, 80, 511, 512, 513, INT64_MAX, (int64_t)word());
    q->marked = percent(60);
    q->now = percent(50) && q->at < q->end ? from_to(q->at, q->end) : instant(q->bytes, q->length);
}

/* The good book of a round, and what the window entry answered on it. */
#define ROWS_MOST 4
static uint8_t book[BYTES_MOST], rows[ROWS_MOST][BYTES_MOST];
static size_t book_length, row_lengths[ROWS_MOST], rows_held;

static void keep_row(const reply *r) {
    if (r->number != 0 || rows_held == ROWS_MOST || r->length > BYTES_MOST / 2) return;
    memcpy(rows[rows_held], r->room, r->length), row_lengths[rows_held++] = r->length;
}

/* The round's book as it is, mutated, or other bytes. */
static question of_book(int entry) {
    bool good = percent(35);
    if (good || percent(75))
        set(book, book_length);
    else
        make_chance();
    if (!good && used > 0 && percent(90)) mutate();
    return (question){.entry = entry, .bytes = made, .length = used, .good = good};
}

static void put_row(void) {
    size_t row = below(rows_held + 1);
    if (row < rows_held) insert(used, rows[row], row_lengths[row]);
}

/* A row of the round as it is, mutated, or other bytes. For the count up to five, each behind a mark. */
static question of_rows(int entry) {
    bool good = percent(45);
    used = 0;
    if (!good && percent(15))
        make_chance();
    else if (entry != COUNT)
        put_row();
    else
        for (size_t left = below(6); left > 0; left--) put(4, 2), put(21, 2), put(word(), 2), put_row();
    if (!good && used > 0 && percent(90)) mutate();
    return (question){.entry = entry, .bytes = made, .length = used, .good = good};
}

/* A book for the round: one of those lent, a new one, or, seldom, one as large as may be. */
static void choose_book(char **files, int many) {
    size_t which = below((size_t)many + 12);
    if (which >= (size_t)many) {
        make_book(below(40) == 0);
    } else {
        FILE *file = fopen(files[which], "rb");
        if (!file) perror(files[which]), exit(2);
        used = fread(made, 1, BYTES_MOST, file);
        fclose(file);
    }
    memcpy(book, made, used), book_length = used;
}

/* The rows of a round: two windows of its book, and one of a venue without data. */
static void make_rows(void) {
    rows_held = 0;
    for (int i = 0; i < 3; i++) {
        set(book, i < 2 ? book_length : 0);
        question q = {.entry = WINDOW, .bytes = made, .length = used, .good = true};
        put_window(&q);
        reply r = put_question(&q);
        keep_row(&r);
    }
}

static void ask_round(char **files, int many) {
    begin_chance(seed, round_at);
    choose_book(files, many);
    for (int entry = POINT; entry <= TALLY; entry++)
        for (int i = 0; i < (entry == WINDOW ? 1 : 3); i++) {
            question q = of_book(entry);
            put_window(&q), put_question(&q);
        }
    make_rows();
    for (int entry = CELLS; entry <= COUNT; entry++)
        for (int i = 0; i < (entry == CELLS ? 3 : 4); i++) {
            question q = of_rows(entry);
            put_grid(&q), put_question(&q);
        }
}

/* All entries' together. */
static uint64_t total(const uint64_t *of) {
    uint64_t sum = 0;
    for (int entry = 0; entry < ENTRIES; entry++) sum += of[entry];
    return sum;
}

static void print(uint64_t from) {
    printf("seed %llu, rounds %llu to %llu, %s\n", (unsigned long long)seed, (unsigned long long)from, (unsigned long long)round_at - 1,
           RUNNING_ON_VALGRIND ? "guard pages and memcheck" : "guard pages");
    for (int entry = 0; entry < ENTRIES; entry++) {
        printf("%s questions %llu calls %llu numbers", NAMES[entry], (unsigned long long)questions[entry], (unsigned long long)calls[entry]);
        for (int number = 0; number < NUMBERS; number++)
            if (numbers[entry][number]) printf(" %d:%llu", number, (unsigned long long)numbers[entry][number]);
        printf("\n");
    }
    printf("lent 0 bytes %llu, 1 byte %llu, at most %zu; room of 0 bytes %llu, a byte short %llu, exact %llu; longest answer %zu\n",
           (unsigned long long)inputs_empty, (unsigned long long)inputs_single, input_longest, (unsigned long long)rooms_empty,
           (unsigned long long)rooms_short, (unsigned long long)rooms_exact, answer_longest);
    printf("questions %llu calls %llu problems %llu memory errors %llu\n", (unsigned long long)total(questions), (unsigned long long)total(calls),
           (unsigned long long)problems, (unsigned long long)VALGRIND_COUNT_ERRORS);
}

int main(int words, char **word_at) {
    if (words < 4) return fprintf(stderr, "usage: hostile SEED ROUND CALLS BOOK..\n"), 2;
    seed = strtoull(word_at[1], NULL, 10);
    uint64_t from = round_at = strtoull(word_at[2], NULL, 10), wanted = strtoull(word_at[3], NULL, 10);
    sigaction(SIGSEGV, &(struct sigaction){.sa_sigaction = fault, .sa_flags = SA_SIGINFO}, NULL);
    sigaction(SIGBUS, &(struct sigaction){.sa_sigaction = fault, .sa_flags = SA_SIGINFO}, NULL);
    input = input_of(BYTES_MOST), rooms[0] = room_of(ROOM_MOST), rooms[1] = room_of(ROOM_MOST);
    for (size_t i = 0; i < ROOM_MOST; i++) fills[0][i] = (uint8_t)(i * 31 ^ 0xa5), fills[1][i] = (uint8_t)~fills[0][i];
    for (; total(calls) < wanted; round_at++) ask_round(word_at + 4, words - 4);
    print(from);
    return problems > 0 || VALGRIND_COUNT_ERRORS > 0;
}
