/* Memory that is lent to an entry. It lies between two pages that nobody may touch, and ends exactly where the second begins or begins exactly
 * where the first ends: an access one byte outside faults there. What is only read is lent through pages that cannot be written; this program
 * writes it through other pages of the same memory. Under memcheck everything that is not lent is marked as out of bounds, on both sides, and a
 * lent room as not yet written. */
#include <stdint.h>
#include <stdio.h>
#include <stdlib.h>
#include <string.h>
#include <sys/mman.h>
#include <unistd.h>

#if __has_include(<valgrind/memcheck.h>)
#include <valgrind/memcheck.h>
#else
#define RUNNING_ON_VALGRIND 0
#define VALGRIND_COUNT_ERRORS 0
#define VALGRIND_MAKE_MEM_NOACCESS(at, length) ((void)0)
#define VALGRIND_MAKE_MEM_UNDEFINED(at, length) ((void)0)
#define VALGRIND_MAKE_MEM_DEFINED(at, length) ((void)0)
#define VALGRIND_CHECK_MEM_IS_DEFINED(at, length) 0
#endif

typedef struct {
    uint8_t *first;   /* behind the first page that nobody may touch */
    uint8_t *written; /* the same bytes where this program writes them */
    size_t size;
    uint8_t *lent;
    size_t length;
} space;

static void *mapped(void *at, size_t size, int may, int how, int file) {
    void *found = mmap(at, size, may, how, file, 0);
    if (found == MAP_FAILED) perror("mmap"), exit(2);
    return found;
}

/* Room for at least so many bytes, between two guard pages. */
static space room_of(size_t least) {
    size_t page = (size_t)sysconf(_SC_PAGESIZE), size = (least + page - 1) / page * page;
    uint8_t *front = mapped(NULL, size + 2 * page, PROT_NONE, MAP_PRIVATE | MAP_ANONYMOUS, -1);
    uint8_t *first = mapped(front + page, size, PROT_READ | PROT_WRITE, MAP_FIXED | MAP_PRIVATE | MAP_ANONYMOUS, -1);
    VALGRIND_MAKE_MEM_NOACCESS(first, size);
    return (space){first, first, size, first, 0};
}

/* The same for bytes that an entry may only read. */
static space input_of(size_t least) {
    space made = room_of(least);
    int file = memfd_create("input", 0);
    if (file < 0 || ftruncate(file, (off_t)made.size)) perror("memfd_create"), exit(2);
    mapped(made.first, made.size, PROT_READ, MAP_FIXED | MAP_SHARED, file);
    made.written = mapped(NULL, made.size, PROT_READ | PROT_WRITE, MAP_SHARED, file);
    close(file);
    VALGRIND_MAKE_MEM_NOACCESS(made.first, made.size);
    return made;
}

static uint8_t *lend(space *of, size_t length, bool at_end) {
    VALGRIND_MAKE_MEM_NOACCESS(of->lent, of->length);
    of->lent = of->first + (at_end ? of->size - length : 0), of->length = length;
    VALGRIND_MAKE_MEM_UNDEFINED(of->lent, length);
    return of->lent;
}

static const uint8_t *lend_input(space *of, const uint8_t *bytes, size_t length, bool at_end) {
    lend(of, length, at_end);
    memcpy(of->written + (of->lent - of->first), bytes, length);
    VALGRIND_MAKE_MEM_DEFINED(of->lent, length);
    return of->lent;
}

/* Lends a room filled with these bytes. */
static uint8_t *lend_room(space *of, const uint8_t *filled, size_t length, bool at_end) {
    lend(of, length, at_end);
    memcpy(of->lent, filled, length);
    VALGRIND_MAKE_MEM_UNDEFINED(of->lent, length);
    return of->lent;
}
