/*
 * rooms QUESTIONS ANSWERS
 *
 * Asks each question with one of ROOMS, and again with just enough room. Statuses, lengths and bytes
 * must be the same each time. Text, words and room each end before memory that no program may
 * touch, and what is around the room must stay as it is. The whole answers go to a file, each as its
 * status, its length in four bytes, and its bytes.
 */
#define _GNU_SOURCE
#include "questions.h"
#include <sys/mman.h>
#include <unistd.h>

enum { EXACT = -1, LARGE = 1 << 20, GUARD = 64, FILL = 0xAA };
static const long ROOMS[] = {0, 1, 100, EXACT, LARGE};

/* Memory of `size` bytes before `end`, after which no program may read or write. */
struct fenced {
    uint8_t *end;
    size_t size;
};

/* Makes the memory large enough for so many bytes and GUARD bytes before them. Returns their place. */
static uint8_t *place(struct fenced *it, size_t length)
{
    size_t page = (size_t)sysconf(_SC_PAGESIZE);
    if (it->end == NULL || it->size < length + GUARD) {
        size_t size = (length + GUARD + page - 1) / page * page;
        uint8_t *start = mmap(NULL, size + page, PROT_READ | PROT_WRITE, MAP_PRIVATE | MAP_ANONYMOUS, -1, 0);
        if (start == MAP_FAILED || mprotect(start + size, page, PROT_NONE) != 0)
            exit(2);
        if (it->end != NULL)
            munmap(it->end - it->size, it->size + page);
        it->end = start + size;
        it->size = size;
    }
    return it->end - length;
}

static const uint8_t *place_copy(struct fenced *it, struct part from)
{
    uint8_t *to = place(it, from.length);
    memcpy(to, from.bytes, from.length);
    return to;
}

/* A question in fenced memory, and room for answers. */
struct call {
    size_t number;
    const uint8_t *text, *words;
    struct question asked;
    struct fenced room;
    size_t length;
};

/* Whether all of at least one byte are FILL. */
static bool is_filled(const uint8_t *bytes, size_t length)
{
    return *bytes == FILL && memcmp(bytes, bytes + 1, length - 1) == 0;
}

/* Asks with a room, and checks that nothing around the answer was written. */
static uint8_t *ask(struct call *it, size_t room, uint8_t *status)
{
    uint8_t *out = place(&it->room, room);
    memset(out - GUARD, FILL, room + GUARD);
    it->length = (size_t)-1;
    *status = lr1_ask(it->text, it->asked.text.length, it->words, it->asked.words.length,
                      it->asked.canonical, out, room, &it->length);
    if (!is_filled(out - GUARD, GUARD))
        fault(it->number, "a byte before the room was written");
    if (it->length < room && !is_filled(out + it->length, room - it->length))
        fault(it->number, "a byte after the answer was written");
    return out;
}

/* Asks again with a room. The status and the length must be as before. */
static const uint8_t *ask_again(struct call *it, size_t room, uint8_t status)
{
    uint8_t again;
    size_t length = it->length;
    const uint8_t *out = ask(it, room, &again);
    if (again != status || it->length != length)
        fault(it->number, "another status or length with another room");
    return out;
}

/* Asks with a room, and again with enough. Returns the answer. */
static const uint8_t *ask_twice(struct call *it, long kind, uint8_t *status)
{
    const uint8_t *out = ask(it, kind == EXACT ? 0 : (size_t)kind, status);
    if (kind == EXACT)
        out = ask_again(it, it->length, *status);
    size_t room = kind == EXACT ? it->length : (size_t)kind, had = room < it->length ? room : it->length;
    uint8_t *first = malloc(had + 1);
    if (first == NULL)
        exit(2);
    memcpy(first, out, had);
    out = ask_again(it, it->length, *status);
    if (memcmp(first, out, had) != 0)
        fault(it->number, "other bytes with another room");
    free(first);
    return out;
}

static void write_answer(FILE *to, uint8_t status, const uint8_t *answer, size_t length)
{
    const uint8_t head[] = {status, length & 255, length >> 8 & 255, length >> 16 & 255, length >> 24 & 255};
    if (fwrite(head, 1, sizeof head, to) != sizeof head || fwrite(answer, 1, length, to) != length)
        exit(2);
    /* If the next question ends the program, the file shows which it is. */
    fflush(to);
}

int main(int count, char **arguments)
{
    if (count != 3)
        return 2;
    struct part rest = read_file(arguments[1]);
    const uint8_t *questions = rest.bytes;
    FILE *answers = fopen(arguments[2], "wb");
    struct fenced text = {NULL, 0}, words = {NULL, 0};
    struct call call = {.number = 0};
    if (answers == NULL)
        return 2;
    for (; rest.length > 0; call.number++) {
        uint8_t status;
        call.asked = take_question(&rest);
        call.text = place_copy(&text, call.asked.text);
        call.words = place_copy(&words, call.asked.words);
        const uint8_t *answer = ask_twice(&call, ROOMS[call.number % (sizeof ROOMS / sizeof *ROOMS)], &status);
        write_answer(answers, status, answer, call.length);
    }
    fclose(answers);
    free((void *)questions);
    printf("%zu questions\n", call.number);
    return 0;
}
