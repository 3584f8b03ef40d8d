/*
 * refuse QUESTIONS
 *
 * Asks each question over and over, while one allocation is refused, or while all from one on are. The
 * words `=tables` ask for the tables with the start symbol S, as numbers with items, and `=check` asks
 * for a check of these. `=parse` and `=expected` ask for a parse of TOKENS by them, and for the tokens
 * that may come after the first of TOKENS. This program is linked so that the library calls the
 * functions below in the place of malloc, realloc and free. Each such call must free all that it took,
 * and return LR1_NO_MEMORY. If only one allocation is refused, it may also return the right answer,
 * since a list that finds no room to spare grows by less. So it may if all that was refused is that
 * blocks become smaller, since a call can keep the larger blocks.
 */
#include "questions.h"
#include <malloc.h>

enum { ROOM = 1 << 20 };
static const long NONE = 1L << 40;

void *__real_malloc(size_t);
void *__real_realloc(void *, size_t);
void __real_free(void *);
void *__wrap_malloc(size_t);
void *__wrap_realloc(void *, size_t);
void __wrap_free(void *);

/* The blocks that are taken, the allocations made, the one that is refused, and whether all after it
 * are, too. Of the refused ones, how many were to give more bytes than there were. */
static struct {
    long blocks, made, refused, missed;
    bool all_after;
} memory;

static bool is_refused(bool gives_more)
{
    long number = memory.made++;
    bool it = memory.all_after ? number >= memory.refused : number == memory.refused;
    memory.missed += it && gives_more;
    return it;
}

void *__wrap_malloc(size_t size)
{
    void *it = is_refused(true) ? NULL : __real_malloc(size);
    memory.blocks += it != NULL;
    return it;
}

void *__wrap_realloc(void *block, size_t size)
{
    bool gives_more = block == NULL || size > malloc_usable_size(block);
    void *it = is_refused(gives_more) ? NULL : __real_realloc(block, size);
    memory.blocks += block == NULL && it != NULL;
    return it;
}

void __wrap_free(void *block)
{
    memory.blocks -= block != NULL;
    __real_free(block);
}

/* An answer: a text, or numbers. */
struct answer {
    uint8_t status, bytes[ROOM];
    uint32_t numbers[ROOM];
    size_t length;
};

static struct answer right, other, tables;

/* The tokens that are parsed. */
static const uint32_t TOKENS[] = {1, 0, 1};
enum { COUNT = sizeof TOKENS / sizeof *TOKENS, STEPS = 100 };

enum call { ASK, TABLES, CHECK, PARSE, EXPECTED };

static bool asks(const struct question *it, const char *word)
{
    return it->words.length == strlen(word) && memcmp(it->words.bytes, word, it->words.length) == 0;
}

static enum call call_of(const struct question *it)
{
    static const char *const WORDS[] = {[TABLES] = "=tables", [CHECK] = "=check", [PARSE] = "=parse", [EXPECTED] = "=expected"};
    for (int call = TABLES; call <= EXPECTED; call++)
        if (asks(it, WORDS[call]))
            return (enum call)call;
    return ASK;
}

/* Writes the tables of a question, with items. */
static uint8_t write_tables(struct answer *to, const struct question *it)
{
    return lr1_tables(it->text.bytes, it->text.length, (const uint8_t *)"S", 1, it->canonical, true, to->numbers,
                      ROOM, &to->length);
}

static uint8_t called(struct answer *to, const struct question *it)
{
    size_t read;
    switch (call_of(it)) {
    case TABLES:
        return write_tables(to, it);
    case CHECK:
        return lr1_check(it->text.bytes, it->text.length, (const uint8_t *)"S", 1, tables.numbers, tables.length,
                         to->bytes, ROOM, &to->length);
    case PARSE:
        return lr1_parse(tables.numbers, tables.length, TOKENS, COUNT, STEPS, to->numbers, ROOM, &to->length, &read);
    case EXPECTED:
        return lr1_expected(tables.numbers, tables.length, TOKENS, 1, STEPS, to->numbers, ROOM, &to->length);
    default:
        return lr1_ask(it->text.bytes, it->text.length, it->words.bytes, it->words.length, it->canonical,
                       to->bytes, ROOM, &to->length);
    }
}

static bool are_equal(const struct answer *a, const struct answer *b, const struct question *it)
{
    if (a->status != b->status || a->length != b->length)
        return false;
    if (call_of(it) != ASK && call_of(it) != CHECK)
        return memcmp(a->numbers, b->numbers, a->length * sizeof *a->numbers) == 0;
    return memcmp(a->bytes, b->bytes, a->length) == 0;
}

/* Asks while an allocation is refused, or none if the number is large. */
static void ask(struct answer *to, const struct question *it, size_t number, long refused, bool all_after)
{
    memory.blocks = memory.made = memory.missed = 0;
    memory.refused = refused;
    memory.all_after = all_after;
    to->status = called(to, it);
    if (memory.blocks != 0)
        fault(number, "a block was not freed");
    if (to->length > ROOM)
        fault(number, "an answer that is too long for this test");
}

/* How often an allocation was refused, and how often that was reported. */
static struct {
    long refused, reported;
} counts;

/* Refuses each allocation of a question in turn. */
static void refuse_each(const struct question *it, size_t number, bool all_after)
{
    memory.refused = NONE;
    write_tables(&tables, it);
    ask(&right, it, number, NONE, all_after);
    long count = memory.made;
    if (right.status == LR1_NO_MEMORY)
        fault(number, "an allocation failure, and none was refused");
    for (long refused = 0; refused < count; refused++) {
        ask(&other, it, number, refused, all_after);
        bool is_right = are_equal(&other, &right, it);
        if (other.status == LR1_NO_MEMORY)
            counts.reported++;
        else if ((all_after && memory.missed > 0) || !is_right) {
            printf("allocation %ld of %ld was refused%s; ", refused, count, all_after ? ", with all after it" : "");
            fault(number, is_right ? "it was not reported" : "it was not reported, and the answer is another one");
        }
    }
    counts.refused += count;
}

int main(int count, char **arguments)
{
    memory.refused = NONE;
    if (count != 2)
        return 2;
    struct part rest = read_file(arguments[1]);
    const uint8_t *questions = rest.bytes;
    size_t number = 0;
    for (; rest.length > 0; number++) {
        struct question it = take_question(&rest);
        refuse_each(&it, number, false);
        refuse_each(&it, number, true);
    }
    free((void *)questions);
    printf("%zu questions, %ld refused allocations, %ld of them reported\n", number, counts.refused, counts.reported);
    return 0;
}
