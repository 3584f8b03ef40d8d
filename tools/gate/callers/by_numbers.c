/*
 * by_numbers COUNT TEXT..
 *
 * Makes COUNT random calls that take numbers, by the tables of each text from S, and as many by these
 * with items. Some of the numbers are changed or cut off before. Each call is made with a random room
 * and with just enough, and each list of numbers ends before memory that no program may touch. Nothing
 * around the room may be written. With numbers that are not changed, the answers must be those of the
 * parser below, which follows docs/FORMATS.md. Each call must report a fault of numbers with another
 * mark or version, and of numbers that end before those of state 0 do. Prints how often each status was
 * returned by the random calls.
 */
#define _GNU_SOURCE
#include <lr1.h>
#include <stdio.h>
#include <stdlib.h>
#include <string.h>
#include <sys/mman.h>
#include <unistd.h>

enum { MOST = 1 << 16, LONGEST = 12, GUARD = 16, FILL = 0x2AAAAAAA, STACK = 4096 };

/* A random number below a bound. */
static uint32_t below(uint32_t bound)
{
    static uint64_t state = 88172645463325252u;
    state ^= state << 13;
    state ^= state >> 7;
    state ^= state << 17;
    return (uint32_t)((state >> 20) % bound);
}

static void expect(bool holds, const char *text, size_t number)
{
    if (holds)
        return;
    printf("call %zu: %s\n", number, text);
    exit(1);
}

/* Numbers before memory that no program may touch. */
struct fenced {
    uint32_t *end;
};

static void make(struct fenced *it)
{
    size_t page = (size_t)sysconf(_SC_PAGESIZE), size = (MOST * sizeof(uint32_t) + page - 1) / page * page;
    uint8_t *start = mmap(NULL, size + page, PROT_READ | PROT_WRITE, MAP_PRIVATE | MAP_ANONYMOUS, -1, 0);
    if (start == MAP_FAILED || mprotect(start + size, page, PROT_NONE) != 0)
        exit(2);
    it->end = (uint32_t *)(start + size);
}

static struct fenced tables_memory, tokens_memory, room_memory;
static uint32_t tables[MOST], whole[MOST];
static size_t tables_length;

/* A call: 0 for an action, 1 for a goto, 2 for a parse and 3 for the expected tokens. */
struct call {
    int kind;
    const uint32_t *numbers;
    size_t count;
    const uint32_t *tokens;
    size_t token_count, limit;
    uint32_t state, name;
};

struct answer {
    uint8_t status;
    size_t length, read;
};

static struct answer called(const struct call *it, uint32_t *out, size_t room)
{
    struct answer to = {0, 77, 77};
    if (it->kind == 0)
        to.status = lr1_action(it->numbers, it->count, it->state, it->name, out, room, &to.length);
    else if (it->kind == 1)
        to.status = lr1_goto(it->numbers, it->count, it->state, it->name, out, room, &to.length);
    else if (it->kind == 2)
        to.status = lr1_parse(it->numbers, it->count, it->tokens, it->token_count, it->limit, out, room, &to.length,
                              &to.read);
    else
        to.status = lr1_expected(it->numbers, it->count, it->tokens, it->token_count, it->limit, out, room, &to.length);
    return to;
}

/* Makes a call with a room, around which nothing may be written. Returns the room. */
static const uint32_t *with_room(const struct call *it, size_t room, struct answer *to, size_t number)
{
    uint32_t *out = room_memory.end - room;
    for (uint32_t *at = out - GUARD; at < room_memory.end; at++)
        *at = FILL;
    *to = called(it, out, room);
    for (const uint32_t *at = out - GUARD; at < out; at++)
        expect(*at == FILL, "a number before the room was written", number);
    for (size_t at = to->length; at < room; at++)
        expect(out[at] == FILL, "a number after the answer was written", number);
    return out;
}

/* ---- a parser that follows docs/FORMATS.md */

/* The place of the first number of a pair with a name in a counted list, or 0. Goes to the next list. */
static size_t pair_of(size_t *list, uint32_t name)
{
    size_t count = tables[*list], found = 0;
    for (size_t at = *list + 1; at < *list + 1 + 2 * count; at += 2)
        if (found == 0 && tables[at] == name)
            found = at;
    *list += 1 + 2 * count;
    return found;
}

static size_t block_of(uint32_t state)
{
    return tables[8 + tables[6] + state];
}

static size_t side_of(uint32_t production)
{
    return 8 + tables[6] + tables[7] + tables[2] + 2 * production;
}

/* The action: 0 and a state, 1 and a production, or 2 if there is none. */
static uint32_t action(uint32_t state, uint32_t token, uint32_t *target)
{
    size_t list = block_of(state), found = pair_of(&list, token);
    if (found != 0) {
        *target = tables[found + 1];
        return 0;
    }
    pair_of(&list, 0);
    for (size_t at = list + 1; at < list + 1 + 2 * tables[list]; at += 2) {
        size_t set = tables[8 + tables[at + 1]];
        for (size_t k = 1; k <= tables[set]; k++)
            if (tables[set + k] == token) {
                *target = tables[at];
                return 1;
            }
    }
    return 2;
}

static bool has_goto(uint32_t state, uint32_t name, uint32_t *target)
{
    size_t list = block_of(state), found;
    pair_of(&list, 0);
    found = pair_of(&list, name);
    if (found != 0)
        *target = tables[found + 1];
    return found != 0;
}

/* The answer for a parse of tokens, after which the end of the input is read if `ends`. */
static struct answer parsed(const uint32_t *tokens, size_t count, bool ends, size_t limit, uint32_t *out)
{
    static uint32_t stack[STACK];
    size_t depth = 1, length = 0, read = 0;
    stack[0] = 0;
    for (;;) {
        uint32_t top = stack[depth - 1], target, kind;
        if (read == count && !ends)
            return (struct answer){0, length, read};
        kind = action(top, read < count ? tokens[read] : tables[3], &target);
        if (kind == 2 || length / 2 == limit || depth == STACK) {
            out[length++] = kind == 2 ? LR1_STOP : LR1_LIMIT;
            out[length++] = top;
            return (struct answer){1, length, read};
        }
        out[length++] = kind;
        out[length++] = kind == 0 ? tokens[read] : target;
        if (kind == 0) {
            stack[depth++] = target;
            read++;
            continue;
        }
        uint32_t name = tables[side_of(target)], next;
        size_t size = tables[side_of(target) + 1];
        expect(size < depth, "a right side that is longer than the stack", 0);
        depth -= size;
        if (!has_goto(stack[depth - 1], name, &next)) {
            if (depth == 1 && read == count)
                return (struct answer){0, length, read};
            out[length++] = LR1_STOP;
            out[length++] = top;
            return (struct answer){1, length, read};
        }
        stack[depth++] = next;
    }
}

/* The answer that a call must have, for numbers that were not changed. */
static struct answer wanted(const struct call *it, uint32_t *out)
{
    uint32_t target;
    if (it->kind == 0) {
        if (it->state >= tables[7] || it->name > tables[3])
            return (struct answer){2, 0, 77};
        uint32_t kind = action(it->state, it->name, &target);
        out[0] = kind;
        out[1] = target;
        if (kind == 1) {
            out[2] = tables[side_of(target)];
            out[3] = tables[side_of(target) + 1];
        }
        return (struct answer){kind == 2, kind == 2 ? 0 : kind == 1 ? 4 : 2, 77};
    }
    if (it->kind == 1) {
        if (it->state >= tables[7] || it->name >= tables[4])
            return (struct answer){2, 0, 77};
        bool found = has_goto(it->state, it->name, out);
        return (struct answer){!found, found, 77};
    }
    for (size_t at = 0; at < it->token_count; at++)
        if (it->tokens[at] >= tables[3])
            return (struct answer){2, 0, it->kind == 2 ? 0 : 77};
    if (it->kind == 2)
        return parsed(it->tokens, it->token_count, true, it->limit, out);
    static uint32_t more[LONGEST + 1], steps[MOST];
    size_t count = it->token_count, length = 0;
    if (parsed(it->tokens, count, false, it->limit, steps).status != 0)
        return (struct answer){1, 0, 77};
    memcpy(more, it->tokens, count * sizeof *more);
    for (uint32_t token = 0; token <= tables[3]; token++) {
        bool is_end = token == tables[3];
        more[count] = token;
        struct answer tried = parsed(more, count + !is_end, is_end, it->limit, steps);
        if (tried.status == 1 && steps[tried.length - 2] == LR1_LIMIT)
            return (struct answer){1, 0, 77};
        if (tried.status == 0)
            out[length++] = token;
    }
    return (struct answer){0, length, 77};
}

/* ---- random calls */

/* A copy of the tables before memory that no program may touch, of which some are changed. */
static bool copied(struct call *it)
{
    bool changed = below(2) == 0;
    it->count = changed && below(3) == 0 ? below((uint32_t)tables_length + 1) : tables_length;
    uint32_t *numbers = tables_memory.end - it->count;
    memcpy(numbers, tables, it->count * sizeof *numbers);
    it->numbers = numbers;
    if (it->count < tables_length || !changed)
        return it->count < tables_length;
    for (uint32_t times = 1 + below(3); times > 0; times--) {
        static const uint32_t SOME[] = {0, 1, 2, 5, 0x7FFFFFFF, 0xFFFFFFFF};
        uint32_t to = below(2) == 0 ? SOME[below(6)] : below((uint32_t)tables_length + 3);
        numbers[below((uint32_t)tables_length)] = to;
    }
    /* lr1_expected tries each terminal, so many would take long. */
    if (it->kind == 3 && numbers[3] > 1000)
        it->kind = 2;
    return true;
}

static void random_call(struct call *it)
{
    it->kind = (int)below(4);
    it->token_count = below(LONGEST);
    uint32_t terminals = tables[3] == 0 ? 1 : tables[3];
    uint32_t *tokens = tokens_memory.end - it->token_count;
    for (size_t at = 0; at < it->token_count; at++)
        tokens[at] = below(terminals + (below(20) == 0));
    it->tokens = tokens;
    it->limit = below(8) == 0 ? below(12) : 200;
    it->state = below(tables[7] + 1);
    it->name = below((it->kind == 0 ? tables[3] : tables[4]) + 2);
}

/* Makes a random call with three rooms, and compares the answers. Returns the status. */
static uint8_t try_call(size_t number)
{
    static uint32_t right[MOST];
    struct call it;
    struct answer first, second;
    random_call(&it);
    bool changed = copied(&it);
    with_room(&it, below(20), &first, number);
    expect(first.status < 4 && first.length < MOST - GUARD, "a status or a length", number);
    const uint32_t *out = with_room(&it, first.length, &second, number);
    expect(second.status == first.status && second.length == first.length && second.read == first.read,
           "another answer with another room", number);
    memcpy(whole, out, first.length * sizeof *whole);
    size_t room = below((uint32_t)first.length + 2);
    out = with_room(&it, room, &second, number);
    expect(memcmp(out, whole, (room < first.length ? room : first.length) * sizeof *out) == 0,
           "other numbers with another room", number);
    if (changed)
        return first.status;
    struct answer want = wanted(&it, right);
    expect(want.status == first.status && want.length == first.length, "another status or length", number);
    expect(it.kind != 2 || want.read == first.read, "another count of tokens", number);
    expect(memcmp(right, whole, want.length * sizeof *right) == 0, "another answer", number);
    return first.status;
}

/* Each call reports a fault of so many numbers. State 0, token 0 and nonterminal 0 are asked for. */
static void expect_faults(size_t count, size_t number)
{
    uint32_t *numbers = tables_memory.end - count;
    memcpy(numbers, tables, count * sizeof *numbers);
    struct call it = {.numbers = numbers, .count = count, .tokens = tokens_memory.end, .limit = 200};
    for (it.kind = 0; it.kind < 4; it.kind++) {
        struct answer to;
        with_room(&it, 1, &to, number);
        expect(to.status == LR1_FAULT && to.length == 0, "no fault of numbers that are not those of tables", number);
    }
}

/* Numbers with another mark or version, and numbers that end before the block of state 0 does. */
static void try_faults(size_t number)
{
    size_t end = block_of(0);
    for (int list = 0; list < 3; list++)
        pair_of(&end, 0);
    for (size_t count = 0; count < end; count++)
        expect_faults(count, number);
    for (size_t place = 0; place < 2; place++) {
        tables[place]++;
        expect_faults(tables_length, number);
        tables[place]--;
    }
}

int main(int count, char **words)
{
    size_t statuses[4] = {0}, number = 0;
    if (count < 3)
        return 2;
    make(&tables_memory);
    make(&tokens_memory);
    make(&room_memory);
    for (int text = 4; text < 2 * count; text++) {
        const char *const from = words[text / 2];
        uint8_t made = lr1_tables((const uint8_t *)from, strlen(from), (const uint8_t *)"S", 1, false, text % 2 == 1,
                                  tables, MOST, &tables_length);
        expect(made == LR1_OK && tables_length <= MOST, "a text has no tables", number);
        for (size_t last = number + strtoul(words[1], NULL, 10); number < last; number++)
            statuses[try_call(number)]++;
        try_faults(number);
    }
    printf("%zu calls, %zu of status 0, %zu of status 1, %zu of status 2\n", number, statuses[0], statuses[1], statuses[2]);
    return statuses[0] > 0 && statuses[1] > 0 && statuses[2] > 0 && statuses[3] == 0 ? 0 : 1;
}
