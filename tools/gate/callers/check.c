/*
 * Prints the status and the message of a check: check TEXT START NUMBER.. Each smaller room must get the
 * first bytes. Bytes after those of the message must keep their values.
 */
#include <lr1.h>
#include <stdio.h>
#include <stdlib.h>
#include <string.h>

enum { BEFORE = 170, MORE = 3, WORDS = 3 };

/* The tables, in a block of their own. */
static struct {
    uint32_t *numbers;
    size_t count;
} tables;

static void expect(bool holds, const char *text, size_t room)
{
    if (holds)
        return;
    fprintf(stderr, "%s, with room for %zu bytes\n", text, room);
    exit(1);
}

static uint8_t called(char **words, uint8_t *out, size_t room, size_t *length)
{
    return lr1_check((const uint8_t *)words[1], strlen(words[1]), (const uint8_t *)words[2], strlen(words[2]),
                     tables.numbers, tables.count, out, room, length);
}

/* A block of its own for so many bytes. */
static uint8_t *block(size_t room)
{
    uint8_t *bytes = malloc(room + (room == 0));
    expect(bytes != NULL, "no memory", room);
    memset(bytes, BEFORE, room);
    return bytes;
}

static void take_tables(int count, char **words)
{
    tables.count = (size_t)(count - WORDS);
    tables.numbers = malloc(tables.count * sizeof *tables.numbers + (tables.count == 0));
    expect(tables.numbers != NULL, "no memory", 0);
    for (size_t at = 0; at < tables.count; at++)
        tables.numbers[at] = (uint32_t)strtoul(words[WORDS + at], NULL, 10);
}

int main(int count, char **words)
{
    size_t length = 0, again = 0;
    expect(count >= WORDS, "the words are TEXT START NUMBER..", 0);
    take_tables(count, words);
    uint8_t *none = block(0);
    const uint8_t status = called(words, none, 0, &length);
    free(none);
    uint8_t *whole = block(length + MORE);
    expect(called(words, whole, length + MORE, &again) == status && again == length, "another answer", length + MORE);
    for (size_t at = length; at < length + MORE; at++)
        expect(whole[at] == BEFORE, "a byte after the message was written", length + MORE);
    for (size_t room = 0; room <= length; room++) {
        uint8_t *part = block(room);
        expect(called(words, part, room, &again) == status && again == length, "another answer", room);
        expect(memcmp(part, whole, room) == 0, "other bytes", room);
        free(part);
    }
    printf("%d %.*s", status, (int)length, (const char *)whole);
    free(whole);
    free(tables.numbers);
    return 0;
}
