/*
 * Questions to the library, which the programs of this folder read from a file. A question is a
 * grammar text, words, and a byte that is 1 for the canonical tables. The text and the words each
 * have their number of bytes before them, in four bytes, the lowest first.
 */
#ifndef QUESTIONS_H
#define QUESTIONS_H

#include <lr1.h>
#include <stdio.h>
#include <stdlib.h>
#include <string.h>

struct part {
    const uint8_t *bytes;
    size_t length;
};

struct question {
    struct part text, words;
    bool canonical;
};

/* Ends the program with a message on a question. */
static void fault(size_t number, const char *what)
{
    printf("question %zu: %s\n", number, what);
    fflush(stdout);
    exit(1);
}

/* A whole file. */
static struct part read_file(const char *path)
{
    struct part it = {NULL, 0};
    FILE *file = fopen(path, "rb");
    if (file == NULL || fseek(file, 0, SEEK_END) != 0)
        exit(2);
    it.length = (size_t)ftell(file);
    rewind(file);
    uint8_t *bytes = malloc(it.length + 1);
    if (bytes == NULL || fread(bytes, 1, it.length, file) != it.length)
        exit(2);
    fclose(file);
    it.bytes = bytes;
    return it;
}

/* Takes bytes from the front of what is left. */
static struct part take(struct part *rest, size_t length)
{
    if (rest->length < length)
        exit(2);
    struct part it = {rest->bytes, length};
    rest->bytes += length;
    rest->length -= length;
    return it;
}

static struct part take_part(struct part *rest)
{
    const uint8_t *it = take(rest, 4).bytes;
    return take(rest, it[0] | (size_t)it[1] << 8 | (size_t)it[2] << 16 | (size_t)it[3] << 24);
}

static struct question take_question(struct part *rest)
{
    struct question it;
    it.text = take_part(rest);
    it.words = take_part(rest);
    it.canonical = *take(rest, 1).bytes == 1;
    return it;
}

#endif
