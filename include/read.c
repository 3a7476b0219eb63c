/* Reads a sentence with a table file, whose words are numbers, and prints the answer and on a yes the tree's function numbers.
 *
 *     cc -std=c99 -Iinclude include/read.c target/staticlib/libboard.a -o target/read
 *     target/read tables/copy.mcg 7 8 7 8
 *
 * Its exit codes are those of ./read: see `help` below.
 */
#include <errno.h>
#include <stdio.h>
#include <stdlib.h>
#include <string.h>

#include "mcg.h"

/* No valid table is longer than 40,000 bytes, and 65 words are too many already. */
enum { TABLE_BYTES = 40000, WORD_BYTES = 2 * (MCG_MOST_WORDS + 1), NUMBERS = MCG_RECORD_NUMBERS * MCG_MOST_RECORDS };

enum { YES = 0, NO = 1, WRONG_USE = 2, REFUSED = 3, FULL = 4 };

static const char help[] =
    "read [--allowance N] TABLE WORD..\n"
    "\n"
    "Reads a sentence by a table; each word is a number up to 65535. An allowance\n"
    "of 0, as without it, means 2,000 phrases. The exit code says how it ended:\n"
    "\n"
    "  0  yes: some tree of the table says the sentence\n"
    "  1  no: none does\n"
    "  2  wrong use, or a file that can't be read: nothing was read\n"
    "  3  refused: the message has the code and the place\n"
    "  4  Full: neither yes nor no, because there are more phrases than room\n";

static uint8_t table[TABLE_BYTES];
static uint8_t words[WORD_BYTES];
static uint16_t chart[NUMBERS];
static uint16_t tree[MCG_MOST_NODES];

static int wrong_use(const char *why, const char *what)
{
    fprintf(stderr, "%s: %s\n", why, what);
    return WRONG_USE;
}

/* Reads the table; 0 if it can't be read. */
static int read_table(const char *name, size_t *length)
{
    FILE *file = fopen(name, "rb");
    int good;

    if (file == NULL)
        return 0;
    *length = fread(table, 1, sizeof table, file);
    good = !ferror(file);
    fclose(file);
    return good;
}

/* Reads a number in decimal; 0 if it is none, or above the greatest. */
static int read_number(const char *text, unsigned long greatest, unsigned long *number)
{
    char *end;

    errno = 0;
    *number = strtoul(text, &end, 10);
    return text[0] >= '0' && text[0] <= '9' && *end == '\0' && errno == 0 && *number <= greatest;
}

/* Adds a word, low byte first; those after the 65th change nothing. */
static void add_word(unsigned long word, size_t *length)
{
    if (*length + 2 <= sizeof words) {
        words[(*length)++] = (uint8_t)(word % 256);
        words[(*length)++] = (uint8_t)(word / 256);
    }
}

/* Prints an answer, a refusal as a complaint, and says which end it is. A code that is neither 0 nor 1 says neither yes nor no. */
static int end_of(const char *call, const uint64_t answer[3])
{
    fprintf(answer[0] <= 1 ? stdout : stderr, "%s: code %llu, place %llu, count %llu\n", call, (unsigned long long)answer[0],
            (unsigned long long)answer[1], (unsigned long long)answer[2]);
    if (answer[0] <= 1)
        return (int)answer[0];
    if (answer[0] != MCG_FULL)
        return REFUSED;
    fprintf(stderr, answer[1] < MCG_MOST_RECORDS ? "neither yes nor no: a larger allowance, up to 2,000, may help\n"
                                                 : "neither yes nor no: only a shorter sentence helps, or another table\n");
    return FULL;
}

/* Reads the sentence and, on a yes, writes and prints the tree. */
static int read_sentence(size_t table_len, size_t words_len, size_t allowance)
{
    uint64_t answer[3];
    size_t i;
    int end;

    mcg_read(table, table_len, words, words_len, allowance, chart, NUMBERS, answer);
    end = end_of("read", answer);
    if (end != YES)
        return end;
    mcg_tree(table, table_len, words, words_len, chart, NUMBERS, (size_t)answer[2], (size_t)answer[1], tree, MCG_MOST_NODES, answer);
    end = end_of("tree", answer);
    if (end != YES)
        return end;
    for (i = 0; i < answer[2]; i++)
        printf("%u%c", (unsigned)tree[i], i + 1 < answer[2] ? ' ' : '\n');
    return YES;
}

int main(int argc, char **argv)
{
    size_t table_len, words_len = 0;
    unsigned long allowance = 0, word;
    int arg = 1;

    if (argc > 1 && strcmp(argv[1], "--help") == 0) {
        fputs(help, stdout);
        return 0;
    }
    if (argc > 2 && strcmp(argv[1], "--allowance") == 0) {
        if (!read_number(argv[2], 1000000, &allowance))
            return wrong_use("this is no allowance (a number up to 1000000)", argv[2]);
        arg = 3;
    }
    if (argc <= arg)
        return wrong_use("please say which table and which words", "read TABLE WORD..");
    if (!read_table(argv[arg], &table_len))
        return wrong_use("the table can't be read", argv[arg]);
    for (arg++; arg < argc; arg++) {
        if (!read_number(argv[arg], 65535, &word))
            return wrong_use("this is no word (words are numbers up to 65535)", argv[arg]);
        add_word(word, &words_len);
    }
    return read_sentence(table_len, words_len, allowance);
}
