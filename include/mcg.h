/* mcg.h: the three calls of the sentence reader (static library `board`, x86-64).
 *
 * Each call answers three numbers, whole, into `answer`:
 *
 *     answer[0]  code      0 yes or written, 1 no, any other number a refusal
 *     answer[1]  place     says where; see the table of codes
 *     answer[2]  count     of records, nodes or words; 0 on a refusal
 *
 * docs/SCOPE.md says all of this at length, with examples.
 *
 * WHAT IS LENT
 *
 * Slices that a call writes must not overlap any other that it is lent. Where a length is 0 nothing is read or written through its pointer,
 * which may be anything, NULL too. `answer` has room for three numbers. Lengths may be any number up to what is there. A chart, a tree list
 * and a text are two-byte numbers of this machine.
 *
 * A call touches only what it is lent, keeps nothing for the next one and takes no memory of its own but the stack, for which 64 KB are
 * enough. Calls may be made from several threads at once, each on slices of its own.
 *
 * Every call ends, whatever it is lent. But how soon hangs on the table: a hostile one of 256 rules can make mcg_read work for a long time.
 * docs/SPEED.md has the times. A driver that takes tables from strangers reads them in a thread or a process that it can wait for.
 *
 * A TABLE, VERSION 1 (two-byte numbers have the low byte first)
 *
 *     bytes 0-2    MCG
 *     bytes 3-4    1, the version
 *     byte 5       number of categories, 1 to 64
 *     byte 6       the start category, counted from 1
 *     bytes 7-8    number of rules, 0 to 256
 *     a byte for each category: its dimension, 1 to 3; that of the start is 1
 *     the rules, one after another, and then nothing:
 *         2 bytes  function number, 1 to 65535, no two alike
 *         1 byte   category
 *         1 byte   rank, 0 to 3: the number of daughters
 *         a byte for each daughter: her category
 *         a row for each constituent, as many as the category's dimension:
 *             1 byte   length, 0 to 16
 *             so many symbols of 3 bytes, a kind and a two-byte number: kind 0 is a word, 1 to 65535;
 *             kind k from 1 to the rank is daughter k, and the number one of her constituents, counted from 1
 *
 * Within a rule each constituent of each daughter stands exactly once. No valid table is longer than 39,497 bytes.
 *
 * A sentence has up to 64 words of two bytes, low byte first, lent as bytes; no word is 0.
 *
 * A CHART is made of records of twelve numbers, one for each phrase of the sentence: category, function, height, three ranges as start and
 * end, three daughters' records (counted from 0). A range s, e is words s up to but not including e; the empty one is 0, 0. Unused ranges
 * and daughters are 0. Records stand in rising order of category, then of the six range numbers. A sentence may have several trees; a record
 * holds one: of the trees with the fewest levels the one whose function number is the least, then whose daughters' records come first.
 *
 * CODES
 *
 *  code            given when                                                     place
 *   2 Short        a field of the table is cut by its end                         the table's length
 *   3 Mark         the table does not begin with MCG                              0
 *   4 Version      the version is not 1                                           3
 *   5 Range        number of categories or rules, a dimension, a rank or a        the field
 *                  row's length is outside its limits
 *   6 Category     a category is 0 or above the number of categories              the field
 *   7 Function     a function number is 0 or was used before                      the field
 *   8 Symbol       a kind above the rank; word 0; a constituent that is 0 or      the kind byte for a kind, else
 *                  above the daughter's dimension                                 the byte after it
 *   9 Twice        a constituent is used again in the rule                        the kind byte
 *  10 Missing      after a rule's rows a constituent is unused                    the rule's first byte
 *  11 Start        the start category's dimension is not 1                        the dimension's byte
 *  12 Trailing     bytes after the last rule                                      the first of them
 *  13 Long         more than 64 words                                             64
 *  14 Odd          the words' bytes are odd in number                             the last byte
 *  15 Zero word    a word is 0                                                    its index
 *  16 Full         there are more phrases than room: NOT a no                     the room
 *  22 Deep         a height passes 2,000 (proved never to come)                   0
 *  17 Chart        a lent chart's count is too great, or a record is bad          0, or the first bad record
 *  18 Place        the root is not below the count                                the root
 *  19 Tree room    the tree has more nodes than room                              the room
 *  20 Tree list    the list is no tree of the start category                      the node's index; the list's length
 *                                                                                 where it ends too early; 255 where
 *                                                                                 it has more than 255 nodes
 *  21 Text room    the text has more words than the slice holds                   the words needed
 *
 * The first that holds is given, and no other. Their order: fewer than nine bytes are Short; then the header's fields in byte order; then
 * each dimension; then Start; then the rules in byte order (a field, or the three bytes of a symbol, must be there before it is judged;
 * Missing when the rule's rows end); then Trailing; then 13, 14, 15; then what the call itself refuses: mcg_read 16, 22; mcg_tree 17, 18,
 * 19; mcg_sentence, which has no words to check, 20, 21.
 */
#ifndef MCG_H
#define MCG_H

#include <stddef.h>
#include <stdint.h>

#ifdef __cplusplus
extern "C" {
#endif

/* Limits: numbers of a record, records of a chart, nodes of a tree list, words of a sentence. */
#define MCG_RECORD_NUMBERS 12
#define MCG_MOST_RECORDS 2000
#define MCG_MOST_NODES 255
#define MCG_MOST_WORDS 64

/* The codes that a driver tells apart; the others say what is wrong with what it lent. */
#define MCG_YES 0
#define MCG_NO 1
#define MCG_FULL 16

/* Reads a sentence: all phrases that the table's rules find in it, each once, in chart order.
 *
 *   table, table_len    the rule table, bytes
 *   words, words_len    the sentence, two bytes a word, low byte first; at most 128 bytes
 *   allowance           the greatest number of records wanted; 0 means 2,000, more than 2,000 is taken as 2,000
 *   chart, chart_len    the chart, in two-byte numbers; the room is the smaller of the allowance and chart_len / 12
 *
 * Afterwards:
 *   code 0 (yes)        place is the goal's record, count the number of records
 *   code 1 (no)         place 0, count the number of records
 *                       In both, record i stands at chart[12 i] .. chart[12 i + 11], and every number after the last record is 0.
 *   code 16, 22         every number of chart is 0. After 16 more room may help, if the room was less than 2,000.
 *   any other code      chart is as it was
 */
void mcg_read(const uint8_t *table, size_t table_len, const uint8_t *words, size_t words_len, size_t allowance,
              uint16_t *chart, size_t chart_len, uint64_t answer[3]);

/* Writes the tree of one record of a chart, as function numbers, each node before its daughters. Anyone may have made the chart.
 *
 *   table, words        as for mcg_read
 *   chart, chart_len    the chart, only read
 *   count               how many records of it to use; what stands after them is not looked at
 *   root                which record's tree to write
 *   tree, tree_len      where to; the room is the smaller of tree_len and 255
 *
 * A record is bad (17) if it does not come after the one before it in chart order; if its function is not one of the table; if a
 * daughter is not below the count; if the function does not give this category and these ranges from these daughters in these words
 * (daughters of another category, or with ranges that are none of the sentence, give nothing); if an unused number is not 0; or if its
 * height is not one more than the greatest of its daughters' (1 without daughters). A daughter may stand after her mother. Every chart
 * that mcg_read made for this table and these words passes; what passes holds only phrases of the sentence.
 *
 * 17 at place 0 says either of two things: the count is above 2,000 or above chart_len / 12, or record 0 is bad. It is the first exactly
 * if count > 2000 || count > chart_len / 12.
 *
 * Afterwards:
 *   code 0              tree[0] .. tree[count - 1] are the nodes (count is answer[2]); the numbers after them are as they were
 *   any other code      tree is as it was
 */
void mcg_tree(const uint8_t *table, size_t table_len, const uint8_t *words, size_t words_len, const uint16_t *chart,
              size_t chart_len, size_t count, size_t root, uint16_t *tree, size_t tree_len, uint64_t answer[3]);

/* Writes the words of the tree that a list of function numbers is. They may be more than 64.
 *
 *   table, table_len    the rule table
 *   tree, tree_len      the list, each node before its daughters; at most 255 nodes
 *   text, text_len      where the words go
 *
 * Afterwards:
 *   code 0              text[0] .. text[count - 1] are the words (count is answer[2]); the numbers after them are as they were
 *   any other code      text is as it was
 */
void mcg_sentence(const uint8_t *table, size_t table_len, const uint16_t *tree, size_t tree_len, uint16_t *text,
                  size_t text_len, uint64_t answer[3]);

#ifdef __cplusplus
}
#endif

#endif
