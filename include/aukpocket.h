/* Aukpocket: SEG-Y revision 0 reels and their canonical records.
 *
 * Link with libaukpocket.a (`make` makes build/libaukpocket.a, for x86-64 Linux). Nothing is allocated and nothing is kept: each call
 * works on the buffers that it is lent, takes every input, and ends. A refused call on a reel or record changes no byte of its output,
 * and the rest of a longer output keeps its content; a refused single-sample call sets its output to 00. Calls on different buffers may
 * run at the same time.
 *
 * A buffer is a pointer and a length. The pointer must be valid for that many bytes, and not null, even where the length is 0; an
 * output must not overlap an input.
 *
 * Every answer begins with `number`: 0 where the call was taken, else the number of the cause, with what stands beside it in `beside`.
 * Members that say nothing are 0. A place is an offset in the input at fault, counted from 0; a byte number is the standard's, counted
 * from 1. aukpocket_blank_eight alone is lent no buffer and has no such answer: it takes a number, gives a number, and refuses nothing.
 *
 *   number  cause                                                     beside
 *    1      the reel has under 3,600 bytes                            its length
 *    2      the format code is not 1, 2, 3, 4, 5 or 8, or that of     place 3224
 *           an Eagle reel is not 1
 *    3      the count of samples N is not 1 to 32,767                 place 3220
 *    4      the interval is not 1 to 32,767                           place 3216
 *    5      bytes after the last whole trace                          place of the first
 *    6      more than 100,000 traces                                  place of trace 100,001
 *    7      trace field 115 is neither 0 nor N                        its place
 *    8      trace field 117 is neither 0 nor the reel's interval      its place
 *    9      the first byte of a gain word is not 00                   its place
 *   10      the output is too short                                   the length needed
 *   11      the target code is not 1, 2, 3, 4, 5 or 8                 0
 *   12      the record's form is wrong                                place of the field's tag, or of the first byte too many
 *   13      the record holds a number that no record has: a card      place of its first byte
 *           byte 00, an interval, N or format code outside its
 *           limits, trace field 69 or 71 other than the scalar of
 *           the smallest power, trace field 115 or 117 unlike the
 *           reel's, a pair that isn't canonical
 *   14      a sample doesn't fit the target code                      place of its pair
 *   15      no such trace                                             0
 *   16      no assigned field of that header begins at that byte      0
 *           number
 *   17      the listing has another length than 3,240                 its length
 *           or else not 0A at some 81st byte                          place of the first such byte
 *   18      trace field 69 or 71 of a reel is not 0, 1, -1, or plus   its place
 *           or minus 10, 100, 1,000 or 10,000
 *   19      an IEEE word is an infinity or a not-a-number             its place
 *   20      the last two bytes of an Eagle reel's trailer are not     place of the first of the two
 *           FFFF
 *
 * For a single word or pair the place beside 2, 9, 11, 13, 14 and 19 is 0. A box of reels has two numbers more, every place of it is counted
 * in its whole slice, and the length beside 1 is that of the reel alone:
 *
 *   number  cause                                                     beside it
 *   21      the lengths of a box don't add up to its slice            place 0
 *   22      a field of a box breaks a rule on line, N, interval or    its place
 *           sequence
 *
 * The format codes, the bytes of a sample on a reel, and its value. All numbers are big-endian, whole ones in two's complement.
 *
 *   code  bytes  value
 *    1     4     IBM word: a sign bit, a characteristic C of 7 bits, a fraction F of 24 bits: F * 16^(C - 70) with that sign
 *    2     4     whole number
 *    3     2     whole number
 *    4     4     00, a gain g of one byte, a whole number d of two: d / 2^g
 *    5     4     IEEE word: a sign bit, an exponent E of 8 bits, a fraction F of 23 bits: (2^23 + F) * 2^(E - 150) with that sign; where
 *                E is 0, F * 2^-149, so that both zeros are 0 and subnormal numbers count; where E is 255 there is no value (19)
 *    8     1     whole number
 *
 * Codes 5 and 8 are those of revision 1 of SEG-Y. They are taken on every reel but an Eagle reel (below), and by the code alone: nothing
 * else of revision 1 is looked at or written, and a reel of earlier days whose code 5 means 36-bit words is judged as one of IEEE words.
 *
 * Exact writing gives under code 1 the normal word (below), under code 4 the word with the smallest gain, and under the others the only
 * word of the value, of the two zeros of code 5 00000000. A value that no word of the code has is refused by 14.
 *
 * Nearest writing, a call of its own, refuses no value, so 14 doesn't occur: each becomes the nearest value of the code, and its word is
 * the one that exact writing gives for that value. Beyond the code's range the nearest value is the end on that side, under code 5 the
 * largest finite number of that sign. Of two values equally near, the one nearer zero is taken. What becomes zero is 00 throughout, also
 * where it was negative. `changed` tells how many samples have another value on the reel than in the record. Where the call is taken and
 * `changed` is 0, the reel is that of exact writing and gives the record back; else it gives another record, nothing on the reel says so,
 * and the record alone is exact. No other call rounds.
 *
 * Eagle reels are those of the OPSEIS Eagle recorder. A call of its own reads them; every other call takes a plain reel, or gives one. An
 * Eagle reel is as a plain reel of code 1, the only code that it may have, but for two things. Each trace is followed by a trailer of 960
 * bytes that ends in FFFF and counts as part of the trace, for 5 and 6 too. And columns 79 and 80 of card 40 hold a check: they are taken
 * as blanks (40), whatever they hold. Header fields stand where they stand on a plain reel; trace field 169 is a bare number, which isn't
 * applied to the samples. Trailers and checks carry no meaning. Reels on which the samples of dead stations were omitted aren't covered, and
 * get the cause that their bytes lead to. The record is that of a plain reel of the same meaning, and tells nothing of the layout.
 *
 * Nothing on a reel says which layout it has, and some bytes are taken by both calls: each gives them the meaning, the count of traces too,
 * that its own layout has. A caller who isn't sure asks both with an output of length 0: 10 means that no other cause applies.
 *
 * A record leaves out what carries no meaning in revision 0: bytes 3261 to 3600, and bytes 181 to 240 of each trace header; of an Eagle
 * reel the trailers and that check too. Reading takes any bytes there, but for a trailer's FFFF, and says nothing of them; writing sets
 * the former to 0. A caller who wants to know looks at the reel's bytes. A record has no format code either, and of the spellings taken as
 * one it has the meaning: a card byte 00 is a blank (40), a 0 in trace fields 115 and 117 is the reel's number, a sample is its exact
 * value, and so are elevations and coordinates. docs/FORMAT.md has both byte by byte.
 *
 * In a record the samples of a trace stand in fields of 6,000 (tag 04, length 36,000), the last with the remaining 1 to 6,000: in one field
 * up to N 6,000, in two up to 12,000, in six for 32,767. Where N is 6,001 to 8,000 a trace may also have all of them in a single field, of
 * length 6 * N, as every record had before 0.8.0: that is the earlier form. Every call that takes a record takes it, each trace judged by
 * itself, so that one record may have traces of both forms; all give the same reel. The length of a trace's first field of samples tells
 * its form. Any other length is refused by 12 at its tag, and so is a single field of more than 8,000 samples. The fields of a trace are
 * judged one after another, each by 12 and then by 13. Reading always gives the new form: wherever a written record comes back, an earlier
 * one comes back in that form, with three bytes more for each trace that had a single field, and the output has to be long enough for it.
 * aukpocket_take_cards keeps the form of the record that it is lent.
 *
 * Valid records have an order, that of their card bytes, taken as unsigned numbers; then of the 27 numbers of the binary header; then, trace
 * by trace, of the 71 numbers of its header and of its samples, by exact value. Header numbers are signed and count as they stand in the
 * record, elevations and coordinates without their scalars, and 69 and 71 like the others. The first that differs decides; where everything
 * that both have agrees, the record with fewer traces is the lesser. The form of a trace plays no part. Any two valid records have an order,
 * and they are equal just when they hold the same: cards, header numbers, count of traces and values of samples. Where two samples both fit
 * code 1, their order is that of their normal words read as sign and magnitude.
 *
 * A box of reels is a line on several plain reels, lent as one slice, one reel behind the other, with a list of their lengths. All have the
 * line number (field 3205), the interval (3217) and N (3221) of the first. The reel number (3209) is one more than that of the reel before.
 * On each reel trace field 5 is 1 in the first trace and one more in each that follows. Trace field 1 is one more than in the trace before,
 * across reel ends too; a reel without traces doesn't break that run. The first reel number and the first field 1 are free, and nothing
 * wraps: no number follows 2,147,483,647. All else may differ from reel to reel, the format code and the cards too. A box without reels is
 * a box, a reel of length 0 is a reel under 3,600 bytes, and 100,000 traces are the limit of each reel, not of the box.
 *
 * Elevations and depths (trace fields 41 to 65) have the scalar in field 69, coordinates (73 to 85) that in field 71: a positive one
 * multiplies, a negative one divides, 0 is taken as 1. Two reels count as equal by the scaled values of these fields, exactly, and not by
 * 69 and 71 themselves. A record has, for each of the two groups of each trace, the smallest power of ten from -4 to 4 at which all the
 * group's numbers are whole and fit 32 signed bits, as a scalar from -10000 to 10000, power 0 as 1; the group's fields are the values
 * divided by that power. A group of zeros has -10000. Writing sets the fields as they stand in the record, so a reel that is read and
 * written again may have other numbers under other scalars, of the same values. Any other scalar in a record is refused by 13, in a trace's
 * header before fields 115 and 117, and so is nearly every record that was made before this rule: README.md says what to do with one.
 *
 * A listing is the text of a record's 40 cards: for each a line of 80 ISO 8859-1 characters, one byte each, closed by 0A, 3,240 bytes in
 * all. The characters are those of EBCDIC code page 037 as Unicode publishes it (15 is 85, 25 is 0A). Every card byte has a character of
 * its own, so a line may hold control characters, 0A among them: the listing is not for a terminal as it is, and a line ends at its 81st
 * byte alone.
 *
 * An IBM word (code 1) is normal where the first hexadecimal digit of its fraction isn't 0, unless its characteristic is 0; of the words of
 * zero 00000000 alone is. Every other word has the value of a normal one, which is what writing gives: 80000000 and 7F000000 are zero,
 * 42010000 is 1 and so is the normal 41100000. A record has the value and no word, so `not_normal` tells while reading how many of the
 * reel's words weren't normal. Reels of the other codes count none.
 */
#ifndef AUKPOCKET_H
#define AUKPOCKET_H

#include <stddef.h>
#include <stdint.h>

#ifdef __cplusplus
extern "C" {
#endif

/* One more with each change here that a caller may have to follow.
 *
 *   1  as it was first; that header doesn't define the number
 *   2  `not_normal` at the end of aukpocket_reel_answer and aukpocket_sample_answer (0.3.0): what was compiled under 1 has to be compiled
 *      again
 *   3  codes 5 and 8 and number 19 (0.4.0): structures and arrays are as under 2, and what was compiled under 2 can be linked as it is, but
 *      it meets reels and an answer that there weren't
 *   4  aukpocket_write_nearest, and `changed` at the end of aukpocket_reel_answer (0.5.0): what was compiled under 3 or before has to be
 *      compiled again
 *
 * aukpocket_blank_eight is there since 0.6.0, aukpocket_read_eagle and number 20, which that call alone answers, since 0.7.0,
 * aukpocket_compare and its answer since 0.9.0, and aukpocket_check_box, its answer, and numbers 21 and 22, which that call alone answers,
 * come with the version after it and are here already, and the number stayed 4: all else is as it was, and what was compiled under 4 can be
 * linked as it is. So it can with 0.8.0, in which no declaration changed. But N runs to 32,767 since then, before to 8,000, and where it is
 * above 6,000 a trace has several fields of samples in the record: a caller who works out a record's length, or takes its bytes apart, has
 * to follow. */
#define AUKPOCKET_VERSION 4

/* What a call on a whole reel or record answers: the traces, the samples of each, and the length of what was written. Beside a listing
 * traces and samples are 0. Reading a reel of code 1 also counts its words that aren't normal, 0 to traces * samples; `not_normal` is 0
 * under the other codes, beside a refusal, 10 too, and in every other call. Nearest writing counts the samples whose value changed, 0 to
 * traces * samples; `changed` is 0 beside a refusal, 10 too, and in every other call. */
struct aukpocket_reel_answer {
    uint64_t number;
    uint64_t traces;
    uint64_t samples;
    uint64_t length;
    uint64_t beside;
    uint64_t not_normal;
    uint64_t changed;
};

/* What looking up a field answers: its signed number. */
struct aukpocket_field_answer {
    uint32_t number;
    int32_t value;
    uint64_t beside;
};

/* What comparing two records answers: `order` is -1 where the first is the lesser, 0 where they are equal, and 1 where the second is the
 * lesser. Where one is refused, `which` says which, 1 or 2, `beside` is a place in that record, and `order` is 0, so `number` has to be looked
 * at first. */
struct aukpocket_order_answer {
    uint32_t number;
    int32_t order;
    uint64_t which;
    uint64_t beside;
};

/* What checking a box of reels answers: how many reels it has, and how many traces they have together. Both are 0 beside a refusal. */
struct aukpocket_box_answer {
    uint64_t number;
    uint64_t reels;
    uint64_t traces;
    uint64_t beside;
};

/* What a single-sample call answers. Reading a word of code 1 that isn't normal also gives 1 in `not_normal`, which is 0 for every other
 * word, under the other codes, beside a refusal, and in aukpocket_write_pair. */
struct aukpocket_sample_answer {
    uint64_t number;
    uint64_t beside;
    uint64_t not_normal;
};

/* Reads a reel, writes its record to the front of `record`, and counts its words that aren't normal. A record of T traces of N samples is
 * 3273 + T * (183 + 3 * F + 6 * N) bytes, F being N / 6,000 rounded up. Refuses by 1 to 6 in that order, then trace by trace 7, 8, 18 by
 * field 69, 18 by field 71, and 9 or 19, first such word first, then 10. */
struct aukpocket_reel_answer aukpocket_read_reel(const uint8_t *reel, size_t reel_length, uint8_t *record, size_t record_length);

/* Reads an Eagle reel, writes its record to the front of `record`, and counts its words that aren't normal, all as aukpocket_read_reel does
 * with a plain reel. A trace of N samples takes 1200 + 4 * N bytes of the reel, its trailer among them. Refuses by 1; by 2 where the code
 * isn't 1; by 3 to 6 in that order; then trace by trace 7, 8, 18 by field 69, 18 by field 71, and 20; then 10. Never by 9 or 19. */
struct aukpocket_reel_answer aukpocket_read_eagle(const uint8_t *reel, size_t reel_length, uint8_t *record, size_t record_length);

/* Writes a record as a reel under a target code to the front of `reel`. A reel of T traces of N samples is 3600 + T * (240 + N * w)
 * bytes, w being the bytes of a sample under the code. Refuses by 11; then the record front to back, each field by 12 and then by 13;
 * then 14, first sample first; then 10. */
struct aukpocket_reel_answer aukpocket_write_reel(const uint8_t *record, size_t record_length, uint32_t code, uint8_t *reel,
                                                  size_t reel_length);

/* Writes a record as a reel under a target code to the front of `reel`, each sample as the nearest value of the code, and counts the samples
 * whose value changed. All else, the reel's length too, is as in aukpocket_write_reel. Refuses by 11, then by 12 and 13 as that call does,
 * then by 10; never by 14. */
struct aukpocket_reel_answer aukpocket_write_nearest(const uint8_t *record, size_t record_length, uint32_t code, uint8_t *reel,
                                                     size_t reel_length);

/* Looks up the assigned field that begins at a byte number: of the binary header (3201 to 3259) for trace 0, of that trace's header
 * (1 to 179) from 1 on. Fields 115 and 117 are filled in from the reel where they are 0; all others are the bare numbers of the reel, 3225
 * and the scalars 69 and 71 too, and no scalar is applied. Refuses by 1 to 9, 18 and 19 as aukpocket_read_reel does, then 15, then 16. */
struct aukpocket_field_answer aukpocket_look_up(const uint8_t *reel, size_t reel_length, size_t trace, uint32_t byte_number);

/* Writes the listing of a record's cards to the front of `listing`: 3,240 bytes. Refuses by 12 and 13 as aukpocket_write_reel does, then
 * 10. */
struct aukpocket_reel_answer aukpocket_list_cards(const uint8_t *record, size_t record_length, uint8_t *listing, size_t listing_length);

/* Writes a record with the text of a listing to the front of `out`: each card byte is the one that has the listing's character, a card
 * byte 00 becomes a blank (40), and all else is as in `record`, its form and its length too. Any listing goes with any record. Refuses by 12
 * and 13 as aukpocket_write_reel does, then 17 by the length, then 17 by the place, then 10. */
struct aukpocket_reel_answer aukpocket_take_cards(const uint8_t *record, size_t record_length, const uint8_t *listing,
                                                  size_t listing_length, uint8_t *out, size_t out_length);

/* Compares two records by the order above, and writes nothing. They may be the same bytes, or overlap. Refuses the first by 12 and 13 as
 * aukpocket_write_reel does, then the second. */
struct aukpocket_order_answer aukpocket_compare(const uint8_t *first, size_t first_length, const uint8_t *second, size_t second_length);

/* Checks that a box of reels is one line, and writes nothing. `lengths` has the bytes of each reel; the pointer must be valid for
 * `lengths_count` numbers, and not null, even where there are none. Refuses by 21 where they don't add up to `reels_length`, whatever else is
 * wrong; then reel by reel by its own 1 to 9, 18 and 19, as aukpocket_read_reel does, and by 22 with the first field of that reel that breaks
 * a rule: 3205, 3209, 3217, 3221, then trace by trace field 1, field 5. Beside 1 stands a length, which doesn't say which reel it is: it is
 * the first of under 3,600 bytes. */
struct aukpocket_box_answer aukpocket_check_box(const uint8_t *reels, size_t reels_length, const uint64_t *lengths, size_t lengths_count);

/* Takes any eight card bytes as one number, the first of them its highest byte, and gives the number that has a blank (40) for each byte 00
 * and every other byte as it was. Each byte is replaced where it stands, so eight bytes that are loaded and stored in the machine's own
 * order come out the same. aukpocket_read_reel and aukpocket_read_eagle do this with all 3,200 card bytes, in 400 steps. */
uint64_t aukpocket_blank_eight(uint64_t cards);

/* One sample, from the four bytes of its word to the six of its canonical pair: the exponent in two bytes, the mantissa in four, both
 * big-endian two's complement; and whether the word isn't normal. A code 3 sample is the word's first two bytes, a code 8 sample its first
 * byte, and the rest is ignored. Refuses by 2, then 9 or 19; the pair is then all 00. */
struct aukpocket_sample_answer aukpocket_read_word(uint32_t code, const uint8_t word[4], uint8_t pair[6]);

/* One sample, from the six bytes of its pair to the four of its word. A code 3 sample is the word's first two bytes, a code 8 sample its
 * first byte, and the rest is 00. Refuses by 11, 13, 14; the word is then all 00. */
struct aukpocket_sample_answer aukpocket_write_pair(uint32_t code, const uint8_t pair[6], uint8_t word[4]);

#ifdef __cplusplus
}
#endif

#endif
