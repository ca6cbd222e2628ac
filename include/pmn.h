/* Threshold networks in PMN files, folded: the functions for C (libcapi.a).
 *
 * Every function takes whole files, of version 1 or 2, and numbers, and answers 0 or the number of a refusal (the table of codes in
 * document 01; 22 and 24 to 29 are from document 02). The numbers 13, 20 and 23 are never given: 20 is for records, and these functions
 * take files.
 * A slice is a pointer and then a length, in bytes for uint8_t and in numbers for uint64_t and int64_t. A slice that is written overlaps
 * no other slice of the same call. A pointer is not null, even where the length is 0, and is aligned as C aligns its type: bytes anywhere,
 * numbers at a multiple of eight. The functions keep nothing from one call to the next, so threads may call them at the same time, each
 * with slices of its own to write.
 *
 * Every function but pmn_three_feeds, which is given no file, reads its file first: the refusal is the read's ("as read", 1 to 9 or 24),
 * before any other. On a refusal everything that was lent is left as it was; where the answer is 0, places and bytes after those named
 * are left as they were. pmn_witness alone writes where its answer is not 0: with 15, and only then.
 *
 * Each function says how much stack it takes, measured on the largest, the widest and the deepest networks; none takes more than 128 KB. */
#ifndef PMN_H
#define PMN_H

#include <stddef.h>
#include <stdint.h>

#ifdef __cplusplus
extern "C" {
#endif

/* Reads a file. Codes in order: as read, field by field: 1 to 9, and 24 after the feeds of a gate that breaks a margin of version 2.
 * Stack: 20 KB. */
uint8_t pmn_check(const uint8_t *file, size_t file_length);

/* Reads a frame, bit i for input i. answer[0]: the output bits, output j in bit j; answer[1]: how many of them are 1.
 * Codes in order: as read, 18 where answer has under 2 places, 10.
 * Stack: 31 KB. */
uint8_t pmn_frame(const uint8_t *file, size_t file_length, uint64_t frame,
                  uint64_t *answer, size_t answer_length);

/* Reads up to 64 frames in one pass. answers[i]: the output bits on frames[i], as pmn_frame gives them.
 * Codes in order: as read, 26 for more than 64 frames or where answers has fewer places than frames, 10 where any frame is refused.
 * Stack: 88 KB. */
uint8_t pmn_frames(const uint8_t *file, size_t file_length,
                   const uint64_t *frames, size_t frames_length,
                   uint64_t *answers, size_t answers_length);

/* Scores one bowler's game by ten-pin rules, from the frames after each ball. The first ten outputs are the pins, 1 for standing; further
 * outputs are passed over. A strike adds the next two balls, a spare the next one, and the tenth frame has up to three balls, with a fresh
 * rack after a strike or spare. answer[0]: how many balls there are; answer[1]: how many frames have a score, that is, are finished and
 * have their bonus balls; from answer[2] on: the pins felled by each ball, 21 places; from answer[23] on: the running score of each frame
 * that has one, ten places. Of these 33 places those that are not needed get 0. The game may be unfinished, or have no ball yet.
 * Codes in order: as read, 18 where answer has under 33 places, 27 where the network has fewer than ten outputs, also for a game without
 * balls; then ball by ball: 10, 28 for a ball after the game's end, 29 for a pin that stands after a ball without having stood before it
 * in the same rack. So an earlier ball's 29 comes before a later ball's 10.
 * Stack: 100 KB. */
uint8_t pmn_score(const uint8_t *file, size_t file_length,
                  const uint64_t *frames, size_t frames_length,
                  uint64_t *answer, size_t answer_length);

/* The pair for the gates with signals u and v. answer[0]: k; answer[1]: l.
 * Codes in order: as read, 18 where answer has under 2 places, 11, 12, 7, 16.
 * Stack: 36 KB. */
uint8_t pmn_pair(const uint8_t *file, size_t file_length, uint64_t u, uint64_t v,
                 uint64_t *answer, size_t answer_length);

/* Why the merge of u into v with k and l disagrees: a setting of the distinct feeds (u's feeds and v's other ones) on which the merged gate
 * and v with u put in differ, with as few of them lit as any such setting has. Nothing is merged. The answer is the merge's own number,
 * 0 where it would be accepted. Only where it is 15 answer[0] is written: the setting, bit i for the distinct feed i, counted from 0 in
 * rising order; pmn_distinct says which signals these are. With every other number answer is left as it was.
 * Codes in order: as read, 18 where answer has no place, 11, 12, 14, 7, 6, 24, 15: a merge that breaks a margin has no setting, even where
 * it disagrees too.
 * Stack: 52 KB. */
uint8_t pmn_witness(const uint8_t *file, size_t file_length, uint64_t u, uint64_t v, uint64_t k, uint64_t l,
                    uint64_t *answer, size_t answer_length);

/* The distinct feeds of the gates with signals u and v. answer[0]: how many they are; from answer[1] on: their signals, rising, distinct
 * feed i in answer[1 + i].
 * Codes in order: as read, 18 where answer has under 17 places, 11, 12, 7.
 * Stack: 52 KB. */
uint8_t pmn_distinct(const uint8_t *file, size_t file_length, uint64_t u, uint64_t v,
                     uint64_t *answer, size_t answer_length);

/* The size of the network. answer[0]: gates; answer[1]: cost; answer[2]: levels, where a gate without feeds has level 0.
 * Codes in order: as read, 18 where answer has under 3 places.
 * Stack: 31 KB. */
uint8_t pmn_report(const uint8_t *file, size_t file_length,
                   uint64_t *answer, size_t answer_length);

/* What a collapse of the gate with a signal would give, without doing it: the size of the network that it would leave. answer[0]: gates;
 * answer[1]: cost; answer[2]: levels. A gate without readers would be dropped.
 * Codes in order: as read, 18 where answer has under 3 places, then the collapse's: 11, 17, the first refusing reader's 7 or 16.
 * Stack: 37 KB. */
uint8_t pmn_preview(const uint8_t *file, size_t file_length, uint64_t signal,
                    uint64_t *answer, size_t answer_length);

/* Writes the file anew at the front of out. answer[0]: its length.
 * Codes in order: as read, 18 where answer has no place, 18 where the file is longer than out.
 * Stack: 31 KB. */
uint8_t pmn_write(const uint8_t *file, size_t file_length,
                  uint8_t *out, size_t out_length,
                  uint64_t *answer, size_t answer_length);

/* Writes the file of the same network in the other version at the front of out: version 1 into version 2 with the margins 0 and 1, version
 * 2 into version 1 where it has these margins. answer[0]: its length, 2 more or 2 less than the length of the file.
 * Codes in order: as read, 18 where answer has no place, 25 where version 1 cannot hold the margins, 18 where the other file is longer than
 * out.
 * Stack: 33 KB. */
uint8_t pmn_convert(const uint8_t *file, size_t file_length,
                    uint8_t *out, size_t out_length,
                    uint64_t *answer, size_t answer_length);

/* Writes the file of one output alone at the front of out; output is its number, counted from 0. The gates of the cut are those that the
 * output names or that a gate of the cut reads, in their order with new signals. All inputs, the margins and the version stay, and there is
 * one output. answer[0]: the length of the cut's file, which is never longer than the file.
 * Codes in order: as read, 18 where answer has no place, 8 for an output number that the network lacks, 18 where the cut's file is longer
 * than out.
 * Stack: 60 KB. */
uint8_t pmn_cut(const uint8_t *file, size_t file_length, uint64_t output,
                uint8_t *out, size_t out_length,
                uint64_t *answer, size_t answer_length);

/* Copies the bytes of the gate with a signal to the front of out. answer[0]: how many they are.
 * Codes in order: as read, 18 where answer has no place, 11, 18 where the gate's bytes are longer than out.
 * Stack: 20 KB. */
uint8_t pmn_part(const uint8_t *file, size_t file_length, uint64_t signal,
                 uint8_t *out, size_t out_length,
                 uint64_t *answer, size_t answer_length);

/* Puts line n of the question for two files, line feed included, at the front of out. answer[0]: its length.
 * Codes in order: as the first file is read, as the second is read, 18 where answer has no place, 19, 21, 18 where the line is
 * longer than out. No line is longer than 254 bytes.
 * Stack: 106 KB. */
uint8_t pmn_line(const uint8_t *first, size_t first_length,
                 const uint8_t *second, size_t second_length, uint64_t n,
                 uint8_t *out, size_t out_length,
                 uint64_t *answer, size_t answer_length);

/* Whether two files read alike: proved, for any two networks with equal input and output counts.
 * answer[0]: the verdict. 0, alike: on every frame both have the same output bits. 1, apart: answer[1] is a frame on which the output bits differ;
 * with any other verdict it is 0. 2, undecided: nothing is said; this is never given for networks with at most 20 inputs. answer[2]: the steps
 * used. budget is the greatest number of steps, and no time, so the same answer can be had again; with 1,000,000 nearly all pairs of masks and
 * folds are decided in some milliseconds, and the hardest take a few seconds. Which frame is given is left free.
 * Codes in order: as the first file is read, as the second is read, 18 where answer has under 3 places, 19.
 * Stack: 104 KB. */
uint8_t pmn_compare(const uint8_t *first, size_t first_length,
                    const uint8_t *second, size_t second_length, uint64_t budget,
                    uint64_t *answer, size_t answer_length);

/* Runs a list of calls on the network of a file, and puts the file of the network after the list at the front of out.
 * calls has five numbers for each call: a kind and four numbers, of which a kind passes over those that it does not use.
 *     0, u, v, k, l   merge of u into v with k and l; of u's complement, where u feeds v with a negative weight
 *     1, s            drop of s
 *     2, s            collapse of s
 *     3, B            sweep with reader limit B
 *     4, s            preview of the collapse of s, which leaves the network as it was
 *     5               undo of the latest step
 * Each call gets the network that the call before it left; a refused call leaves it as it was, and the list goes on.
 * The list keeps a journal of its last 64 accepted steps, which begins empty, since no file carries one. A merge is a step, and so is a drop;
 * a collapse enters its merges in rising order of the readers and then its drop, a sweep the steps of its collapses. An undo takes the latest
 * step back: the network is as it was before that step, signals included. It is no step itself; 22 where the journal is empty.
 * answers[0]: the length of the file in out. Then four numbers for each call: its code, 0 where it is accepted, and three numbers: of a
 * sweep the number of collapses, 0 and 0; of a preview gates, cost and levels after the collapse; of every other call, and where the code
 * is not 0, 0, 0 and 0.
 * Codes in order: as read, 14 where calls_length is no multiple of 5 or a kind is above 5, 18 where answers has fewer places than
 * 1 and 4 for each call, or out is shorter than the file. With 10,906 bytes or more in out, which hold any file, the list is run
 * once; with fewer it is run twice.
 * Stack: 107 KB. */
uint8_t pmn_run(const uint8_t *file, size_t file_length,
                const uint64_t *calls, size_t calls_length,
                uint64_t *answers, size_t answers_length,
                uint8_t *out, size_t out_length);

/* The entry of a truth table of three feeds: bit s of table is the value on setting s, and bit i of s is feed i, from 0.
 * Where a gate has that function, answer[0] is 1, answer[1] to answer[3] are the weights of feeds 0, 1 and 2 (-2 to 2, 0 leaves the feed
 * out), and answer[4] is T (-4 to 4). Where no gate of any weights has it, answer[0] is 0, answer[1] and answer[2] are two settings that
 * are 1, and answer[3] and answer[4] two that are 0 (repeats allowed), whose feed-by-feed sums are equal.
 * Codes in order: 18 where answer has under 5 places, 14 where table is above 255.
 * Stack: 6 KB. */
uint8_t pmn_three_feeds(uint64_t table, int64_t *answer, size_t answer_length);

#ifdef __cplusplus
}
#endif

#endif
