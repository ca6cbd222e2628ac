/* A controller at the pin deck, as small as it can be: it takes the mask of its head, then reads the frames of its camera and shows the pins.
 *
 *     cc -std=c99 -Iinclude examples/controller.c target/staticlib/libcapi.a -o controller
 *     controller MASK < FRAMES
 *
 * FRAMES has a number for each camera frame, bit i for patch i, decimal or 0x. For each one the controller prints the output bits, output 0
 * first, and how many outputs are 1. After the last frame it prints the sheet, where the mask shows ten pins and the frames are a game: one
 * for each ball. What the library refuses is shown by its number, as on the head's display, and the controller goes on.
 * Exit status: 0 done, 1 the mask is refused or can't be read, 2 wrong use or a frame that is no number. */
#include <errno.h>
#include <inttypes.h>
#include <stdio.h>
#include <stdlib.h>

#include "pmn.h"

enum { LONGEST_FILE = 10906, BALLS = 21, SHEET_PLACES = 33 };

/* A mask, and how many outputs it has. One byte more than the longest file, so that a longer one is seen. */
struct mask {
    uint8_t file[LONGEST_FILE + 1];
    size_t length;
    unsigned outputs;
};

/* Reads a mask; 0, or the number of the library's refusal, or -1 where the file can't be read. */
static int take_mask(struct mask *mask, const char *path)
{
    FILE *source = fopen(path, "rb");
    int code;
    if (source == NULL)
        return -1;
    mask->length = fread(mask->file, 1, sizeof mask->file, source);
    code = ferror(source) ? -1 : pmn_check(mask->file, mask->length);
    fclose(source);
    /* a file of version 2 has its two margins before the counts */
    if (code == 0)
        mask->outputs = mask->file[mask->file[3] == 2 ? 9 : 7];
    return code;
}

/* The next frame of the camera: 1; 0 where there is none, -1 where a word is no number. */
static int next_frame(uint64_t *frame)
{
    char word[32], *end;
    if (scanf("%31s", word) != 1)
        return 0;
    errno = 0;
    *frame = strtoull(word, &end, 0);
    return errno == 0 && *end == '\0' && *word != '-' ? 1 : -1;
}

/* One line for a frame: its output bits and their number, or the number of the refusal. */
static void show_frame(const struct mask *mask, uint64_t frame)
{
    uint64_t answer[2];
    unsigned output;
    uint8_t code = pmn_frame(mask->file, mask->length, frame, answer, 2);
    if (code != 0) {
        printf("refused %u\n", code);
        return;
    }
    for (output = 0; output < mask->outputs; output++)
        putchar(answer[0] >> output & 1 ? '1' : '0');
    printf(" %" PRIu64 "\n", answer[1]);
}

/* The sheet of a game: the pins felled by each ball, and the running scores. */
static void show_sheet(const struct mask *mask, const uint64_t *frames, size_t count)
{
    uint64_t answer[SHEET_PLACES];
    size_t i;
    uint8_t code = pmn_score(mask->file, mask->length, frames, count, answer, SHEET_PLACES);
    if (code != 0) {
        printf("no sheet: refused %u\n", code);
        return;
    }
    printf("felled");
    for (i = 0; i < answer[0]; i++)
        printf(" %" PRIu64, answer[2 + i]);
    printf("\nscores");
    for (i = 0; i < answer[1]; i++)
        printf(" %" PRIu64, answer[23 + i]);
    printf("\n");
}

int main(int count, char **words)
{
    static struct mask mask;
    uint64_t frames[BALLS + 1], frame;
    size_t balls = 0;
    int code;
    if (count != 2) {
        fprintf(stderr, "use: controller MASK < FRAMES\n");
        return 2;
    }
    code = take_mask(&mask, words[1]);
    if (code != 0) {
        fprintf(stderr, code < 0 ? "%s: can't be read\n" : "%s: refused %d\n", words[1], code);
        return 1;
    }
    while ((code = next_frame(&frame)) > 0) {
        show_frame(&mask, frame);
        if (balls <= BALLS)
            frames[balls++] = frame;
    }
    if (code < 0) {
        fprintf(stderr, "a frame is no number\n");
        return 2;
    }
    show_sheet(&mask, frames, balls);
    return 0;
}
