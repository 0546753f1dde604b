/* Times dri_play: plays a scene's text by items over and over, looks at what each call gives, and prints the least processor time and
 * the least time by the clock of a call in any of the batches, in nanoseconds.
 *
 * usage: play SCENE JOURNAL ITEM..., where JOURNAL is the one that these items leave */
#include "dri.h"

#include <stdio.h>
#include <stdlib.h>
#include <string.h>
#include <time.h>

enum { MOST_TEXT = 1 << 16, MOST_PICTURE = 1 << 22, MOST_ITEMS = 256, BATCHES = 400, CALLS = 50 };

static uint8_t scene[MOST_TEXT], journal[MOST_TEXT], picture[MOST_PICTURE], notes[MOST_TEXT], passed[MOST_ITEMS];
static int32_t items[MOST_ITEMS];

static size_t read_file(const char *path, uint8_t *into) {
    FILE *file = fopen(path, "rb");
    if (!file) exit(DRI_READ_FAULT);
    size_t length = fread(into, 1, MOST_TEXT, file);
    fclose(file);
    return length;
}

static double nanoseconds(clockid_t clock) {
    struct timespec time;
    clock_gettime(clock, &time);
    return (double)time.tv_sec * 1e9 + (double)time.tv_nsec;
}

static double least(double best, double time) { return best && best < time ? best : time; }

int main(int count, char **words) {
    static const clockid_t CLOCKS[] = {CLOCK_PROCESS_CPUTIME_ID, CLOCK_MONOTONIC};
    double best[2] = {0, 0}, begun[2];
    size_t item_count = (size_t)count - 3;
    if (count < 3 || item_count > MOST_ITEMS) return DRI_USAGE;
    size_t scene_length = read_file(words[1], scene), journal_length = read_file(words[2], journal);
    for (size_t i = 0; i < item_count; ++i) items[i] = atoi(words[i + 3]);
    for (int batch = 0; batch < BATCHES; ++batch) {
        for (int i = 0; i < 2; ++i) begun[i] = nanoseconds(CLOCKS[i]);
        for (int call = 0; call < CALLS; ++call) {
            struct dri_played played;
            struct dri_answer answer;
            dri_play(scene, scene_length, items, item_count, passed, sizeof passed, picture, sizeof picture, notes, sizeof notes,
                     &played, &answer);
            if (answer.status != DRI_DONE || answer.notes_written != journal_length || memcmp(notes, journal, journal_length))
                return DRI_NOT_A_RUN;
        }
        for (int i = 0; i < 2; ++i) best[i] = least(best[i], (nanoseconds(CLOCKS[i]) - begun[i]) / CALLS);
    }
    printf("%.0f %.0f\n", best[0], best[1]);
    return 0;
}
