/* Stored matches (oracle/replays.txt, crates/matches/stdin) on standard input, replayed through the library as a server plays them: the setting, the image and
 * the match are all that is kept from line to line. Prints what the program `matches` prints. A line `= NAME` begins a match, `> TEXT` is a line of
 * it, `~ TEXT` its last one, whose newline is missing. */
#define _POSIX_C_SOURCE 200809L
#include <inttypes.h>
#include <stdio.h>
#include <stdlib.h>
#include <string.h>

#include "lundaspro.h"

#define UNREADABLE 32 /* the replay's own number: the library reads no lines */

static lundaspro_setting setting;
static uint16_t image[LUNDASPRO_IMAGE_WORDS];
static size_t words;
static lundaspro_match match;

/* What a call writes before it becomes the image. */
static uint16_t next[LUNDASPRO_IMAGE_WORDS], list[LUNDASPRO_LIST_WORDS];
static lundaspro_event events[LUNDASPRO_EVENTS];

static enum { NOT_BEGUN, ON, STOPPED } state = STOPPED;

/* ---- a line's fields: `fine` stays true while it can be read */

static const char *at;
static bool fine;

static void skip(char byte) {
    fine = fine && *at == byte;
    if (fine) at++;
}

/* A decimal below 2^64 without leading zeros. */
static uint64_t number(void) {
    uint64_t value = 0;
    const char *start = at;
    for (; *at >= '0' && *at <= '9'; at++) {
        uint64_t digit = (uint64_t)(*at - '0');
        fine = fine && value <= (UINT64_MAX - digit) / 10;
        value = 10 * value + digit;
    }
    fine = fine && at > start && (*start != '0' || at == start + 1);
    return value;
}

static int32_t side(void) {
    bool minus = *at == '-';
    at += minus;
    uint64_t value = number();
    fine = fine && value <= (uint64_t)INT32_MAX + minus && (value > 0 || !minus);
    return fine ? (int32_t)(minus ? -(int64_t)value : (int64_t)value) : 0;
}

static bool limit(uint64_t *value) {
    *value = 0;
    if (*at == '-') return at++, false;
    *value = number();
    return true;
}

static bool ends(void) { return fine && *at == 0; }

/* ---- the printed lines */

static void put_event(lundaspro_event e) {
    const uint8_t flags[] = {e.ate_food, e.death_cause, e.killed_opponent, e.won, e.lost, e.drew, e.survived_to_max_ticks};
    const char letters[] = {'a', " WSOH"[e.death_cause], 'k', 'w', 'l', 'x', 'y'};
    bool blank = true;
    for (int i = 0; i < 7; i++) {
        if (flags[i]) putchar(letters[i]);
        blank = blank && !flags[i];
    }
    if (blank) putchar('-');
}

static void show(char letter, bool terminal) {
    printf("%c %d %d %d", letter, terminal, image[2], image[4]);
    for (unsigned i = 0; i < image[0]; i++) {
        lundaspro_part body = lundaspro_body(image, words, i);
        printf(" %d:%d:", image[8 + 4 * i], (int)body.len);
        if (body.len == 0) putchar('-');
        else printf("%d", image[body.start]);
        putchar(':');
        put_event(events[i]);
    }
    putchar('\n');
}

/* The next image becomes the image. */
static void keep(size_t count) {
    words = count;
    memcpy(image, next, count * sizeof *next);
}

/* ---- a line's calls: each gives its refusal, 0 for none */

static uint8_t begin(void) {
    lundaspro_setting s = {0};
    s.num_snakes = number(), skip(' ');
    s.grid_size = side(), skip(' ');
    s.initial_length = number(), skip(' ');
    uint64_t last = number();
    fine = fine && last <= 1;
    s.play_to_last = last == 1, skip(' ');
    s.win_food_lead_set = limit(&s.win_food_lead), skip(' ');
    s.initial_food_count = number(), skip(' ');
    s.max_ticks_set = limit(&s.max_ticks);
    if (!ends()) return UNREADABLE;
    lundaspro_written start = lundaspro_initial_state(s, next, LUNDASPRO_IMAGE_WORDS);
    if (start.refusal != 0) return start.refusal;
    setting = s;
    match = (lundaspro_match){0};
    keep(start.words);
    memset(events, 0, sizeof events);
    show('i', false);
    return 0;
}

static uint8_t draw(void) {
    skip('d'), skip(' ');
    uint64_t index = number();
    if (!ends()) return UNREADABLE;
    lundaspro_drawn drawn = lundaspro_draw(image, words, index, next, LUNDASPRO_IMAGE_WORDS, list, LUNDASPRO_LIST_WORDS);
    if (drawn.refusal != 0) return drawn.refusal;
    keep(drawn.words);
    memset(events, 0, sizeof events);
    show('d', false);
    return 0;
}

static uint8_t move(void) {
    uint64_t actions[8];
    skip('m');
    for (uint64_t i = 0; i < setting.num_snakes; i++) skip(' '), actions[i] = number();
    if (!ends()) return UNREADABLE;
    lundaspro_stepped moved = lundaspro_step(setting, image, words, actions, setting.num_snakes, next, LUNDASPRO_IMAGE_WORDS, events);
    if (moved.refusal != 0) return moved.refusal;
    uint8_t refusal = lundaspro_take_move(setting, moved.terminal, next, moved.words, events, &match);
    if (refusal != 0) return refusal;
    keep(moved.words);
    show('m', moved.terminal);
    return 0;
}

static void take(const char *line, size_t length) {
    if (state == STOPPED) return;
    at = line;
    fine = length <= 200 && strlen(line) == length;
    uint8_t refusal = state == NOT_BEGUN ? begin() : match.over ? LUNDASPRO_OVER : *line == 'd' ? draw() : move();
    state = refusal == 0 ? ON : STOPPED;
    if (refusal != 0) printf("r %d\n", refusal);
}

/* The end of a match's lines. */
static void finish(void) {
    if (state == NOT_BEGUN) printf("r %d\n", UNREADABLE);
    if (state != ON) return;
    uint64_t places[8];
    lundaspro_places(setting, &match, places);
    putchar('p');
    for (uint64_t i = 0; i < setting.num_snakes; i++) printf(" %" PRIu64, places[i]);
    putchar('\n');
}

int main(void) {
    char *line = NULL;
    size_t room = 0;
    for (ssize_t length; (length = getline(&line, &room, stdin)) > 0;) {
        if (line[length - 1] == '\n') line[--length] = 0;
        if (*line == '=') {
            finish();
            state = NOT_BEGUN;
            fwrite(line, 1, (size_t)length, stdout);
            putchar('\n');
        } else if (length > 2 || *line == '>') {
            take(line + 2, (size_t)length - 2);
        }
    }
    finish();
    free(line);
    return 0;
}
