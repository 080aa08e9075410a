/* What a C caller can hand over and a typed one cannot: flags that are neither 0 nor 1, grids that no 32 bits hold, causes that mean nothing, NaN; and
 * that a refusal touches no lent memory. Prints the number of checks, and fails at the first that does not hold. */
#include <math.h>
#include <stdio.h>
#include <stdlib.h>
#include <string.h>

#include "lundaspro.h"

static int checks;

static void check(bool holds, int line) {
    checks++;
    if (holds) return;
    printf("check.c:%d does not hold\n", line);
    exit(1);
}

#define CHECK(holds) check(holds, __LINE__)

/* Grid 3: a living snake on 4, heading up, and a dead one without a cell; food is due where the third word says so. */
static uint16_t image[14] = {2, 3, 0, 0, 0, 13, 1, 0, 1, 14, 0, 0, 0, 4};

/* Lent memory is filled with this byte, and a refusal leaves it so. */
static bool untouched(const void *memory, size_t bytes) {
    for (size_t i = 0; i < bytes; i++)
        if (((const unsigned char *)memory)[i] != 9) return false;
    return true;
}

/* Every refusal of a step, in the table's order: number, and nothing is written. */
static void refused_steps(void) {
    uint64_t setting[9] = {2, 3, 1, 0, 0, 0, 0, 0, 0}, actions[2] = {0, 7}, end[2];
    uint16_t out[20];
    uint8_t events[64];
    memset(end, 9, sizeof end), memset(out, 9, sizeof out), memset(events, 9, sizeof events);
#define REFUSED(number, words, count, room) \
    CHECK(lundaspro_flat_step(setting, image, words, actions, count, out, room, events, end) == number); \
    CHECK(untouched(end, sizeof end) && untouched(out, sizeof out) && untouched(events, sizeof events))
    REFUSED(29, 14, 2, 13);
    REFUSED(24, 14, 1, 13);
    actions[0] = 3;
    REFUSED(25, 14, 2, 13);
    image[2] = 1;
    REFUSED(22, 14, 2, 13);
    image[2] = 0, setting[1] = 4;
    REFUSED(21, 14, 2, 13);
    REFUSED(53 + 256 * 13, 13, 2, 13);
    setting[2] = 0;
    REFUSED(2, 13, 2, 13);
    setting[2] = 1, setting[1] = 3, actions[0] = 0;
    CHECK(lundaspro_flat_step(setting, image, 14, actions, 2, out, 20, events, end) == 0);
    CHECK(end[0] == 14 && end[1] == 1 && out[13] == 1 && untouched(out + 14, 12));
    for (int i = 0; i < 64; i++) CHECK(events[i] == 0);
}

/* Who was hit where: a refusal writes nothing; a head on the second cell of another's moved body, and nobody else. */
static void hits_told(void) {
    lundaspro_setting setting = {.num_snakes = 2, .grid_size = 5, .initial_length = 1};
    uint16_t both[16] = {2, 5, 0, 0, 0, 13, 1, 1, 1, 14, 2, 3, 1, 7, 8, 9};
    uint64_t actions[2] = {0, 0};
    lundaspro_hit hits[LUNDASPRO_HITS];
    memset(hits, 9, sizeof hits);
    CHECK(lundaspro_struck(setting, both, 16, actions, 1, hits).refusal == LUNDASPRO_ACTION_COUNT && untouched(hits, sizeof hits));
    lundaspro_checked cut = lundaspro_struck(setting, both, 15, actions, 2, hits);
    CHECK(cut.refusal == LUNDASPRO_TOTAL && cut.word == 15 && untouched(hits, sizeof hits));
    CHECK(lundaspro_struck(setting, both, 16, actions, 2, hits).refusal == 0);
    CHECK(hits[0].snake == 1 && hits[0].position == 1);
    for (int i = 1; i < LUNDASPRO_HITS; i++) CHECK(hits[i].snake == 8 && hits[i].position == 0);
}

static void refused_others(void) {
    uint64_t two[2], five[5], setting[9] = {2, 3, 1, 0, 0, 0, 0, 0, 0};
    uint16_t words[20];
    uint8_t event[8] = {0}, marked[8];
    float planes[45], bounds[2];
    double sum, weights[7] = {HUGE_VAL, 0, 0, 0, 0, 0, 0};
    memset(two, 9, sizeof two), memset(five, 9, sizeof five), memset(words, 9, sizeof words), memset(marked, 9, sizeof marked);
    memset(planes, 9, sizeof planes), memset(bounds, 9, sizeof bounds), memset(&sum, 9, sizeof sum);
    CHECK(lundaspro_flat_check_image(image, 13) == 53 + 256 * 13 && lundaspro_flat_check_image(image, 14) == 0);
    CHECK(lundaspro_flat_initial_state(setting, words, 14, two) == 29);
    CHECK(lundaspro_flat_count(image, 14, two) == 23 && lundaspro_flat_rank(image, 14, words, 1, two) == 23);
    CHECK(lundaspro_flat_draw(image, 14, 0, words, 10, words + 10, 10, two) == 23);
    CHECK(lundaspro_flat_observe(image, 14, 0, planes, 44, two) == 29 && lundaspro_flat_observe(image, 14, 2, planes, 45, two) == 26);
    CHECK(lundaspro_flat_length_cell(image, 13, two) == 53 + 256 * 13 && lundaspro_flat_actor(image, 4, two) == 50 + 256 * 4);
    CHECK(lundaspro_flat_legal_actions(image, 14, 2, two) == 26 && lundaspro_flat_truncation(image, 14, 2, event, marked) == 26);
    CHECK(lundaspro_flat_write_book(setting, 65536, image, 14, words, 20, two) == 42 && lundaspro_flat_page(image, 14, 0, two) == 40);
    CHECK(lundaspro_flat_observation_space(33, five, bounds) == 5 && lundaspro_flat_reward(weights, event, &sum) == 31);
    CHECK(lundaspro_flat_outcome_of(0, 0.5, two) == 80 && lundaspro_flat_outcome_of(3, 1.0, two) == 81 && lundaspro_flat_outcome_of(0, NAN, two) == 80);
    CHECK(untouched(two, sizeof two) && untouched(five, sizeof five) && untouched(words, sizeof words) && untouched(marked, sizeof marked));
    CHECK(untouched(planes, sizeof planes) && untouched(bounds, sizeof bounds) && untouched(&sum, sizeof sum));
}

/* Any match is taken: what is over refuses by 33 and stays, moves stay at 2^64 - 1, places go by the deaths as they are. */
static void matches(void) {
    uint64_t setting[9] = {2, 3, 1, 0, 0, 0, 0, 7, 2}, match[19], kept[19], places[8];
    uint8_t events[64];
    memset(match, 0, sizeof match), memset(events, 9, sizeof events);
    match[1] = 2;
    memcpy(kept, match, sizeof kept);
    CHECK(lundaspro_flat_take_move(setting, 0, image, 14, events, match) == 33);
    CHECK(memcmp(match, kept, sizeof kept) == 0 && untouched(events, sizeof events));
    memset(match, 0, sizeof match), memset(events, 0, sizeof events);
    CHECK(lundaspro_flat_take_move(setting, 0, image, 14, events, match) == 0);
    CHECK(match[0] == 1 && match[1] == 0 && events[7] == 0);
    events[8 + 1] = 1; /* snake 1 dies on the second move, which is the last */
    CHECK(lundaspro_flat_take_move(setting, 0, image, 14, events, match) == 0);
    CHECK(match[0] == 2 && match[1] == 1 && match[2] == 1 && match[3] == 0 && match[4] == 2);
    CHECK(events[7] == 1 && events[8 + 7] == 0 && events[16 + 7] == 0);
    CHECK(lundaspro_flat_places(setting, match, places) == 0 && places[0] == 1 && places[1] == 2 && places[2] == 0);
    setting[7] = 0;
    for (int i = 0; i < 19; i++) match[i] = UINT64_MAX;
    match[1] = 0, setting[0] = UINT64_MAX;
    CHECK(lundaspro_flat_places(setting, match, places) == 0 && places[0] == 2 && places[7] == 2);
    memset(events, 0, sizeof events);
    CHECK(lundaspro_flat_take_move(setting, 9, image, 0, events, match) == 0);
    CHECK(match[0] == UINT64_MAX && match[1] == 1 && match[2] == 0 && match[3] == UINT64_MAX && match[11] == 0);
    CHECK(lundaspro_flat_places(setting, match, places) == 0 && places[0] == 1 && places[7] == 1);

    lundaspro_setting told = {.num_snakes = 2, .grid_size = 3, .initial_length = 1, .max_ticks_set = true, .max_ticks = 1};
    lundaspro_match game = {0};
    lundaspro_event marked[8] = {{0}};
    CHECK(lundaspro_take_move(told, false, image, 14, marked, &game) == 0 && game.over && game.timeout && game.moves == 1);
    CHECK(marked[0].survived_to_max_ticks == 1 && marked[1].survived_to_max_ticks == 0);
    CHECK(lundaspro_take_move(told, false, image, 14, marked, &game) == LUNDASPRO_OVER && game.moves == 1);
    game.behind[1] = true;
    lundaspro_places(told, &game, places);
    CHECK(places[0] == 1 && places[1] == 2 && places[2] == 0);
}

/* A flag is set where its number is not 0. */
static void flags(void) {
    uint64_t setting[9] = {2, 3, 1, 0, 0, 0, 0, 0, 0};
    static const uint64_t set[] = {1, 2, 256, (uint64_t)1 << 32, UINT64_MAX};
    CHECK(lundaspro_flat_validate(setting) == 0);
    for (int i = 0; i < 5; i++) {
        setting[4] = set[i];
        CHECK(lundaspro_flat_validate(setting) == 3);
    }
    uint64_t actions[2] = {0, 0}, end[2] = {0, 0};
    uint16_t out[14];
    uint8_t events[64];
    setting[4] = 0;
    for (int i = 0; i < 5; i++) {
        setting[3] = set[i];
        CHECK(lundaspro_flat_step(setting, image, 14, actions, 2, out, 14, events, end) == 0 && end[1] == 0);
    }
    lundaspro_weights weights = {.step = 1.0, .food = 2.0};
    lundaspro_event ate = {.ate_food = 255}, all = {2, 4, 9, 8, 16, 32, 64, 128}, cause = {.death_cause = LUNDASPRO_HEAD_ON};
    CHECK(lundaspro_reward(weights, ate).sum == 3.0);
    lundaspro_event a = lundaspro_truncation(image, 14, 0, all).event, b = lundaspro_truncation(image, 14, 1, all).event;
    CHECK(a.ate_food == 1 && a.died == 1 && a.death_cause == LUNDASPRO_NO_CAUSE && a.killed_opponent == 1 && a.won == 1 && a.lost == 1 && a.drew == 1);
    CHECK(a.survived_to_max_ticks == 1 && b.survived_to_max_ticks == 0 && b.drew == 1);
    CHECK(lundaspro_truncation(image, 14, 1, cause).event.death_cause == LUNDASPRO_HEAD_ON);
}

/* A grid that no 32 bits hold is refused by 5, and is never wrapped into one that is accepted. */
static void grids(void) {
    uint64_t setting[9] = {2, 3, 1, 0, 0, 0, 0, 0, 0}, sizes[5];
    float bounds[2];
    static const uint64_t beyond[] = {((uint64_t)1 << 31), ((uint64_t)1 << 32) + 3, ((uint64_t)1 << 63) + 3, UINT64_MAX - ((uint64_t)1 << 31), (uint64_t)INT64_MIN};
    for (int i = 0; i < 5; i++) {
        setting[1] = beyond[i];
        CHECK(lundaspro_flat_validate(setting) == 5 && lundaspro_flat_observation_space(beyond[i], sizes, bounds) == 5);
    }
    setting[1] = (uint64_t)-1;
    CHECK(lundaspro_flat_validate(setting) == 10 && lundaspro_flat_observation_space((uint64_t)-1, sizes, bounds) == 5);
    setting[6] = 1;
    CHECK(lundaspro_flat_validate(setting) == 6);
    setting[1] = (uint64_t)INT32_MIN;
    CHECK(lundaspro_flat_validate(setting) == 6);
    CHECK(lundaspro_relative_to_absolute(255, 0) == LUNDASPRO_LEFT);
    CHECK(lundaspro_relative_to_absolute(0, 255) == LUNDASPRO_RIGHT);
}

static void nan_weights(void) {
    static const uint64_t patterns[] = {0x7ff0000000000001, 0x7ff8000000000000, 0xfff8000000000000, 0xffffffffffffffff, 0x7ff0000000000000};
    for (int i = 0; i < 5; i++) {
        lundaspro_weights weights = {.step = 1.0};
        memcpy(&weights.kill, &patterns[i], 8);
        lundaspro_sum a = lundaspro_reward(weights, (lundaspro_event){0});
        CHECK(a.refusal == 31 && a.sum == 0.0);
    }
}

/* Unit numbers: -0.0 counts as 0; no NaN and no infinity is one. A third of 3 rounds up to 1. */
static void unit_numbers(void) {
    static const double outside[] = {NAN, -NAN, INFINITY, -INFINITY, 1.0, -0.5, -5e-324};
    for (int i = 0; i < 7; i++) CHECK(lundaspro_outcome_of(3, outside[i]).refusal == 81);
    lundaspro_number third = lundaspro_outcome_of(3, 1.0 / 3.0), last = lundaspro_outcome_of((uint64_t)1 << 53, nextafter(1.0, 0.0)), first = lundaspro_outcome_of(3, -0.0);
    CHECK(third.refusal == 0 && third.value == 1 && last.refusal == 0 && last.value == ((uint64_t)1 << 53) - 1 && first.refusal == 0 && first.value == 0);
    CHECK(lundaspro_outcome_of(((uint64_t)1 << 53) + 1, 0.5).refusal == 80 && lundaspro_outcome_of(0, NAN).refusal == 80);
}

static void bodies(void) {
    lundaspro_part a = lundaspro_body(image, 14, 0), b = lundaspro_body(image, 14, 1), c = lundaspro_body(image, 14, 2), d = lundaspro_body(image, 13, 0);
    CHECK(a.start == 13 && a.len == 1 && b.start == 14 && b.len == 0 && c.start == 0 && c.len == 0 && d.start == 0 && d.len == 0);
    CHECK(lundaspro_body(image, 14, UINT64_MAX).len == 0);
}

/* The calls that need no more than their answer read. */
static void every_other_call(void) {
    lundaspro_setting setting = {.num_snakes = 2, .grid_size = 3, .initial_length = 1, .win_food_lead_set = true, .win_food_lead = 0, .max_ticks_set = true, .max_ticks = 5};
    CHECK(lundaspro_validate(setting) == 3);
    setting.win_food_lead_set = false;
    CHECK(lundaspro_validate(setting) == 0);
    CHECK(lundaspro_well_formed(image, 14) && !lundaspro_well_formed(image, 13));
    lundaspro_actor_answer actor = lundaspro_actor(image, 14);
    CHECK(actor.refusal == 0 && !actor.chance && lundaspro_actor(image, 13).refusal == 53 && lundaspro_actor(image, 13).word == 13);
    lundaspro_legal legal = lundaspro_legal_actions(image, 14, 0);
    CHECK(legal.refusal == 0 && legal.actions == 3 && lundaspro_legal_actions(image, 14, 1).actions == 0);
    CHECK(lundaspro_count(image, 14).refusal == 23);
    image[2] = 1;
    lundaspro_number count = lundaspro_count(image, 14);
    CHECK(count.refusal == 0 && count.value == 8);
    image[2] = 0;
    lundaspro_key key = lundaspro_length_cell(image, 14);
    CHECK(key.refusal == 0 && !key.some && key.key == 0);
    uint16_t both[18] = {2, 3, 0, 0, 0, 13, 4, 0, 1, 17, 1, 0, 1, 0, 1, 2, 3, 4};
    key = lundaspro_length_cell(both, 18);
    CHECK(key.refusal == 0 && key.some && key.key == 1);
    lundaspro_space box = lundaspro_observation_space(7), three = lundaspro_action_space(), none = lundaspro_observation_space(33);
    CHECK(box.refusal == 0 && !box.discrete && box.count == 0 && box.planes == 5 && box.rows == 7 && box.cols == 7 && box.low == 0.0f && box.high == 1.0f);
    CHECK(three.refusal == 0 && three.discrete && three.count == 3 && three.planes == 0);
    CHECK(none.refusal == 5 && !none.discrete && none.count == 0);
}

/* A book of two pages: 17 words of contents, two for each page, the images. */
static void books(void) {
    lundaspro_setting setting = {.num_snakes = 2, .grid_size = 3, .initial_length = 1, .max_ticks_set = true, .max_ticks = 0x0004000300020001};
    uint16_t row[28], book[60], whole[60];
    for (int i = 0; i < 28; i++) row[i] = image[i % 14];
    row[14 + 13] = 8;
    size_t need = LUNDASPRO_BOOK_WORDS(2, 28);
    for (size_t room = 0; room < need; room++) {
        memset(book, 9, sizeof book);
        lundaspro_written short_of = lundaspro_write_book(setting, 2, row, 28, book, room);
        CHECK(short_of.refusal == 29 && short_of.words == 0 && untouched(book, sizeof book));
    }
    lundaspro_written a = lundaspro_write_book(setting, 2, row, 28, book, 60);
    static const uint16_t contents[21] = {1, 2, 3, 1, 0, 0, 0, 0, 0, 0, 0, 1, 1, 2, 3, 4, 2, 21, 0, 35, 0};
    CHECK(a.refusal == 0 && a.words == need && untouched(book + need, 2 * (60 - need)));
    CHECK(memcmp(book, contents, sizeof contents) == 0 && memcmp(book + 21, row, sizeof row) == 0);
    lundaspro_page_answer p = lundaspro_page(book, need, 0), q = lundaspro_page(book, need, 1);
    CHECK(p.refusal == 0 && p.start == 21 && p.len == 14 && q.refusal == 0 && q.start == 35 && q.len == 14);
    CHECK(lundaspro_page(book, need, 2).refusal == 41 && lundaspro_page(book, need, UINT64_MAX).refusal == 41);
    p = lundaspro_page(book, need + 1, 1);
    CHECK(p.refusal == 53 && p.word == 14 && p.start == 0 && p.len == 0 && lundaspro_page(book, need + 1, 0).refusal == 0);
    for (size_t cut = 0; cut < 36; cut++) CHECK(lundaspro_page(book, cut, 0).refusal == 40);
    for (int i = 0; i < 21; i++) {
        memcpy(whole, book, sizeof whole);
        whole[i] = 65535;
        /* lead's and max_ticks's own words and a set flag's number may be any */
        bool fine = 11 < i && i < 16;
        CHECK((lundaspro_page(whole, need, 0).refusal == 0) == fine && (lundaspro_page(whole, need, 0).refusal == 40) == !fine);
    }
    CHECK(lundaspro_write_book(setting, 65536, row, 28, book, 60).refusal == 42 && lundaspro_write_book(setting, UINT64_MAX, row, 28, book, 60).refusal == 42);
    a = lundaspro_write_book(setting, 1, row, 28, book, 60); /* words after the last page, one image short, words without a page */
    CHECK(a.refusal == 53 && a.word == 14);
    a = lundaspro_write_book(setting, 3, row, 28, book, 60);
    CHECK(a.refusal == 50 && a.word == 0);
    a = lundaspro_write_book(setting, 0, row, 28, book, 60);
    CHECK(a.refusal == 53 && a.word == 0 && lundaspro_write_book(setting, 0, row, 0, book, 17).words == 17);
    CHECK(lundaspro_page(book, 17, 0).refusal == 41 && lundaspro_page(book, 18, 0).refusal == 40);
    setting.grid_size = 4;
    CHECK(lundaspro_write_book(setting, 2, row, 28, book, 60).refusal == 21);
    setting.initial_length = 0;
    CHECK(lundaspro_write_book(setting, 65536, row, 28, book, 0).refusal == 2);
}

/* Each fault of an image, and the first word that shows it. */
static void faults(void) {
    static const uint16_t good[18] = {2, 4, 0, 0, 2, 13, 2, 0, 1, 15, 1, 0, 1, 2, 6, 3, 8, 9};
    static const uint16_t cases[12][4] = {{0, 9, 51, 0}, {1, 33, 51, 1}, {2, 1025, 51, 2}, {3, 2, 51, 3}, {6, 0, 51, 6}, {8, 2, 51, 8}, {9, 16, 52, 9}, {10, 2, 53, 18}, {4, 1, 53, 17},
        {16, 16, 54, 16}, {14, 2, 55, 14}, {17, 8, 56, 17}};
    uint16_t words[18];
    lundaspro_checked a = lundaspro_check_image(good, 18);
    CHECK(a.refusal == 0 && a.word == 0);
    for (int i = 0; i < 12; i++) {
        memcpy(words, good, sizeof words);
        words[cases[i][0]] = cases[i][1];
        a = lundaspro_check_image(words, 18);
        CHECK(a.refusal == cases[i][2] && a.word == cases[i][3]);
    }
    for (uint16_t cut = 0; cut < 18; cut++) {
        a = lundaspro_check_image(good, cut);
        CHECK(a.refusal == (cut < 13 ? 50 : 53) && a.word == cut);
    }
}

/* A sentence for each number that a call gives, and for no other. */
static void sentences(void) {
    const char *none = lundaspro_sentence(0);
    for (int i = 1; i < 256; i++) {
        bool named = (i >= 1 && i <= 12 && i != 7) || (i >= 21 && i <= 31) || i == 33 || (i >= 40 && i <= 42) || (i >= 50 && i <= 56) || i == 80 || i == 81;
        CHECK((strcmp(lundaspro_sentence((uint8_t)i), none) != 0) == named);
    }
    CHECK(lundaspro_refusal(0) == 0 && lundaspro_refusal(256) != 0);
    CHECK(strcmp(lundaspro_sentence(lundaspro_count(image, 13).refusal), "total length wrong") == 0);
}

int main(void) {
    refused_steps();
    hits_told();
    refused_others();
    matches();
    flags();
    grids();
    nan_weights();
    unit_numbers();
    bodies();
    every_other_call();
    books();
    faults();
    sentences();
    printf("%d checks passed\n", checks);
    return 0;
}
