/* The night the clocks go back: a job that is started at 02:30 is started twice,
 * and picks the same word both times. The log has the day once. */
#include <stdio.h>
#include <string.h>

#include "benzokamuri.h"

static uint8_t image[BENZO_IMAGE_LEN], fcb[BENZO_FCB_LEN], buffer[BENZO_BUFFER_LEN];
static uint16_t map[BENZO_MAP_LEN];
static benzo_session session; /* begins at zero, and so write-protected */

static const benzo_time half_past_two = {17830, 0x02, 0x30}; /* 25 October 2026 */

/* Makes a call that has to be accepted. */
static int call(uint8_t number) {
    benzo_asked asked = {number, 0, half_past_two.day, half_past_two.hour, half_past_two.minute};
    benzo_answer answer = benzo_call(asked, image, sizeof image, map, BENZO_MAP_LEN,
                                     fcb, sizeof fcb, buffer, sizeof buffer, session);
    session = answer.session;
    return answer.h == 0 && answer.a != 255;
}

static void name(const char *eleven) {
    memset(fcb, 0, sizeof fcb);
    memcpy(fcb + 1, eleven, 11);
}

/* Writes a book with a word for each day of a year. */
static int write_book(void) {
    int done;
    session = benzo_lift(session);
    name("WORDS   DAT");
    done = call(BENZO_MAKE);
    for (int day = 0; done && day < 366; day++) {
        char word[32];
        int length = snprintf(word, sizeof word, "the word of day %d", day);
        memset(buffer, 0x1A, sizeof buffer); /* what a text is filled up with */
        memcpy(buffer, word, (size_t)length);
        done = call(BENZO_WRITE_NEXT);
    }
    done = done && call(BENZO_CLOSE);
    session = benzo_protect(session);
    return done;
}

/* The job: hands out the word of 25 October, which is day 297 counted from 0. */
static void job(const char *when) {
    benzo_wanted wanted = {2026, 297, {0}, {0}};
    uint8_t word[BENZO_BUFFER_LEN];
    memcpy(wanted.book, "WORDS   DAT", 11);
    memcpy(wanted.log, "WORDS   LOG", 11);
    benzo_picked picked = benzo_pick(wanted, half_past_two, image, sizeof image, map, BENZO_MAP_LEN,
                                     word, sizeof word, session);
    session = picked.session;
    printf("02:30, %s: answer %d%s\n", when, picked.number,
           picked.number == BENZO_PICK_LOGGED  ? ", picked and logged"
           : picked.number == BENZO_PICK_AGAIN ? ", picked again"
                                               : "");
    if (picked.given) {
        size_t length = 0;
        while (length < sizeof word && word[length] != 0x1A) length++;
        printf("    %.*s\n", (int)length, (const char *)word);
    }
}

int main(void) {
    memset(image, 0xE5, sizeof image); /* an empty disk */
    if (!call(BENZO_LOG_IN) || !write_book()) return 1;

    job("summer time");
    job("winter time");

    name("WORDS   LOG");
    if (!call(BENZO_SIZE)) return 1;
    printf("records of the log: %d\n", fcb[33] + 256 * fcb[34] + 65536 * fcb[35]);
    name("WORDS   LOG");
    if (!call(BENZO_OPEN) || !call(BENZO_READ_NEXT)) return 1;
    printf("    %.9s\n", (const char *)buffer);
    return session.lifted; /* it is protected as it was before the picker */
}
