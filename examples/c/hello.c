/* Makes a file on an empty disk, writes a record, and reads it back; a file more
 * is refused, since the disk is write-protected by then. */
#include <stdio.h>
#include <string.h>
#include <time.h>

#include "benzokamuri.h"

static uint8_t image[BENZO_IMAGE_LEN], fcb[BENZO_FCB_LEN], buffer[BENZO_BUFFER_LEN];
static uint16_t map[BENZO_MAP_LEN];
static benzo_session session; /* begins at zero */

/* Two decimal digits in a byte. */
static uint8_t bcd(int number) {
    return (uint8_t)(number / 10 * 16 + number % 10);
}

/* What is asked for, with the local time: zeros where the day has no number in
 * 16 bits. */
static benzo_asked asked_now(uint8_t number) {
    benzo_asked asked = {number, 0, 0, 0, 0};
    time_t seconds = time(NULL);
    struct tm *now = localtime(&seconds);
    if (now == NULL || now->tm_year < 78) return asked;
    long day = now->tm_yday + 1;
    for (int year = 78; year < now->tm_year && day <= 65535; year++)
        day += year % 4 == 0 && (year % 100 != 0 || year % 400 == 100) ? 366 : 365;
    if (day > 65535) return asked;
    asked.day = (uint16_t)day;
    asked.hour = bcd(now->tm_hour);
    asked.minute = bcd(now->tm_min);
    return asked;
}

/* Makes a call and says what came of it. */
static int call(uint8_t number, const char *what) {
    benzo_answer answer = benzo_call(asked_now(number), image, sizeof image, map, BENZO_MAP_LEN,
                                     fcb, sizeof fcb, buffer, sizeof buffer, session);
    session = answer.session;
    printf("%2d %-16s %d, %d\n", number, what, answer.a, answer.h);
    return answer.a;
}

int main(void) {
    memset(image, 0xE5, sizeof image); /* an empty disk */
    call(BENZO_LOG_IN, "log in");

    session = benzo_lift(session); /* it begins write-protected */
    memcpy(fcb + 1, "HELLO   TXT", 11);
    call(BENZO_MAKE, "make");
    memset(buffer, 0x1A, sizeof buffer); /* what a text is filled up with */
    memcpy(buffer, "Hello from a diskette!", 22);
    call(BENZO_WRITE_NEXT, "write");
    call(BENZO_CLOSE, "close");

    session = benzo_protect(session);     /* what follows only reads */
    memset(fcb + 12, 0, sizeof fcb - 12); /* extent 0, from its beginning */
    memset(buffer, 0, sizeof buffer);
    call(BENZO_OPEN, "open");
    call(BENZO_READ_NEXT, "read");
    printf("%.22s\n", (const char *)buffer);
    call(BENZO_READ_NEXT, "read past end");

    call(BENZO_SPACE, "space");
    printf("%d records are free\n", buffer[0] + 256 * buffer[1] + 65536 * buffer[2]);

    memcpy(fcb + 1, "MORE    TXT", 11);
    call(BENZO_MAKE, "make, protected");
    return 0;
}
