/* Benzokamuri: the file calls of CP/M Plus over a lent image of the 8-inch
 * single-density diskette.
 *
 * One function makes the calls, benzo_call. It keeps nothing between calls: what
 * a call works on is lent to it, and what it has to remember is the session that
 * it answers with. It never fails otherwise than by a code: any bytes, any
 * notes, any lengths and any session are answered, and a refused call changes
 * none of the four buffers. Two more, benzo_lift and benzo_protect, lift and set
 * the write protection that every session begins with. Above the calls, and made
 * of them alone, is the word picker, benzo_pick.
 *
 *   static uint8_t image[BENZO_IMAGE_LEN], fcb[BENZO_FCB_LEN], buffer[BENZO_BUFFER_LEN];
 *   static uint16_t map[BENZO_MAP_LEN];
 *   benzo_session session = {0};
 *
 *   memset(image, 0xE5, sizeof image);
 *   benzo_asked log_in = {BENZO_LOG_IN, 0, 17851, 0x06, 0x00};
 *   benzo_answer answer = benzo_call(log_in, image, sizeof image, map, BENZO_MAP_LEN,
 *                                    fcb, sizeof fcb, buffer, sizeof buffer, session);
 *   session = benzo_lift(answer.session);
 *
 * From the lift on calls may change the image; who only reads leaves it out.
 *
 * An image that is all E5H is an empty disk. One that is all zeros is not
 * consistent, and is refused with 255, 1.
 *
 * The last three numbers above are the time, 15 November 2026, 06:00. It is
 * stored on disks that have date entries; see benzo_asked.
 */
#ifndef BENZOKAMURI_H
#define BENZOKAMURI_H

#include <stddef.h>
#include <stdint.h>

#ifdef __cplusplus
extern "C" {
#endif

/* Changes whenever the types below or the functions do. */
#define BENZO_VERSION 4

/* The lengths that every call is due, whether it uses the buffer or not. The
 * map's is in notes of sixteen bits, the others in bytes. Any other length is
 * refused with 255, 4. */
#define BENZO_IMAGE_LEN 256256
#define BENZO_MAP_LEN 243
#define BENZO_FCB_LEN 36
#define BENZO_BUFFER_LEN 128

/* The calls. */
#define BENZO_LOG_IN 13        /* the map becomes the fresh map: make this call first */
#define BENZO_OPEN 15
#define BENZO_CLOSE 16
#define BENZO_SEARCH_FIRST 17
#define BENZO_SEARCH_NEXT 18
#define BENZO_DELETE 19
#define BENZO_READ_NEXT 20
#define BENZO_WRITE_NEXT 21
#define BENZO_MAKE 22
#define BENZO_RENAME 23
#define BENZO_USER 32          /* argument 255 asks, 0 to 15 sets */
#define BENZO_READ_RANDOM 33
#define BENZO_WRITE_RANDOM 34
#define BENZO_SIZE 35
#define BENZO_RANDOM_RECORD 36
#define BENZO_SPACE 46
#define BENZO_FREE_BLOCKS 98

/* Which call is asked for, and when. The argument is looked at by call 32 only.
 *
 * Each call is handed the time: a day, where 1 January 1978 is 1, and hour and
 * minute in BCD, two decimal digits a byte. A digit over 9 is 255, 4, also in
 * calls that stamp nothing; otherwise any time is taken, 24H to 99H too, and
 * stored as it is given, also where it repeats or goes back.
 *
 * Only disks with date entries are stamped: entries whose byte 0 is 21H, the
 * fourth of every four. Where the disk's label (byte 0 20H) asks for it, 22
 * stamps create, 15 access (unless the session is protected), and a close or
 * move that changes an entry update, beside that entry; a new entry's stamps
 * start at zero. Nothing else is stamped, and a refused call stamps nothing. So
 * 15 may change the image once the write protection is lifted, and so may 20 and
 * 33 where they move: who saves an image saves it after them too, or reads on a
 * protected session, where no call changes it and nothing is to be saved; after
 * benzo_pick, which writes its log there too, it is.
 *
 * A label asks by its byte 12: bit 4 for create, 5 for update, 6 for access. A
 * date entry has from byte 1 on ten bytes for each of the three entries before
 * it: create or access, update, and two bytes that no call touches. A stamp is
 * the day, low byte first, hour and minute. A search leaves all four entries in
 * the buffer.
 *
 * Who has no clock hands in zeros: day 0, 00:00. */
typedef struct {
    uint8_t number, argument;
    uint16_t day;         /* 1 is 1 January 1978, 65,535 is 5 June 2157 */
    uint8_t hour, minute; /* 06:00 is 0x06, 0x00 */
} benzo_asked;

/* What a caller keeps from one call to the next. It begins at zero, and each
 * answer has the session for the call after it.
 *
 * A session begins write-protected, and stays so until its caller lifts the
 * protection. Until then no call changes the image: 16, 19, 21, 22, 23 and 34
 * are 255, 2, and so is a read that would else succeed by a move that changes an
 * entry; an open stamps no access. 13 and 98 change the map all the same. No
 * call lifts or sets the protection, and lifting or setting it changes nothing
 * else, a search included.
 *
 * What to do about 255, 2: if the disk is to change, lift the protection and
 * make the same call again. In C benzo_lift lifts it, in Rust Disk::lift, and
 * with `benzokamuri call` the option --lift; every other verb of that program
 * lifts it by itself where it has to write. benzo_protect, Disk::protect and
 * --protect set it again. A read that is refused so would leave an extent that
 * was written to and not closed: close the file first, which takes a lift too.
 *
 * So whoever only reads by calls never lifts it, and need not save the image;
 * who writes lifts it as late as may be. benzo_pick lifts it for its log by
 * itself, so after its answer 0 the image is to be saved all the same. What was
 * written and not closed when the protection is set again stays pending, and is
 * closed after another lift. Every answer has the field as it came. */
typedef struct {
    uint8_t user;        /* 0 to 15 */
    uint8_t pattern[12]; /* of the last search: name, type and extent */
    uint16_t place;      /* where the search goes on, 0 to 64 */
    uint8_t on;          /* a search is on: anything but 0 */
    uint8_t lifted;      /* the write protection is lifted: anything but 0 */
} benzo_session;

/* What a call answers: the registers A and H, and the session.
 *
 * An accepted call has H 0, and A 0 but for these: the entry's number mod 4 in
 * 15, 16, 17, 18 and 22, and the user in 32 with argument 255. So 3, 0 is no
 * refusal: these calls alone answer it, for an entry whose number mod 4 is 3,
 * or for user 3.
 *
 * A refused call has one of these codes, tested in this order:
 *
 *   A, H       calls               meaning
 *   255, 255                       There is no call with this number.
 *   255, 4                         A buffer has a wrong length, the session's
 *                                  user is over 15, its search place is over 64,
 *                                  the time's hour or minute is not in BCD, or
 *                                  the call uses the FCB and byte 0 of it is
 *                                  over 1.
 *   255, 1                         The directory of the image is not consistent,
 *                                  or the map does not fit it (13 takes any map,
 *                                  and makes it fit).
 *   255, 2     16 19 20 21 22 23 33 34
 *                                  The session is write-protected (20 and 33
 *                                  answer so only where they would else succeed,
 *                                  by a move that changes an entry).
 *   6, 0       33 34               The random record number is over 262,143.
 *   9, 0       20 21 33 34         The FCB is not current: the file has changed
 *                                  since it was opened, or was never opened.
 *   255, 0     16                  The FCB is not current, so there is nothing
 *                                  that it can close.
 *   255, 0     36                  The FCB's ex is over 31, its s2 is over 63
 *                                  or its cr is over 128.
 *   255, 0     32                  The argument is neither 255 nor a user
 *                                  number from 0 to 15.
 *   255, 9     15 17 19 22 23 35   A name has a byte that names may not have
 *                                  (3FH is for 17 and 19), or in 15, 17 or 22
 *                                  byte 12 is over 31 (17 takes 3FH too).
 *   255, 0     15 17 19 23 35      This user has no such file.
 *   255, 0     18                  No search is on.
 *   255, 0     18                  Nothing more matches.
 *   255, 3     19 21 23 34         The file is read-only.
 *   255, 8     22                  The file is there already.
 *   255, 8     23                  A file of the new name is there already.
 *   255, 0     22                  The directory is full: none of its 64
 *                                  entries is empty.
 *   4, 0       33                  The file has no entry for the extent of this
 *                                  record.
 *   1, 0       20 33               The record is not there.
 *   1, 0       21                  The next extent has no entry and the
 *                                  directory is full, or the file is as long as
 *                                  a file can be.
 *   5, 0       34                  The extent of this record has no entry and
 *                                  the directory is full.
 *   2, 0       21 34               The disk is full: no block is free.
 *
 * rc, in an entry or in an FCB, may be any byte: as a count of records, more than
 * 128 is read as 128. No call refuses a disk or an FCB for it.
 *
 * Labels and date entries make a directory not consistent where a date entry is
 * not the fourth of four entries, where some fourth entries are date entries and
 * others are not, where there are two labels, where the label asks for create and
 * access stamps, and where an hour or a minute in any stamp is not in BCD.
 *
 * A refusal hands the session back as it came; only a 17 that finds nothing
 * and an 18 that finds no more end the search. */
typedef struct {
    uint8_t a, h;
    benzo_session session;
} benzo_answer;

/* Makes one call.
 *
 * Each pointer has to be good for reading and writing as many bytes, or notes,
 * as the length behind it says, even where that length is a wrong one. NULL with
 * length 0 is such a pointer, and is answered with 255, 4 by every listed call.
 * The four buffers must not overlap. They are the caller's again when the call returns.
 * Calls over different buffers may run at the same time. */
benzo_answer benzo_call(benzo_asked asked,
                        uint8_t *image, size_t image_len,
                        uint16_t *map, size_t map_len,
                        uint8_t *fcb, size_t fcb_len,
                        uint8_t *buffer, size_t buffer_len,
                        benzo_session session);

/* Lifts the write protection: the session that is handed in with lifted 1, and
 * all else in it as it came, a search included. Any session may be handed in. */
benzo_session benzo_lift(benzo_session session);

/* Sets the write protection: the session that is handed in with lifted 0, and
 * all else in it as it came. Any session may be handed in. */
benzo_session benzo_protect(benzo_session session);

/* The word picker.
 *
 * What is wanted: the record of a day from a book, of 128 bytes, record 0 for day
 * 0 of a year. Names are those of an FCB, eleven bytes, as "WORDS   DAT" and
 * "WORDS   LOG"; the files are those of the session's user. docs/PICKER.md says
 * more. */
typedef struct {
    uint16_t year;    /* 0 to 65,535 */
    uint16_t day;     /* 0 to 365 */
    uint8_t book[11]; /* attributes, the high bits, mean nothing */
    uint8_t log[11];
} benzo_wanted;

/* The time at which a word is picked, as every call is handed it; see
 * benzo_asked. It is stored as stamps, and the word does not depend on it. */
typedef struct {
    uint16_t day;
    uint8_t hour, minute;
} benzo_time;

/* How a run ended; 0 and 1 are no trouble.
 *
 * The word picker hands out the record of a day from a book, a file with a
 * record a day, and writes the day into a log, unless the log has it. Where there
 * is trouble the log, and all else on the disk but access stamps, is as it was;
 * the word is handed out all the same wherever it could be read. Troubles are
 * told in this order, the first that is so, but for these: a log that is missing
 * has a full disk told before a full directory, and a refusal is told wherever it
 * comes.
 *
 *   number  word    meaning
 *        0  yes     The word was picked, and the day is in the log now.
 *        1  yes     The word was picked again: the log had the day already.
 *        2  no      The day is over 365.
 *        3  no      There is no book: this user has no such file, or one without
 *                   its first extent.
 *        4  no      The book has no record for this day.
 *        5  yes     Book and log are one file, so the day was not logged.
 *        6  yes     The log lacks its first extent, so the day was not logged.
 *        7  yes     The log is full: it has 1,024 records or more, none of this
 *                   day.
 *        8  yes     The log is read-only, so the day was not logged.
 *        9  yes     The directory is full: the log needs an entry, and none is
 *                   empty.
 *       10  yes     The disk is full: the log needs a block, and none is free.
 *       11  either  A call was refused; its A and H say why.
 */
#define BENZO_PICK_LOGGED 0
#define BENZO_PICK_AGAIN 1
#define BENZO_PICK_DAY_OVER 2
#define BENZO_PICK_NO_BOOK 3
#define BENZO_PICK_NO_WORD 4
#define BENZO_PICK_ONE_FILE 5
#define BENZO_PICK_NO_FIRST 6
#define BENZO_PICK_LOG_FULL 7
#define BENZO_PICK_LOG_READ_ONLY 8
#define BENZO_PICK_DIRECTORY_FULL 9
#define BENZO_PICK_DISK_FULL 10
#define BENZO_PICK_OTHER 11

/* What a run tells: its number, whether the word was handed out (1) or not (0),
 * A and H of the refusal where the number is 11 and 0 otherwise, and the session.
 * The session has its search ended if any call was accepted, and the write
 * protection as it came: the picker lifts it for the log alone. */
typedef struct {
    uint8_t number, given, a, h;
    benzo_session session;
} benzo_picked;

/* Picks a word.
 *
 * Image and map are those of benzo_call, after a log-in. After answer 0 the
 * image is to be saved, on a write-protected session too: a day whose log record
 * is not saved is picked and logged once more the next time. On a session that
 * is lifted any answer may have left access stamps, as 15 does. The word is lent
 * 128 bytes, BENZO_BUFFER_LEN; where none is handed out they stay as they were.
 * What was said of pointers and lengths there goes for these three too: any
 * lengths, bytes, notes, times and sessions are answered. */
benzo_picked benzo_pick(benzo_wanted wanted, benzo_time time,
                        uint8_t *image, size_t image_len,
                        uint16_t *map, size_t map_len,
                        uint8_t *word, size_t word_len,
                        benzo_session session);

#ifdef __cplusplus
}
#endif

#endif
