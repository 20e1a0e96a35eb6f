/* Every call, and the picker, with every length wrong in turn. Each buffer is
 * exactly as long as it is said to be, so that a memory checker sees the first
 * byte beyond it. A wrong length is answered with 255, 4, and nothing changes.
 * Where nothing is lent, the pointer is NULL. */
#include <stdio.h>
#include <stdlib.h>
#include <string.h>

#include "benzokamuri.h"

static const uint8_t calls[] = {13, 15, 16, 17, 18, 19, 20, 21, 22, 23, 32, 33, 34, 35, 36, 46, 98};
static const size_t right[4] = {BENZO_IMAGE_LEN, BENZO_MAP_LEN, BENZO_FCB_LEN, BENZO_BUFFER_LEN};
static const size_t width[4] = {1, sizeof(uint16_t), 1, 1};

static unsigned long made, refused;

/* As many bytes as are asked for, all the same, or NULL for none. */
static uint8_t *lent_bytes(size_t length, uint8_t filling) {
    uint8_t *bytes = length == 0 ? NULL : malloc(length);
    if (length > 0 && bytes == NULL) exit(2);
    if (bytes != NULL) memset(bytes, filling, length);
    return bytes;
}

/* Makes a call with these lengths, on buffers full of one byte. */
static void lend(uint8_t number, const size_t *length, uint8_t filling) {
    uint8_t *lent[4];
    int changed = 0;
    for (int i = 0; i < 4; i++) lent[i] = lent_bytes(length[i] * width[i], filling);
    benzo_asked asked = {number, 0, 17851, 0x06, 0x00};
    benzo_session protected = {0};
    benzo_session session = benzo_lift(protected);
    benzo_answer answer = benzo_call(asked, lent[0], length[0], (uint16_t *)lent[1], length[1],
                                     lent[2], length[2], lent[3], length[3], session);
    for (int i = 0; i < 4; i++) {
        for (size_t at = 0; at < length[i] * width[i]; at++) changed |= lent[i][at] != filling;
        free(lent[i]);
    }
    made++;
    if (memcmp(length, right, sizeof right) == 0) return;
    if (answer.a != 255 || answer.h != 4 || changed) {
        printf("call %d with lengths %zu %zu %zu %zu: %d, %d%s\n", number, length[0], length[1],
               length[2], length[3], answer.a, answer.h, changed ? ", and a buffer changed" : "");
        exit(1);
    }
    refused++;
}

/* The three buffers of a picker, and their lengths in bytes. */
struct picking {
    uint8_t *lent[3];
    size_t bytes[3];
};

/* A book whose one record is in block 2, as far as there is room for it. */
static struct picking with_book(const size_t *length, const uint8_t *book) {
    struct picking with = {{NULL}, {length[0], length[1] * sizeof(uint16_t), length[2]}};
    static const uint8_t fillings[3] = {0xE5, 0, 0x5E};
    for (int i = 0; i < 3; i++) with.lent[i] = lent_bytes(with.bytes[i], fillings[i]);
    if (length[0] >= 6656 + 32) {
        uint8_t *entry = with.lent[0] + 6656; /* entry 0 */
        memset(entry, 0, 32);
        memcpy(entry + 1, book, 11);
        entry[15] = 1;
        entry[16] = 2;
    }
    uint16_t *map = (uint16_t *)(void *)with.lent[1];
    for (size_t block = 0; block < 3 && block < length[1]; block++) map[block] = block < 2 ? 1 : 2;
    return with;
}

/* Picks a word with these lengths. Where one is wrong no byte may change. */
static void pick(size_t image_len, size_t map_len, size_t word_len) {
    const size_t length[3] = {image_len, map_len, word_len};
    benzo_wanted wanted = {2026, 0, {0}, {0}};
    benzo_time time = {17851, 0x06, 0x00};
    benzo_session session = {0};
    int changed = 0;
    memcpy(wanted.book, "WORDS   DAT", 11);
    memcpy(wanted.log, "WORDS   LOG", 11);
    struct picking was = with_book(length, wanted.book), is = with_book(length, wanted.book);
    benzo_picked picked = benzo_pick(wanted, time, is.lent[0], image_len, (uint16_t *)(void *)is.lent[1],
                                     map_len, is.lent[2], word_len, session);
    for (int i = 0; i < 3; i++) {
        changed |= is.bytes[i] > 0 && memcmp(is.lent[i], was.lent[i], is.bytes[i]) != 0;
        free(is.lent[i]);
        free(was.lent[i]);
    }
    int all_right = image_len == BENZO_IMAGE_LEN && map_len == BENZO_MAP_LEN && word_len == BENZO_BUFFER_LEN;
    int refused_so = picked.number == BENZO_PICK_OTHER && picked.a == 255 && picked.h == 4 && !picked.given;
    if (all_right ? picked.number != BENZO_PICK_LOGGED || !changed : !refused_so || changed) {
        printf("picked with lengths %zu %zu %zu: %d, %d, %d%s\n", image_len, map_len, word_len,
               picked.number, picked.a, picked.h, changed ? ", and a buffer changed" : "");
        exit(1);
    }
    made++;
    refused += !all_right;
}

static void pick_with_every_length_wrong(void) {
    static const size_t lent[3] = {BENZO_IMAGE_LEN, BENZO_MAP_LEN, BENZO_BUFFER_LEN};
    pick(lent[0], lent[1], lent[2]);
    for (int i = 0; i < 3; i++) {
        size_t wrong[] = {0, 1, lent[i] / 2, lent[i] - 1, lent[i] + 1, 2 * lent[i]};
        for (size_t w = 0; w < sizeof wrong / sizeof *wrong; w++)
            pick(i == 0 ? wrong[w] : lent[0], i == 1 ? wrong[w] : lent[1], i == 2 ? wrong[w] : lent[2]);
    }
    pick(0, 0, 0);
}

int main(void) {
    for (size_t c = 0; c < sizeof calls; c++) {
        lend(calls[c], right, 0xE5);
        lend(calls[c], right, 0);
        for (int i = 0; i < 4; i++) {
            size_t wrong[] = {0, 1, right[i] / 2, right[i] - 1, right[i] + 1, 2 * right[i]};
            for (size_t w = 0; w < sizeof wrong / sizeof *wrong; w++) {
                size_t length[4];
                memcpy(length, right, sizeof right);
                length[i] = wrong[w];
                lend(calls[c], length, 0xE5);
            }
        }
        size_t none[4] = {0, 0, 0, 0};
        lend(calls[c], none, 0);
    }
    pick_with_every_length_wrong();
    printf("%lu calls, %lu of them refused for a length\n", made, refused);
    return 0;
}
