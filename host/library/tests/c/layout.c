/* Prints the sizes and places that the header's types have for C. */
#include <stdio.h>

#include "benzokamuri.h"

#define SIZE(type) printf(#type " %zu\n", sizeof(type))
#define PLACE(type, field) printf(#type "." #field " %zu\n", offsetof(type, field))
#define VALUE(name) printf(#name " %d\n", name)

int main(void) {
    SIZE(benzo_asked);
    PLACE(benzo_asked, number);
    PLACE(benzo_asked, argument);
    PLACE(benzo_asked, day);
    PLACE(benzo_asked, hour);
    PLACE(benzo_asked, minute);
    SIZE(benzo_session);
    PLACE(benzo_session, user);
    PLACE(benzo_session, pattern);
    PLACE(benzo_session, place);
    PLACE(benzo_session, on);
    PLACE(benzo_session, lifted);
    SIZE(benzo_answer);
    PLACE(benzo_answer, a);
    PLACE(benzo_answer, h);
    PLACE(benzo_answer, session);
    SIZE(benzo_wanted);
    PLACE(benzo_wanted, year);
    PLACE(benzo_wanted, day);
    PLACE(benzo_wanted, book);
    PLACE(benzo_wanted, log);
    SIZE(benzo_time);
    PLACE(benzo_time, day);
    PLACE(benzo_time, hour);
    PLACE(benzo_time, minute);
    SIZE(benzo_picked);
    PLACE(benzo_picked, number);
    PLACE(benzo_picked, given);
    PLACE(benzo_picked, a);
    PLACE(benzo_picked, h);
    PLACE(benzo_picked, session);
    VALUE(BENZO_VERSION);
    VALUE(BENZO_IMAGE_LEN);
    VALUE(BENZO_MAP_LEN);
    VALUE(BENZO_FCB_LEN);
    VALUE(BENZO_BUFFER_LEN);
    return 0;
}
