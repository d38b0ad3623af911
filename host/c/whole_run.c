/* The header for a compiler of C: the structs have the layout that host/src/c.rs has, and a program of C gives a room document 01's whole run. */
#include "harbour.h"

/* From the C library, whose headers a cross compiler may lack. */
extern int puts(const char *line);

_Static_assert(offsetof(struct harbour_room, values) == 1024, "values");
_Static_assert(offsetof(struct harbour_room, standing) == 1088, "standing");
_Static_assert(offsetof(struct harbour_room, ticket) == 1120, "ticket");
_Static_assert(offsetof(struct harbour_room, alternatives) == 1248, "alternatives");
_Static_assert(offsetof(struct harbour_room, atoms) == 1280, "atoms");
_Static_assert(offsetof(struct harbour_room, measure) == 1408, "measure");
_Static_assert(offsetof(struct harbour_room, operator_) == 1920, "operator_");
_Static_assert(offsetof(struct harbour_room, key) == 2432, "key");
_Static_assert(offsetof(struct harbour_room, entry) == 6528, "entry");
_Static_assert(offsetof(struct harbour_room, high) == 6560, "high");
_Static_assert(offsetof(struct harbour_room, low) == 7584, "low");
_Static_assert(offsetof(struct harbour_room, places) == 8608, "places");
_Static_assert(offsetof(struct harbour_room, lengths) == 12960, "lengths");
_Static_assert(offsetof(struct harbour_room, measures) == 13000, "measures");
_Static_assert(offsetof(struct harbour_room, next_ticket) == 13008, "next_ticket");
_Static_assert(sizeof(struct harbour_room) == 13016, "room");
_Static_assert(sizeof(struct harbour_tally) == 32, "tally");
_Static_assert(sizeof(struct harbour_opened) == 24, "opened");
_Static_assert(sizeof(struct harbour_report) == 24, "report");

/* The opening, and nine events. */
static const uint8_t stream[] = {
    1, 2, 0, 0, 0, 0, 0, 0, 0, 0, 0, 0, 0, 0, 0, 0, 0, /* opening */
    1, 0,                                              /* Arrive 0 */
    2, 0,                                              /* Admit 0 */
    4, 0, 96, 0, 0, 0, 1, 1, 0, 6, 2, 0, 0, 0, 0,      /* Wait 0 */
    1, 1,                                              /* Arrive 1 */
    2, 1,                                              /* Admit 1 */
    3, 1, 0, 100,                                      /* Set 1 */
    5, 1,                                              /* Leave 1 */
    2, 0,                                              /* Admit 0 */
    5, 0,                                              /* Leave 0 */
};

/* Outcome, called job and count of each. */
static const uint8_t expected[][3] = {
    {HARBOUR_DONE, HARBOUR_NOBODY, 0},
    {HARBOUR_IN, HARBOUR_NOBODY, 0},
    {HARBOUR_WAITS, HARBOUR_NOBODY, 0},
    {HARBOUR_DONE, HARBOUR_NOBODY, 0},
    {HARBOUR_IN, HARBOUR_NOBODY, 0},
    {HARBOUR_DONE, HARBOUR_NOBODY, 0},
    {HARBOUR_DONE, 0, 1},
    {HARBOUR_IN, HARBOUR_NOBODY, 0},
    {HARBOUR_DONE, HARBOUR_NOBODY, 0},
    {HARBOUR_NONE_LEFT, HARBOUR_NOBODY, 0},
};

static struct harbour_room room;

int main(void) {
    struct harbour_tally tally = {0, 0, 0, 0};
    struct harbour_opened opened = harbour_open(&room, stream, sizeof stream);
    if (opened.refusal != 0 || opened.measures != 1 || opened.taken != 17) {
        puts("whole_run: the opening");
        return 1;
    }
    size_t at = opened.taken;
    for (size_t event = 0; event < sizeof expected / sizeof expected[0]; event++) {
        struct harbour_report report = harbour_event(&tally, &room, stream + at, sizeof stream - at);
        if (report.outcome != expected[event][0] || report.job != expected[event][1] || report.count != expected[event][2] || report.refusal != 0) {
            puts("whole_run: an event's report");
            return 1;
        }
        at += report.taken;
    }
    if (at != sizeof stream || tally.events != 9 || tally.calls != 1 || tally.evaluated != 1 || tally.sent_back != 0) {
        puts("whole_run: the tally");
        return 1;
    }
    static const uint8_t wrong[] = {2, 5};
    struct harbour_report refused = harbour_event(&tally, &room, wrong, sizeof wrong);
    if (refused.outcome != HARBOUR_REFUSED || refused.refusal != HARBOUR_WRONG_STANDING || refused.taken != 2 || tally.events != 9) {
        puts("whole_run: a refusal");
        return 1;
    }
    if (harbour_value(room.values, 0) != 50 || room.next_ticket != 1 || harbour_standing(room.standing, 0) != HARBOUR_OUTSIDE ||
        harbour_inside(room.standing) != HARBOUR_NOBODY) {
        puts("whole_run: the room");
        return 1;
    }
    return 0;
}
