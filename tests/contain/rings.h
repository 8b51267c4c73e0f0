/* Automata with the longest walks and words. The left one is a ring of 13 states on letter 1, the right one has rings of 5, 7 and 9 states side
   by side on letter 1; together they come round after 13 * 5 * 7 * 9 = 4,095 letters. On letter 0 the left run leaves its ring from the
   last state for an accepting state. The right runs leave theirs for an accepting state too, but each ring may have one state that stays:
   then the walk at bound 0 ends where the left run first leaves while every right run stays, with nearly all places of the rings behind it.

     apart   the runs begin outside the right rings, and the accepting states loop: the word has 4,095 letters and 4,096 vertices stand
             before the final one, of which the accepting states make one aside
     again   the runs begin in the accepting states, which lead back into the rings: the word has 4,096 letters, and no vertex stands
             aside; no word that a walk gives back is longer

   Where no state stays the automaton is contained; again, the walk has 4,096 vertices. */
#ifndef TESTS_RINGS_H
#define TESTS_RINGS_H

#include "../check.h"

enum rings { APART, AGAIN };
enum { LEFT_RING = 13 };

static inline struct file left_rings(enum rings kind) {
    const uint8_t accepts = LEFT_RING;
    struct file f = header(LEFT_RING + 1, 2, kind == AGAIN ? accepts : 0);
    accepting(&f, accepts);
    for (uint8_t q = 0; q < LEFT_RING; q++) transition(&f, q, 1, (uint8_t)((q + 1) % LEFT_RING));
    transition(&f, LEFT_RING - 1, 0, accepts);
    transition(&f, accepts, 0, accepts), transition(&f, accepts, 1, kind == AGAIN ? 0 : accepts);
    end(&f);
    return f;
}

static inline struct file right_rings(enum rings kind, int stays) {
    const uint8_t rings[] = {5, 7, 9}, accepts = 5 + 7 + 9, begins = kind == AGAIN ? accepts : accepts + 1;
    struct file f = header((uint8_t)(begins + 1), 2, begins);
    accepting(&f, accepts), transition(&f, accepts, 0, accepts);
    if (kind == APART) transition(&f, accepts, 1, accepts), transition(&f, begins, 0, accepts);
    for (uint8_t ring = 0, from = 0; ring < 3; from = (uint8_t)(from + rings[ring]), ring++) {
        uint8_t n = rings[ring], keeps = (uint8_t)(kind == AGAIN ? n - 1 : n - 2);
        transition(&f, begins, 1, from);
        for (uint8_t q = 0; q < n; q++) {
            transition(&f, (uint8_t)(from + q), 1, (uint8_t)(from + (q + 1) % n));
            if (!stays || q != keeps) transition(&f, (uint8_t)(from + q), 0, accepts);
        }
    }
    end(&f);
    return f;
}

#endif
