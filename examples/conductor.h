/* A gait conducted for a C host: one call a tick updates a state that the host lends, says what happened, and hands over eighteen joint
   angles. Made by `tools/native-lib c_host libc_host.a`; docs/CONDUCTOR.md says what a host does. Lengths are metres, angles radians. */
#ifndef HOPPER_CONDUCTOR_H
#define HOPPER_CONDUCTOR_H

#include <stdint.h>

#ifdef __cplusplus
extern "C" {
#endif

/* Lengths of the rows in bytes. All numbers in them stand lowest byte first, floats as the bits of an IEEE f32, without padding. Rows need
   no alignment. */
#define HOPPER_STATE_BYTES 506
#define HOPPER_JOINT_BYTES 72
#define HOPPER_FEET_BYTES 72
#define HOPPER_CONFIGURATION_BYTES 164

/* Where things stand in a state row. Feet are six points of x y z in row order: left front, right front, left middle, right middle, left
   rear, right rear. The marks are six bytes in that order: 0 standing, 1 lifted. Joints are coxa, femur, tibia in that order too. */
#define HOPPER_START 0           /* feet: where the step began */
#define HOPPER_LAST 72           /* feet: where they are after the call */
#define HOPPER_TARGET 144        /* feet: where the step ends */
#define HOPPER_RELAXED 216       /* feet: where they stand at rest */
#define HOPPER_COMMAND 288       /* direction x, direction y, rotation, step height: four floats */
#define HOPPER_CONFIGURATION 304 /* coxa, femur, tibia length, femur, tibia offset; then for each leg of the row coxa position x y z, angle
                                    offset, femur correction, tibia correction */
#define HOPPER_NANOSECONDS 468   /* of the command's step time: four bytes */
#define HOPPER_SECONDS 472       /* and its seconds: eight bytes */
#define HOPPER_START_MARKS 480
#define HOPPER_LAST_MARKS 486
#define HOPPER_TARGET_MARKS 492
#define HOPPER_RELAXED_MARKS 498
#define HOPPER_LIFTED 504     /* the lifted tripod: 0 left front, right middle, left rear; 1 the other three */
#define HOPPER_AGGRESSIVE 505 /* of the command: 0 or 1 */

/* A result's parts: the refusal's number, 0 for none; where that is 6 or 8 the leg, its place in the row from 0 on; and where
   hopper_conduct refuses nothing, the kind. */
#define HOPPER_REFUSAL(result) ((result) & 255u)
#define HOPPER_LEG(result) ((result) >> 8)
#define HOPPER_KIND(result) ((result) >> 8)

/* The kinds. */
#define HOPPER_STEP 0    /* the step goes on: the last feet are new */
#define HOPPER_PLANNED 1 /* the step has ended and the next is planned: the host begins to count its time anew */
#define HOPPER_RESTS 2   /* the step has ended and the command stands still: nothing has changed */

/* The refusals, in the order in which they are looked for:
     5   a row of joints, feet or configuration has another length than above
     16  the state row has another length, a byte of 480 to 505 is neither 0 nor 1, or `aggressive` is above 1
     1   a float is a NaN or infinite
     2   a float is outside its range (docs/RULES.md)
     3   a time is outside its range: elapsed to 3600 s, step time 1 ms to 60 s, nanoseconds below 10^9
     6   a leg's coxa is turned 90 degrees or more; 8: -90 degrees or less; in hopper_conduct alone, with the leg
   Where more than one of 1, 2 and 3 applies, the lowest is given. A refusal leaves every row as it was.

   The rows of one call must not overlap, none of them may be null, and each must have at least as many bytes as its length says. Lengths
   are uint64_t on every board. */

/* Makes a fresh state: start, last, target and relaxed feet are these 72 bytes, all standing, tripod 0 is lifted, and the command stands
   still, with a step of 600 ms and 0.03 m. What the state row holds before is not looked at. Refuses 5, 16, 1, 2. */
uint32_t hopper_stand(uint8_t *state, uint64_t state_len, const uint8_t *feet, uint64_t feet_len, const uint8_t *configuration, uint64_t configuration_len);

/* Puts a command into a state: metres ahead and to the left and radians to turn in a step, the step's time and height, and whether legs
   are lifted aggressively, 0 or 1. All else stays: a step under way goes on at the new pace and height. Refuses 16, 1, 2, 3, the last three
   over the state with the command that it still has, and over the new one. */
uint32_t hopper_command(uint8_t *state, uint64_t state_len, float x, float y, float rotation, uint64_t seconds, uint32_t nanoseconds, float height, uint32_t aggressive);

/* One tick: the step goes on, or the next is planned, or all rests; the joints of the last feet are stored. The time is that since the step
   began. Refuses 5, 16, 1, 2, 3 over everything; then 2 where the step takes a foot past 4 m, 6, 8. */
uint32_t hopper_conduct(uint8_t *state, uint64_t state_len, uint8_t *joints, uint64_t joints_len, uint64_t seconds, uint32_t nanoseconds);

#ifdef __cplusplus
}
#endif

#endif
