/* One leg's step in whole numbers of 0.1 mm, for a leg board that has no floats. Made by
   `tools/native-lib leg_board libleg_board.a TRIPLE ..`; it wants nothing from outside. docs/API.md has the rule. */
#ifndef HOPPER_LEG_BOARD_H
#define HOPPER_LEG_BOARD_H

#include <stdint.h>

#ifdef __cplusplus
extern "C" {
#endif

/* Start s, target t, coordinates from -40000 to 40000; height from 0 to 1000, 0 for a leg that stands; progress from 0 to
   2048, which is done. Answers 0, and *x, *y, *z are where the foot is; or 2 where a number is outside its range, and they
   are as they were. The three must be three numbers, none of them null. */
uint32_t hopper_leg_step(int32_t sx, int32_t sy, int32_t sz, int32_t tx, int32_t ty, int32_t tz, int32_t height, int32_t progress, int32_t *x, int32_t *y, int32_t *z);

#ifdef __cplusplus
}
#endif

#endif
