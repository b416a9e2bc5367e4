/* A host of the gait conductor: the crawler stands, walks ahead, turns while it walks, and stands still, ten seconds in ticks of 20 ms.
   `examples/crawl` builds it and runs it. A line a call, fields parted by tabs: milliseconds; S a step, P planned, N it rests; eighteen
   coordinates of the last feet, then eighteen joint angles, in row order, as the eight hex digits of their bits. A refusal is a line on
   standard error, R, its number and, where it names one, the leg; the status is then 1. */
#include "conductor.h"
#include <inttypes.h>
#include <stdio.h>
#include <stdlib.h>
#include <string.h>

#define TICK 20u   /* milliseconds */
#define END 10000u /* and how many of them */

#define LEGS 6
#define FLOATS 18 /* of six feet, and of six legs' joints */

/* Where the feet stand at rest. */
static const float relaxed[FLOATS] = {
    0.18f,  0.14f, -0.11f, /* left front */
    0.18f, -0.14f, -0.11f, /* right front */
    0.00f,  0.19f, -0.11f, /* left middle */
    0.00f, -0.19f, -0.11f, /* right middle */
   -0.18f,  0.14f, -0.11f, /* left rear */
   -0.18f, -0.14f, -0.11f, /* right rear */
};

/* How the crawler is built. */
static const float crawler[5 + 6 * LEGS] = {
    0.05f, 0.08f, 0.13f, 0.0f, 0.0f, /* coxa, femur, tibia length; femur, tibia offset */
    0.1f,  0.06f, 0.0f, -0.80f, 0.0f, 0.0f, /* left front: coxa x y z, angle offset, femur, tibia correction */
    0.1f, -0.06f, 0.0f,  0.80f, 0.0f, 0.0f,
    0.0f,  0.10f, 0.0f, -1.57f, 0.0f, 0.0f,
    0.0f, -0.10f, 0.0f,  1.57f, 0.0f, 0.0f,
   -0.1f,  0.06f, 0.0f, -2.35f, 0.0f, 0.0f,
   -0.1f, -0.06f, 0.0f,  2.35f, 0.0f, 0.0f,
};

/* What the driver asks for, and from when on. */
struct wish {
    uint32_t from; /* milliseconds */
    float x, y, rotation;
};

static const struct wish wishes[] = {
    {1000, 0.035f, 0.0f, 0.0f},  /* ahead */
    {4500, 0.035f, 0.0f, 0.12f}, /* and to the left */
    {8000, 0.0f, 0.0f, 0.0f},    /* stand still */
};

/* Floats go into a row, lowest byte first on every machine. */
static void put_floats(uint8_t *row, const float *floats, int n) {
    for (int k = 0; k < n; k++) {
        uint32_t bits;
        memcpy(&bits, &floats[k], 4);
        for (int b = 0; b < 4; b++)
            row[4 * k + b] = (uint8_t)(bits >> 8 * b);
    }
}

/* The bits of eighteen floats of a row. */
static void print_floats(const uint8_t *row) {
    for (int k = 0; k < FLOATS; k++) {
        uint32_t bits = 0;
        for (int b = 0; b < 4; b++)
            bits |= (uint32_t)row[4 * k + b] << 8 * b;
        printf("\t%08" PRIx32, bits);
    }
}

/* A result that refuses nothing, or the end. */
static uint32_t accepted(uint32_t result) {
    uint32_t refusal = HOPPER_REFUSAL(result);
    if (refusal == 0)
        return result;
    fprintf(stderr, "R\t%" PRIu32, refusal);
    if (refusal == 6 || refusal == 8)
        fprintf(stderr, "\t%" PRIu32, HOPPER_LEG(result));
    fprintf(stderr, "\n");
    exit(1);
}

int main(void) {
    uint8_t state[HOPPER_STATE_BYTES], joints[HOPPER_JOINT_BYTES];
    uint8_t feet[HOPPER_FEET_BYTES], configuration[HOPPER_CONFIGURATION_BYTES];
    put_floats(feet, relaxed, FLOATS);
    put_floats(configuration, crawler, 5 + 6 * LEGS);
    accepted(hopper_stand(state, sizeof state, feet, sizeof feet, configuration, sizeof configuration));

    const struct wish *wish = wishes, *past = wishes + sizeof wishes / sizeof *wishes;
    uint32_t began = 0; /* when the step did */
    for (uint32_t now = 0; now <= END; now += TICK) {
        for (; wish < past && wish->from <= now; wish++)
            accepted(hopper_command(state, sizeof state, wish->x, wish->y, wish->rotation, 0, 600000000, 0.03f, 0));
        uint32_t elapsed = now - began;
        uint32_t result = accepted(hopper_conduct(state, sizeof state, joints, sizeof joints, elapsed / 1000, elapsed % 1000 * 1000000));
        if (HOPPER_KIND(result) != HOPPER_STEP)
            began = now;
        printf("%" PRIu32 "\t%c", now, "SPN"[HOPPER_KIND(result)]);
        print_floats(state + HOPPER_LAST);
        print_floats(joints);
        printf("\n");
    }
    return 0;
}
