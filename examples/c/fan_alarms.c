/*
 * Sets the fan alarms at start-up, as firmware would, and takes two samples. A fan
 * rings at its planned speed and at every slower one.
 *
 *     (cd crates/w83782d_c && rt lib --cpu x86-64)
 *     gcc -std=c11 -Iinclude examples/c/fan_alarms.c crates/w83782d_c/out/libw83782d_c.a -o fan_alarms
 *
 * The archive needs no other library; stdio is for this program's own lines.
 */
#include <stdbool.h>
#include <stdint.h>
#include <stdio.h>

#include "w83782d.h"

enum { FANS = 3 };

/* 40h: bit 1 enables SMI, bit 0 starts monitoring. */
enum { CONFIGURATION = 0x40, SMI_AND_START = 0x03 };

static const char *in_words(uint8_t answer)
{
    switch (answer) {
    case W83782D_ACCEPTED:
        return "accepted";
    case W83782D_NOT_MONITORING:
        return "monitoring is stopped";
    case W83782D_BAD_SPEED:
        return "speed out of range";
    case W83782D_NO_CHANNEL:
        return "no such fan";
    case W83782D_BAD_LENGTH:
        return "image of the wrong length";
    default:
        return "unexpected answer";
    }
}

/* Only this fan's limit and divisor bits are written: the divisors of fans 1 and 2
 * share 47h, and those of all three 5Dh, but no neighbour's alarm moves. */
static bool set_alarm(uint8_t *image, uint8_t fan, uint32_t rpm)
{
    uint8_t answer = w83782d_set_plan(image, W83782D_IMAGE_SIZE, fan, rpm);

    if (answer != W83782D_ACCEPTED) {
        printf("fan %d at %lu rpm: refused, %s\n", fan, (unsigned long)rpm, in_words(answer));
        return false;
    }
    printf("fan %d: alarm set at %lu rpm\n", fan, (unsigned long)rpm);
    return true;
}

static bool start_up(uint8_t *image)
{
    static const uint32_t alarms[FANS] = {4400, 2641, 1000};
    int fan;

    if (w83782d_power_on(image, W83782D_IMAGE_SIZE) != W83782D_ACCEPTED)
        return false;
    for (fan = 0; fan < FANS; fan++) {
        if (!set_alarm(image, (uint8_t)(fan + 1), alarms[fan]))
            return false;
    }
    return w83782d_write(image, W83782D_IMAGE_SIZE, CONFIGURATION, SMI_AND_START) ==
           W83782D_ACCEPTED;
}

/* The undivided count of a fan at a speed; firmware has it from the tachometer. */
static uint32_t count_at(uint32_t rpm)
{
    return 1350000 / rpm;
}

/* A sample with the fans at these speeds; nothing else is out of its limits. */
static bool take_sample(uint8_t *image, const uint32_t rpm[FANS])
{
    static const uint8_t volts[W83782D_VOLTAGES] = {0};
    uint8_t answer = w83782d_sample(image, W83782D_IMAGE_SIZE, volts, sizeof volts, 0, 0, 0,
                                    count_at(rpm[0]), count_at(rpm[1]), count_at(rpm[2]));
    uint32_t outputs;

    if (answer != W83782D_ACCEPTED) {
        printf("sample: refused, %s\n", in_words(answer));
        return false;
    }
    outputs = w83782d_outputs(image, W83782D_IMAGE_SIZE);
    if (W83782D_OUTPUTS_ANSWER(outputs) != W83782D_ACCEPTED) {
        printf("outputs: refused, %s\n", in_words(W83782D_OUTPUTS_ANSWER(outputs)));
        return false;
    }
    printf("fans at %lu, %lu, %lu rpm: alarms %d, SMI %d\n", (unsigned long)rpm[0],
           (unsigned long)rpm[1], (unsigned long)rpm[2], W83782D_OUTPUTS_ALARMS(outputs),
           W83782D_OUTPUTS_SMI(outputs));
    return true;
}

int main(void)
{
    static const uint32_t fast[FANS] = {4500, 2700, 1100};
    static const uint32_t fan_1_slow[FANS] = {4400, 2700, 1100};
    uint8_t image[W83782D_IMAGE_SIZE];

    if (!start_up(image) || !take_sample(image, fast))
        return 1;

    /* A refused alarm leaves the one that is set. Neither of these may be accepted. */
    if (set_alarm(image, 1, 0) || set_alarm(image, FANS + 1, 4400))
        return 1;
    if (!take_sample(image, fan_1_slow))
        return 1;
    return 0;
}
