/*
 * Each part of a returned word, as include/w83782d.h says where it lies. Only
 * compiled, as C and as C++: a wrong part is an error.
 */
#include <assert.h>

/* C99 has none: there an array of -1 chars is the error. */
#if !defined(__cplusplus) && __STDC_VERSION__ < 201112L
#define static_assert(holds, part) extern char w83782d_part[(holds) ? 1 : -1]
#endif

#include "w83782d.h"

static_assert(W83782D_READ_ANSWER(0x0100) == W83782D_NO_REGISTER, "read, answer");
static_assert(W83782D_READ_BYTE(0x00A3) == 0xA3, "read, byte");

static_assert(W83782D_PLAN_ANSWER(0x060000) == W83782D_BAD_SPEED, "plan, answer");
static_assert(W83782D_PLAN_DIVISOR(0x000298) == 2, "plan, divisor");
static_assert(W83782D_PLAN_LIMIT(0x000298) == 152, "plan, limit");

static_assert(W83782D_EVENT_ANSWER(0x0500) == W83782D_BAD_RECORD, "event, answer");
static_assert(W83782D_EVENT_BYTE(0x005C) == 0x5C, "event, byte");

static_assert(W83782D_REPLAY_ANSWER(0x8000000000000000) == W83782D_BAD_LENGTH, "replay, answer");
static_assert(W83782D_REPLAY_ANSWER(0x5000000000000007) == W83782D_BAD_RECORD, "replay, answer");
static_assert(W83782D_REPLAY_ACCEPTED(0x5000000000000007) == 7, "replay, accepted");
static_assert(W83782D_REPLAY_ACCEPTED(0x0FFFFFFFFFFFFFFF) >> 59 == 1, "replay, accepted");

static_assert(W83782D_OUTPUTS_ANSWER(0x080000) == W83782D_BAD_LENGTH, "outputs, answer");
static_assert(W83782D_OUTPUTS_ALARMS(0x000E07) == 14, "outputs, alarms");
static_assert(W83782D_OUTPUTS_SMI(0x000E01) && !W83782D_OUTPUTS_SMI(0x000E06), "outputs, SMI");
static_assert(W83782D_OUTPUTS_OVT_2(0x02) && !W83782D_OUTPUTS_OVT_2(0x05), "outputs, OVT 2");
static_assert(W83782D_OUTPUTS_OVT_3(0x04) && !W83782D_OUTPUTS_OVT_3(0x03), "outputs, OVT 3");

static_assert(W83782D_SPEED_KIND(0x0000AC56) == W83782D_NUMBER, "speed, kind");
static_assert(W83782D_SPEED_TENTHS(0x0000AC56) == 44118, "speed, tenths of rpm");
static_assert(W83782D_SPEED_ANSWER(0x0000AC56) == W83782D_ACCEPTED, "speed, answer");
static_assert(W83782D_SPEED_KIND(0x00CDFE60) == W83782D_NUMBER, "largest speed, kind");
static_assert(W83782D_SPEED_TENTHS(0x00CDFE60) == 13500000, "largest speed, tenths of rpm");
static_assert(W83782D_SPEED_ANSWER(0x00CDFE60) == W83782D_ACCEPTED, "largest speed, answer");
static_assert(W83782D_SPEED_KIND(0x01000000) == W83782D_TOO_FAST, "speed, kind");
static_assert(W83782D_SPEED_KIND(0x02000000) == W83782D_TOO_SLOW, "speed, kind");
static_assert(W83782D_SPEED_ANSWER(0x02000000) == W83782D_ACCEPTED, "speed, answer");
static_assert(W83782D_SPEED_ANSWER(0x87000000) == W83782D_NO_CHANNEL, "speed, answer");
static_assert(W83782D_SPEED_ANSWER(0x88000000) == W83782D_BAD_LENGTH, "speed, answer");

static_assert(W83782D_TEMPERATURE_ANSWER(0x070000) == W83782D_NO_CHANNEL, "temperature, answer");
static_assert(W83782D_HALF_DEGREES(0x0000FF) == 255, "temperature, half degrees");
static_assert(W83782D_HALF_DEGREES(0x00FF00) == -256, "temperature, half degrees");
static_assert(W83782D_HALF_DEGREES(0x00FFFF) == -1, "temperature, half degrees");
