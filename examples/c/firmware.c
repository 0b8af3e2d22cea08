/*
 * Firmware of a controller that takes the place of the W83782D: start with or without a
 * kept image, fan alarms, bus accesses, a sample a second, SMI and OVT, a log.
 * host/examples/firmware.rs is the same in Rust and prints the same lines.
 *
 *     (cd crates/w83782d_c && rt lib --cpu x86-64)
 *     gcc -std=c11 -Iinclude examples/c/firmware.c crates/w83782d_c/out/libw83782d_c.a -o firmware
 *
 * What the board would do comes first, as stand-ins that print. The archive needs
 * no other library; stdio and string are for this program's own lines.
 */
#include <stdbool.h>
#include <stdint.h>
#include <stdio.h>
#include <string.h>

#include "w83782d.h"

enum { FANS = 3, SECONDS = 5, LOG_RECORDS = 16 };

#define COUNT_OF(array) (sizeof(array) / sizeof(array)[0])

/* ---- Stand-ins for the board's functions: five seconds of a cabinet ---- */

struct access {
    bool write;
    uint8_t index, value;
};

/* What the bus master wants in each second: the chip ID; a reserved index and a
 * read-only one; status twice, which the first read clears; another limit for
 * VCOREA; status. */
static const struct {
    int count;
    struct access accesses[2];
} traffic[SECONDS] = {
    {1, {{false, 0x58, 0}}},
    {2, {{false, 0x45, 0}, {true, 0x58, 0xFF}}},
    {2, {{false, 0x41, 0}, {false, 0x41, 0}}},
    {1, {{true, 0x2B, 0x6A}}},
    {1, {{false, 0x41, 0}}},
};
static const int16_t sensor_2_half_degrees[SECONDS] = {80, 80, 81, 161, 149};
/* Fan 1 is slow in the second second and recovers in the third: both latch its bit. */
static const uint32_t fan_1_rpm[SECONDS] = {5000, 4400, 5000, 5000, 5000};
static const uint8_t voltages[W83782D_VOLTAGES] = {100, 94, 206, 186, 197, 35, 54};

static int moment;
static bool smi_pin, ovt_pin;
static uint8_t event_log[LOG_RECORDS * W83782D_RECORD_SIZE];
static size_t logged;

/* Memory that outlives a restart. A board checks that what it holds is whole (a
 * sum, a mark): any bytes are some monitor. */
static uint8_t kept[W83782D_IMAGE_SIZE];
static bool is_kept;

static void keep_image(const uint8_t *image)
{
    memcpy(kept, image, sizeof kept);
    is_kept = true;
}

static bool chassis_switch(void)
{
    return moment == 4;
}

/* The undivided count of fan 1 to 3; one that doesn't turn has the largest. */
static uint32_t count_of_fan(int fan)
{
    uint32_t rpm = fan == 1 ? fan_1_rpm[moment] : fan == 2 ? 2900 : 1200;

    return rpm == 0 ? UINT32_MAX : 1350000 / rpm;
}

static void drive(const char *pin, bool *was, bool asserted)
{
    if (*was != asserted)
        printf("%s %s\n", pin, asserted ? "asserted" : "released");
    *was = asserted;
}

/* For the service engineer. */
static void note(const char *what, uint8_t index, uint8_t answer)
{
    printf("bus: %s %02Xh refused, answer %d\n", what, index, answer);
}

/* ---- The firmware ---- */

/* Limits of the rails, high before low, then of sensor 1: those of power-on are 0
 * and would ring at the first sample. Last 40h, SMI enabled and monitoring on. */
static const struct {
    uint8_t index, value;
} settings[] = {
    {0x2B, 105}, {0x2C, 95},  {0x2D, 99},  {0x2E, 89},  {0x2F, 216},  {0x30, 196},
    {0x31, 195}, {0x32, 177}, {0x33, 207}, {0x34, 187}, {0x35, 49},   {0x36, 21},
    {0x37, 63},  {0x38, 45},  {0x39, 60},  {0x3A, 55},  {0x40, 0x03},
};

/* Speeds in rpm at which fans 1 to 3 ring, as at every slower one. */
static const uint32_t alarms[FANS] = {4400, 2641, 1000};

/* Voltage channel of +12, whose reading needs no resistors, and the register of its
 * code, which a read leaves as it is. */
enum { PLUS_12 = 4, PLUS_12_CODE = 0x24 };

/* The monitor: nothing but these bytes, which are never looked into. */
static uint8_t image[W83782D_IMAGE_SIZE];

/* The chip's index pointer, which stays from one bus access to the next. */
static uint8_t bus_index;

/* The first byte after the bus address of a write is the index. */
static bool index_is_next;

/* Where the next record is written, and how many bytes it may take. In a full log
 * they are 0, and the record is refused: the log keeps what it has. */
static uint8_t *log_end(void)
{
    return event_log + logged;
}

static size_t log_room(void)
{
    return sizeof event_log - logged < W83782D_RECORD_SIZE ? 0 : W83782D_RECORD_SIZE;
}

/* With the answer of a call that writes a record. */
static void record_answered(uint8_t answer)
{
    if (answer == W83782D_ACCEPTED)
        logged += W83782D_RECORD_SIZE;
}

/* After every event. The chip has one OVT pin for sensors 2 and 3. A refusal says
 * nothing of the outputs, and the pins stay. */
static bool drive_pins(void)
{
    uint32_t outputs = w83782d_outputs(image, sizeof image);

    if (W83782D_OUTPUTS_ANSWER(outputs) != W83782D_ACCEPTED)
        return false;
    drive("SMI", &smi_pin, W83782D_OUTPUTS_SMI(outputs));
    drive("OVT", &ovt_pin, W83782D_OUTPUTS_OVT_2(outputs) || W83782D_OUTPUTS_OVT_3(outputs));
    return true;
}

/* A monitor at power-on with its settings and fan alarms. An alarm leaves the
 * divisors of the other fans, which share registers with its own. */
static bool commission(void)
{
    size_t n;
    uint8_t fan;

    if (w83782d_power_on(image, sizeof image) != W83782D_ACCEPTED)
        return false;
    for (n = 0; n < COUNT_OF(settings); n++) {
        if (w83782d_write(image, sizeof image, settings[n].index, settings[n].value) !=
            W83782D_ACCEPTED)
            return false;
    }
    for (fan = 1; fan <= FANS; fan++) {
        if (w83782d_set_plan(image, sizeof image, fan, alarms[fan - 1]) != W83782D_ACCEPTED)
            return false;
        printf("fan %d: alarm at %lu rpm\n", fan, (unsigned long)alarms[fan - 1]);
    }
    return true;
}

/* A controller that restarts goes on where it was; one that has nothing kept is
 * the chip at power-on, and is given its settings. */
static bool start(void)
{
    bus_index = 0;
    index_is_next = false;
    if (is_kept) {
        printf("start: image restored\n");
        memcpy(image, kept, sizeof image);
    } else {
        printf("start: nothing kept, power-on\n");
        if (!commission())
            return false;
    }
    /* The pins don't outlast a restart: an alarm that is on is shown at once. */
    return drive_pins();
}

/* ---- The bus: what the I2C peripheral's interrupts call ---- */

static void bus_addressed_for_write(void)
{
    index_is_next = true;
}

/* Every byte is acknowledged: a refusal is about a register, and the bus is in
 * order. */
static void bus_received(uint8_t byte)
{
    uint8_t answer;

    if (index_is_next) {
        bus_index = byte;
        index_is_next = false;
        return;
    }
    answer = w83782d_write(image, sizeof image, bus_index, byte);
    if (answer == W83782D_ACCEPTED)
        record_answered(w83782d_record_write(bus_index, byte, log_end(), log_room()));
    else
        note("write to", bus_index, answer);
}

/* The byte to send. A master that reads is owed one: of a refused read it is 0. */
static uint8_t bus_requested(void)
{
    uint16_t word = w83782d_read(image, sizeof image, bus_index);
    uint8_t answer = W83782D_READ_ANSWER(word);

    if (answer == W83782D_ACCEPTED)
        record_answered(w83782d_record_read(bus_index, log_end(), log_room()));
    else
        note("read of", bus_index, answer);
    return W83782D_READ_BYTE(word);
}

/* One bus access as the peripheral's interrupts tell it. */
static void serve(const struct access *access)
{
    bus_addressed_for_write();
    if (access->write) {
        printf("bus: %02Xh to %02Xh\n", access->value, access->index);
        bus_received(access->index);
        bus_received(access->value);
    } else {
        bus_received(access->index);
        printf("bus: %02Xh gives %02Xh\n", access->index, bus_requested());
    }
}

/* ---- Events of the cabinet ---- */

static bool chassis_opened(void)
{
    if (w83782d_chassis_opened(image, sizeof image) != W83782D_ACCEPTED)
        return false;
    record_answered(w83782d_record_chassis(log_end(), log_room()));
    return true;
}

/* Once a second. While the bus master has stopped monitoring a sample is refused,
 * which is no fault. */
static bool sample(void)
{
    const int8_t t1 = 35;
    const int16_t t2 = sensor_2_half_degrees[moment], t3 = 83;
    const uint32_t u1 = count_of_fan(1), u2 = count_of_fan(2), u3 = count_of_fan(3);
    uint8_t answer = w83782d_sample(image, sizeof image, voltages, sizeof voltages, t1, t2, t3,
                                    u1, u2, u3);

    if (answer == W83782D_ACCEPTED)
        record_answered(w83782d_record_sample(voltages, sizeof voltages, t1, t2, t3, u1, u2, u3,
                                              log_end(), log_room()));
    return answer == W83782D_ACCEPTED || answer == W83782D_NOT_MONITORING;
}

/* Readings for people, from what the last sample stored. */
static bool show(int second)
{
    uint16_t plus_12 = w83782d_read(image, sizeof image, PLUS_12_CODE);
    uint32_t sensor_2 = w83782d_temperature(image, sizeof image, 2);
    uint32_t fan_1 = w83782d_speed(image, sizeof image, 1);
    uint32_t outputs = w83782d_outputs(image, sizeof image);

    /* What a refusal returns beside its answer is 0, and 0 is a reading too. */
    if (W83782D_READ_ANSWER(plus_12) != W83782D_ACCEPTED ||
        w83782d_millivolts_answer(PLUS_12, 0, 0) != W83782D_ACCEPTED ||
        W83782D_TEMPERATURE_ANSWER(sensor_2) != W83782D_ACCEPTED ||
        W83782D_SPEED_ANSWER(fan_1) != W83782D_ACCEPTED ||
        W83782D_OUTPUTS_ANSWER(outputs) != W83782D_ACCEPTED)
        return false;
    printf("%d s: +12 at %ld mV, ", second,
           (long)w83782d_millivolts(PLUS_12, W83782D_READ_BYTE(plus_12), 0, 0));
    printf("sensor 2 at %.1f, fan 1 ", W83782D_HALF_DEGREES(sensor_2) / 2.0);
    switch (W83782D_SPEED_KIND(fan_1)) {
    case W83782D_NUMBER:
        printf("at %.1f rpm", W83782D_SPEED_TENTHS(fan_1) / 10.0);
        break;
    case W83782D_TOO_FAST:
        printf("too fast");
        break;
    default:
        printf("too slow");
    }
    printf(", alarms %d\n", W83782D_OUTPUTS_ALARMS(outputs));
    return true;
}

/* These seconds of the main loop. */
static bool run(int first, int last)
{
    int second, n;

    for (second = first; second <= last; second++) {
        moment = second - 1;
        for (n = 0; n < traffic[moment].count; n++) {
            serve(&traffic[moment].accesses[n]);
            if (!drive_pins())
                return false;
        }
        if (chassis_switch() && (!chassis_opened() || !drive_pins()))
            return false;
        if (!sample() || !drive_pins() || !show(second))
            return false;
        keep_image(image);
    }
    return true;
}

int main(void)
{
    uint8_t again[W83782D_IMAGE_SIZE];
    uint64_t replay;

    if (!start())
        return 1;
    memcpy(again, image, sizeof again);
    if (!run(1, 3))
        return 1;

    /* The controller restarts while the cabinet runs on; its pins are released. */
    smi_pin = ovt_pin = false;
    if (!start() || !run(4, SECONDS))
        return 1;

    /* What the log is for: from the same image it gives the same monitor again. */
    replay = w83782d_replay(again, sizeof again, event_log, logged);
    if (W83782D_REPLAY_ANSWER(replay) != W83782D_ACCEPTED)
        return 1; /* W83782D_REPLAY_ACCEPTED names the record, counted from 0. */
    printf("log: %lu records, %s\n", (unsigned long)W83782D_REPLAY_ACCEPTED(replay),
           memcmp(again, image, sizeof again) == 0 ? "same image" : "ANOTHER image");
    return 0;
}
