/*
 * Hardware monitor W83782D: the C interface of the proved library.
 *
 * The host keeps a monitor as an image of W83782D_IMAGE_SIZE bytes that it
 * never looks into. Any bytes are some state of a monitor, so an image may be
 * saved and put back; w83782d_power_on makes a fresh one. Nothing is kept
 * between calls but the images, so two threads may work on two images at once.
 *
 * Every call ends, whatever its arguments, and what can be refused answers one
 * of the numbers below. A refused call leaves every byte that it was lent, and
 * what it returns beside the answer is 0. Only w83782d_replay, which is many
 * calls in one, keeps what it did before a refusal. Three things are the caller's
 * part: a pointer is not null and leads to as many bytes as the length after it
 * says; the buffers of one call don't overlap; and a number fits the type of its
 * parameter. C narrows one that doesn't, silently, so that fan 257 is fan 1 and is
 * answered 0 (gcc warns with -Wconversion).
 *
 * The comment of each call lists its answers, in brackets what is wrong, as in 8 (n),
 * where n is not the length that the call needs. Where several apply, 8 comes first,
 * and the others as the comment has them: 1 before 2, 5 before 3 before 4, 7 before 6.
 * docs/EMBEDDING.md says how firmware uses the calls.
 *
 * To link: libw83782d_c.a, which `rt lib --cpu x86-64` in crates/w83782d_c writes to
 * its folder out/, and nothing else. It calls no function outside itself, not even of
 * the C library, keeps no data of its own and allocates nothing:
 *
 *     gcc -Iinclude firmware.c crates/w83782d_c/out/libw83782d_c.a
 *
 * It is position-independent code for every x86-64 (System V calling convention)
 * without unwind tables; `rt lib` alone makes it for x86-64-v2.
 */
#ifndef W83782D_H
#define W83782D_H

#include <stddef.h>
#include <stdint.h>

/* Bytes of a monitor's image, of an event record, and of a sample's codes. */
#define W83782D_IMAGE_SIZE 128
#define W83782D_RECORD_SIZE 32
#define W83782D_VOLTAGES 7

/* ---- Answer numbers ---- */

/* Accepted. */
#define W83782D_ACCEPTED 0
/* Index below 20h or above 7Fh, reserved index, or absent bank. */
#define W83782D_NO_REGISTER 1
/* Write to a read-only register. */
#define W83782D_READ_ONLY 2
/* Sample with sensor 2 or 3 outside -256 to 255 half degrees. */
#define W83782D_BAD_TEMPERATURE 3
/* Sample while 40h bit 0 is 0 or bit 3 is 1. */
#define W83782D_NOT_MONITORING 4
/* Record not of 32 bytes, of unknown kind or with a byte not zero that should
 * be; or that record is not whole in the log. */
#define W83782D_BAD_RECORD 5
/* Planned speed 0 or above 1,350,000 rpm. */
#define W83782D_BAD_SPEED 6
/* Fan or temperature sensor not 1 to 3, voltage channel not 0 to 6, or, for
 * channels 5 and 6 only, a resistor not 1 to 1,000 kilo-ohm. */
#define W83782D_NO_CHANNEL 7
/* Image, codes or output buffer of another length than the call needs. It comes
 * before every other refusal. A record of another length is W83782D_BAD_RECORD. */
#define W83782D_BAD_LENGTH 8
/* A whole record after the 100,000 of a day's report. No call here answers it: it is
 * in the last line of the report of a log, which the program day_report prints. */
#define W83782D_DAY_FULL 12

/* ---- Parts of a returned word ---- */

/* Of w83782d_read and w83782d_look: answer * 256 + byte. */
#define W83782D_READ_ANSWER(word) ((uint8_t)((word) >> 8))
#define W83782D_READ_BYTE(word) ((uint8_t)((word) & 0xFF))

/* Of w83782d_event: answer * 256 + byte. */
#define W83782D_EVENT_ANSWER(word) ((uint8_t)((word) >> 8))
#define W83782D_EVENT_BYTE(word) ((uint8_t)((word) & 0xFF))

/* Of w83782d_replay: answer * 2^60 + records accepted. */
#define W83782D_REPLAY_ANSWER(word) ((uint8_t)((word) >> 60))
#define W83782D_REPLAY_ACCEPTED(word) ((uint64_t)((word) & 0x0FFFFFFFFFFFFFFF))

/* Of w83782d_outputs: answer * 65536 + standing alarms * 256 + the three outputs,
 * each 1 while it is asserted. */
#define W83782D_OUTPUTS_ANSWER(word) ((uint8_t)((word) >> 16))
#define W83782D_OUTPUTS_ALARMS(word) ((uint8_t)(((word) >> 8) & 0xFF))
#define W83782D_OUTPUTS_SMI(word) ((uint8_t)((word) & 1))
#define W83782D_OUTPUTS_OVT_2(word) ((uint8_t)(((word) >> 1) & 1))
#define W83782D_OUTPUTS_OVT_3(word) ((uint8_t)(((word) >> 2) & 1))

/* Of w83782d_speed: the kind in the top byte, the tenths of rpm of a number below
 * it. Any other kind is a refusal, 80h + answer; the answer is 0 where there is
 * none. */
#define W83782D_SPEED_KIND(word) ((uint8_t)((word) >> 24))
#define W83782D_SPEED_ANSWER(word) ((uint8_t)((word) >> 31 ? ((word) >> 24) & 0x7F : 0))
#define W83782D_SPEED_TENTHS(word) ((uint32_t)((word) & 0xFFFFFF))
#define W83782D_NUMBER 0
#define W83782D_TOO_FAST 1
#define W83782D_TOO_SLOW 2

/* Of w83782d_temperature: answer * 65536 + half degrees in two's complement. */
#define W83782D_TEMPERATURE_ANSWER(word) ((uint8_t)((word) >> 16))
#define W83782D_HALF_DEGREES(word) ((int16_t)((int)((word) & 0x7FFF) - (int)((word) & 0x8000)))

/* Of w83782d_plan: answer * 65536 + divisor * 256 + limit. */
#define W83782D_PLAN_ANSWER(word) ((uint8_t)((word) >> 16))
#define W83782D_PLAN_DIVISOR(word) ((uint8_t)(((word) >> 8) & 0xFF))
#define W83782D_PLAN_LIMIT(word) ((uint8_t)((word) & 0xFF))

/* Of w83782d_record_at: no such record, answer W83782D_BAD_RECORD. */
#define W83782D_NO_RECORD UINT64_MAX

/*
 * Before every function: its answer or value must not be ignored. A compiler that
 * knows how warns of a call that ignores it (gcc even where it is cast to void).
 */
#if defined(__GNUC__)
#define W83782D_MUST_USE __attribute__((warn_unused_result))
#elif defined(__cplusplus) && __cplusplus >= 201703L
#define W83782D_MUST_USE [[nodiscard]]
#elif defined(__STDC_VERSION__) && __STDC_VERSION__ >= 202311L
#define W83782D_MUST_USE [[nodiscard]]
#else
#define W83782D_MUST_USE
#endif

#ifdef __cplusplus
extern "C" {
#endif

/* ---- Events ---- */

/*
 * Power-on: every byte of the image is given its power-on value, whatever it
 * was. This ends every plan and clears the chassis latch. Answers 0, or 8 if n is
 * not W83782D_IMAGE_SIZE; the image is then left as it was.
 */
W83782D_MUST_USE
uint8_t w83782d_power_on(uint8_t *image, size_t n);

/*
 * Bus write of a value to an index. Answers 0, 1 (no register), 2 (read-only)
 * or 8 (n); a refusal leaves every byte of the image.
 */
W83782D_MUST_USE
uint8_t w83782d_write(uint8_t *image, size_t n, uint8_t index, uint8_t value);

/*
 * Bus read of an index, with its effects: 41h and 42h are cleared, and 50h of
 * bank 1 or 2 releases OVT in interrupt mode. Returns answer * 256 + byte; the
 * answer is 0, 1 (no register) or 8 (n). A refusal gives byte 0 and leaves every
 * byte of the image.
 */
W83782D_MUST_USE
uint16_t w83782d_read(uint8_t *image, size_t n, uint8_t index);

/*
 * The chassis was opened: the latch is set, in standby too. Answers 0, or 8 (n);
 * a refusal leaves every byte of the image.
 */
W83782D_MUST_USE
uint8_t w83782d_chassis_opened(uint8_t *image, size_t n);

/*
 * Sample: codes of the seven voltages (VCOREA, VINR0, +3.3, +5, +12, -12, -5),
 * sensor 1 in whole degrees, sensors 2 and 3 in half degrees, the undivided counts
 * of fans 1 to 3: 1,350,000 / rpm rounded down, UINT32_MAX for a fan that doesn't
 * turn. Stores them, sets the real-time bits, latches status and moves OVT. A fan's
 * status bit is latched when the fan gets slow and when it is no longer slow: after
 * a read of 41h or 42h a fan that stays slow doesn't assert SMI again, and one that
 * recovers does. Whether it was slow at the last accepted sample is its real-time
 * bit (bank 4, bits 6 and 7 of 59h, bit 3 of 5Ah), 0 after power-on and a reset.
 * Sensor 1 is -128 to 127: the caller holds a measurement beyond that at the nearer
 * end, since no answer can tell of it (130 as int8_t is -126, an alarm lost).
 * Answers 0, 8 (n, or v is not W83782D_VOLTAGES), 3 (t2 or t3 outside -256 to 255)
 * or 4 (monitoring is stopped); a refusal leaves every byte of the image.
 */
W83782D_MUST_USE
uint8_t w83782d_sample(uint8_t *image, size_t n, const uint8_t *volts, size_t v, int8_t t1,
                       int16_t t2, int16_t t3, uint32_t u1, uint32_t u2, uint32_t u3);

/*
 * Sets the plan of a fan alarm at a speed in whole rpm (not the tenths that
 * w83782d_speed reads), as w83782d_plan gives it, on fan 1 to 3: writes that fan's
 * count limit and its three divisor bits, and nothing else, whatever bank is
 * selected and whether or not monitoring is stopped. Stored counts and real-time
 * bits wait for the next sample, which may then latch the fan's status bit, either
 * way. From then on an accepted sample sets the fan's real-time bit exactly when its
 * undivided count is (limit + 1) * divisor or more, until the first of these: a reset
 * by 40h bit 7, an accepted write that gives a bit of that fan's limit or divisor
 * another value (either may come in a record too), the next accepted plan on that
 * fan, w83782d_power_on. Answers 0, 8 (n), 7 (fan) or 6 (speed); a refusal leaves
 * every byte of the image and the plan that was in force.
 */
W83782D_MUST_USE
uint8_t w83782d_set_plan(uint8_t *image, size_t n, uint8_t fan, uint32_t rpm);

/*
 * The event of a record, with what the call of that event does. Returns
 * answer * 256 + byte, the byte of an accepted bus read, else 0. The answer is 0,
 * 8 (n), what w83782d_decode answers (5, also for m, or 3) or what the event is
 * refused with (1, 2 or 4); a refusal leaves every byte of the image.
 */
W83782D_MUST_USE
uint16_t w83782d_event(uint8_t *image, size_t n, const uint8_t *record, size_t m);

/*
 * The events of a log, record by record, up to the first that is refused. Returns
 * answer * 2^60 + records accepted; the answer is 0 at the end of the log, 5 at a
 * part of a record there, that of w83782d_event to the record that ended it, or
 * 8 (n). The image is as the accepted records leave it, whatever the answer: where
 * none was accepted, and for 8, every byte is left. A log of 0 bytes is answered 0.
 */
W83782D_MUST_USE
uint64_t w83782d_replay(uint8_t *image, size_t n, const uint8_t *log, size_t m);

/* ---- Looks, outputs and readings of a monitor ---- */

/*
 * A look at an index: what w83782d_read would return, without its effects, so that a
 * diagnostics screen clears no alarm by showing it. Returns answer * 256 + byte; the
 * answer is 0, 1 (no register) or 8 (n), and a refusal gives byte 0. The bank is the
 * one that 4Eh selects; w83782d_outputs, _speed and _temperature need no bank.
 *
 * Where a peripheral must have a byte ahead, send what the look gave and make the read
 * when it has gone out. Between the two no other call on that image may come, or an
 * alarm latched meanwhile is cleared unseen. docs/EMBEDDING.md, "The bus", has the
 * rest: what to do where that can't be held off, and sensors 2 and 3 at addresses of
 * their own.
 */
W83782D_MUST_USE
uint16_t w83782d_look(const uint8_t *image, size_t n, uint8_t index);

/*
 * Standing alarms, which are the bits of 41h and 42h that a read shows as 1, masked
 * or not (0 to 14), and the outputs SMI and OVT of sensors 2 and 3. Returns
 * answer * 65536 + standing alarms * 256 + bit 0 SMI, bit 1 OVT of sensor 2, bit 2
 * OVT of sensor 3; the answer is 0 or 8 (n). A refusal gives 0 alarms and no output
 * asserted: check the answer first.
 */
W83782D_MUST_USE
uint32_t w83782d_outputs(const uint8_t *image, size_t n);

/*
 * The speed of fan 1 to 3, from its stored count and the divisor now set. The top
 * byte is W83782D_NUMBER, with tenths of rpm in the low 24 bits, 415 to 13,500,000;
 * W83782D_TOO_FAST (count 0); W83782D_TOO_SLOW (count 255); or 80h + answer, 8 (n)
 * or 7 (fan). Plans are in whole rpm.
 */
W83782D_MUST_USE
uint32_t w83782d_speed(const uint8_t *image, size_t n, uint8_t fan);

/*
 * The stored temperature of sensor 1 to 3 in half degrees; sensor 1 has whole
 * degrees. Returns answer * 65536 + half degrees as 16 bits in two's complement;
 * the answer is 0, 8 (n) or 7 (sensor).
 */
W83782D_MUST_USE
uint32_t w83782d_temperature(const uint8_t *image, size_t n, uint8_t sensor);

/* ---- Plans and readings that need no monitor ---- */

/*
 * The plan of a fan alarm at a speed in whole rpm, which rings at that speed and at
 * every slower one: the divisor (1, 2, .. 128) and the count limit (0 to 254) to
 * set. Returns answer * 65536 + divisor * 256 + limit; the answer is 0 or 6 (speed).
 * A refusal gives divisor 0 and limit 0.
 */
W83782D_MUST_USE
uint32_t w83782d_plan(uint32_t rpm);

/*
 * The answer to reading a voltage channel (0 to 6: VCOREA, VINR0, +3.3, +5, +12,
 * -12, -5) with resistors R5 and R6 in kilo-ohm, which count for channels 5 and
 * 6 only: 0 or 7. Ask before w83782d_millivolts, since 0 is a reading too.
 */
W83782D_MUST_USE
uint8_t w83782d_millivolts_answer(uint8_t channel, uint32_t r5, uint32_t r6);

/*
 * The millivolts of a code on a voltage channel, nearest, halves away from zero;
 * 0 where w83782d_millivolts_answer is 7.
 */
W83782D_MUST_USE
int32_t w83782d_millivolts(uint8_t channel, uint8_t code, uint32_t r5, uint32_t r6);

/*
 * How many of 256 parts a PWM duty byte is on: the byte, and 256 for FFh. Never
 * refused.
 */
W83782D_MUST_USE
uint16_t w83782d_pwm_parts(uint8_t x);

/* ---- Event records ---- */

/*
 * Whether a record holds an event: answers 0, 5 (m, kind or a byte that should be
 * zero) or 3 (a well-formed sample with a bad temperature). Never 4: whether a
 * monitor would take the event isn't asked.
 */
W83782D_MUST_USE
uint8_t w83782d_decode(const uint8_t *record, size_t m);

/*
 * Where record k of a log, counted from 0, starts: 32 k, if the log has all of its
 * 32 bytes, or W83782D_NO_RECORD, which is answer 5.
 */
W83782D_MUST_USE
uint64_t w83782d_record_at(const uint8_t *log, size_t m, uint64_t k);

/*
 * Writes the record of a bus write to out. Answers 0, or 8 if m is not
 * W83782D_RECORD_SIZE; a refusal leaves every byte of out.
 */
W83782D_MUST_USE
uint8_t w83782d_record_write(uint8_t index, uint8_t value, uint8_t *out, size_t m);

/*
 * Writes the record of a bus read to out. Answers 0 or 8 (m); a refusal leaves
 * every byte of out.
 */
W83782D_MUST_USE
uint8_t w83782d_record_read(uint8_t index, uint8_t *out, size_t m);

/*
 * Writes the record of an opened chassis to out. Answers 0 or 8 (m); a refusal
 * leaves every byte of out.
 */
W83782D_MUST_USE
uint8_t w83782d_record_chassis(uint8_t *out, size_t m);

/*
 * Writes the record of a sample to out, with the numbers that w83782d_sample takes,
 * sensor 1 as there. Answers 0, 8 (v is not W83782D_VOLTAGES, or m) or 3 (t2 or t3
 * outside -256 to 255); a refusal leaves every byte of out.
 */
W83782D_MUST_USE
uint8_t w83782d_record_sample(const uint8_t *volts, size_t v, int8_t t1, int16_t t2, int16_t t3,
                              uint32_t u1, uint32_t u2, uint32_t u3, uint8_t *out, size_t m);

#ifdef __cplusplus
}
#endif

#endif
