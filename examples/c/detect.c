/*
 * Detects a W83782D as a driver on the bus would: both vendor bytes, chip,
 * device, bus address. Then three calls that are refused.
 *
 *     (cd crates/w83782d_c && rt lib --cpu x86-64)
 *     gcc -std=c11 -Iinclude examples/c/detect.c crates/w83782d_c/out/libw83782d_c.a -o detect
 *
 * The archive needs no other library; stdio is for this program's own lines.
 */
#include <stdbool.h>
#include <stdint.h>
#include <stdio.h>

#include "w83782d.h"

/* Registers, by the data sheet's names. */
enum {
    BUS_ADDRESS = 0x48,
    DEVICE_ID = 0x49,
    BANK_SELECT = 0x4E,
    VENDOR_ID = 0x4F,
    CHIP_ID = 0x58
};

/* 4Eh: bit 7 selects the vendor ID's high byte, bits 2-0 the bank. */
enum { HIGH_BYTE_BANK_0 = 0x80, LOW_BYTE_BANK_0 = 0x00 };

enum { WINBOND = 0x5CA3, W83782D = 0x30 };

static bool read_register(uint8_t *image, uint8_t index, uint8_t *byte)
{
    uint16_t word = w83782d_read(image, W83782D_IMAGE_SIZE, index);
    uint8_t answer = W83782D_READ_ANSWER(word);

    if (answer != W83782D_ACCEPTED) {
        printf("read of %02Xh: refused, answer %d\n", index, answer);
        return false;
    }
    *byte = W83782D_READ_BYTE(word);
    return true;
}

static bool write_register(uint8_t *image, uint8_t index, uint8_t value)
{
    uint8_t answer = w83782d_write(image, W83782D_IMAGE_SIZE, index, value);

    if (answer != W83782D_ACCEPTED) {
        printf("write to %02Xh: refused, answer %d\n", index, answer);
        return false;
    }
    return true;
}

/* The vendor ID is 16 bits behind one index. Leaves bank 0 selected. */
static bool read_vendor(uint8_t *image, unsigned *vendor)
{
    uint8_t high, low;

    if (!write_register(image, BANK_SELECT, HIGH_BYTE_BANK_0))
        return false;
    if (!read_register(image, VENDOR_ID, &high))
        return false;
    if (!write_register(image, BANK_SELECT, LOW_BYTE_BANK_0))
        return false;
    if (!read_register(image, VENDOR_ID, &low))
        return false;
    *vendor = high * 256u + low;
    return true;
}

static bool detect(uint8_t *image)
{
    unsigned vendor;
    uint8_t chip, device, address;

    if (!read_vendor(image, &vendor))
        return false;
    printf("vendor %04Xh\n", vendor);
    if (!read_register(image, CHIP_ID, &chip))
        return false;
    printf("chip %02Xh\n", chip);
    if (vendor != WINBOND || chip != W83782D)
        return false;
    if (!read_register(image, DEVICE_ID, &device) || !read_register(image, BUS_ADDRESS, &address))
        return false;
    printf("device %02Xh\n", device);
    printf("W83782D at bus address %02Xh\n", address);
    return true;
}

int main(void)
{
    uint8_t image[W83782D_IMAGE_SIZE];
    uint8_t byte;
    uint8_t answer = w83782d_power_on(image, sizeof image);

    if (answer != W83782D_ACCEPTED) {
        printf("power-on: refused, answer %d\n", answer);
        return 1;
    }
    if (!detect(image)) {
        printf("no W83782D\n");
        return 1;
    }

    /* A refusal is an answer like any other, and changes nothing: a reserved
     * index, a read-only register, an image of the wrong length. None may be
     * accepted. */
    if (read_register(image, 0x45, &byte) || write_register(image, CHIP_ID, 0xFF))
        return 1;
    answer = w83782d_chassis_opened(image, sizeof image - 1);
    if (answer == W83782D_ACCEPTED)
        return 1;
    printf("image of %d bytes: refused, answer %d\n", (int)sizeof image - 1, answer);
    return 0;
}
