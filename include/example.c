/* A slot through the four calls: a chip of 256 bytes on a 24-pin board is laid out, its table is built and read back. */
#include "onerom.h"

#include <inttypes.h>
#include <stdio.h>
#include <string.h>

enum { LINES = 8, BYTES = 1 << LINES };

/* Where the candidates of a socket pin stand. */
static uint8_t *socket_pin(uint8_t *description, int pin)
{
    return description + ONEROM_DESCRIPTION_SOCKET + 2 * (pin - 1);
}

/* Socket pins 1 to 8 are the address lines, on GPIOs 0 to 7; 9 to 16 the data lines, on 16 to 23; 20 is cs1, on 8. */
static void describe(uint8_t d[ONEROM_DESCRIPTION_RECORD_SIZE])
{
    uint8_t *chip = d + ONEROM_DESCRIPTION_CHIPS;
    int k;

    memset(d, 0, ONEROM_DESCRIPTION_RECORD_SIZE);
    d[ONEROM_DESCRIPTION_BOARD_PINS] = 24;
    d[ONEROM_DESCRIPTION_PACKAGE] = ONEROM_PACKAGE_B;
    d[ONEROM_DESCRIPTION_SET_TYPE] = ONEROM_SET_SINGLE;
    d[ONEROM_DESCRIPTION_WORD_BYTES] = 1;
    d[ONEROM_DESCRIPTION_CHIP_COUNT] = 1;
    d[ONEROM_DESCRIPTION_LARGEST_TABLE + 1] = 1;   /* 256 bytes, low byte first */
    d[ONEROM_DESCRIPTION_FORM] = ONEROM_FORM_CHIP_SELECTS;
    memset(d + ONEROM_DESCRIPTION_CE_SETTING, ONEROM_NOT_GIVEN, 6);
    d[ONEROM_DESCRIPTION_CS1_SETTING] = ONEROM_ACTIVE_LOW;
    memset(d + ONEROM_DESCRIPTION_SOCKET, ONEROM_GPIO_NONE, 2 * 42);
    chip[ONEROM_CHIP_BYTES + 1] = 1;               /* 256 bytes */
    chip[ONEROM_CHIP_ADDRESS_COUNT] = LINES;
    chip[ONEROM_CHIP_DATA_COUNT] = 8;
    chip[ONEROM_CHIP_CONTROL_COUNT] = 1;
    for (k = 0; k < LINES; k++) {
        chip[ONEROM_CHIP_ADDRESS + k] = (uint8_t)(1 + k);
        chip[ONEROM_CHIP_DATA + k] = (uint8_t)(9 + k);
        *socket_pin(d, 1 + k) = (uint8_t)k;
        *socket_pin(d, 9 + k) = (uint8_t)(16 + k);
    }
    chip[ONEROM_CHIP_CONTROL] = ONEROM_KIND_CS1;
    chip[ONEROM_CHIP_CONTROL + 1] = 20;
    *socket_pin(d, 20) = 8;
}

static int refused(const char *call, uint64_t result)
{
    if (result == 0)
        return 0;
    printf("%s refused: %u %s, place %" PRIu64 "\n", call, onerom_number(result),
           onerom_refusal_name(onerom_number(result)), onerom_place(result));
    return 1;
}

int main(void)
{
    static uint8_t description[ONEROM_DESCRIPTION_RECORD_SIZE], layout[ONEROM_ADDR_LAYOUT_RECORD_SIZE];
    static uint8_t spans[ONEROM_IMAGE_SPANS_RECORD_SIZE];
    static uint8_t rom[BYTES], table[BYTES], output[BYTES], marks[BYTES];
    int k;

    describe(description);
    if (refused("address search", onerom_derive_addr_layout(description, sizeof description, layout, sizeof layout)))
        return 1;
    printf("address lines on %u GPIOs from GPIO %u\n", layout[ONEROM_ADDR_LAYOUT_PINS], layout[ONEROM_ADDR_LAYOUT_BASE]);

    for (k = 0; k < BYTES; k++)
        rom[k] = (uint8_t)(37 * k);
    spans[ONEROM_IMAGE_SPAN_GIVEN] = 1;            /* chip 0 has bytes, from 0 on */
    spans[ONEROM_IMAGE_SPAN_LENGTH + 1] = 1;       /* 256 of them */
    if (refused("round trip", onerom_round_trip(description, sizeof description, spans, sizeof spans, rom, sizeof rom,
                                                ONEROM_ORDER_LOW_FIRST, table, sizeof table, output, sizeof output,
                                                marks, sizeof marks)))
        return 1;
    printf("%s\n", memcmp(output, rom, sizeof rom) == 0 ? "reads back" : "does not read back");
    return 0;
}
