/*
 * The calls of Tartankerb for C; docs/TERMS.md says what the words mean. Rendered from docs/INTERFACE.md: edit
 * that page, and see wrapper/README.md.
 *
 * A byte slice is a pointer and a length. The pointer is good for that many bytes; where the length is 0 it is
 * any but null. A slice that is lent for writing overlaps no other slice of its call; those that are only read
 * may share bytes. No alignment is asked, nothing is kept after the call, and calls on different buffers may run
 * side by side. A parameter that is a value is one number of 64 bits.
 *
 * Three calls take order, the byte order of the dumps: which of the two bytes that a word of two bytes has in a
 * chip's dump is its high one. Word n of a chip is made of the chip's bytes 2n and 2n + 1. Low byte first, byte
 * 2n is the low one and 2n + 1 the high one; high byte first, 2n is the high one. The order is one for all chips
 * of a call. A build goes by it where it takes a word out of images, a read-back where it puts one into output.
 * The entries of a table are low byte first under either order, and the pad has two equal bytes. Words of one
 * byte are the same under both, and so are a plugin's bytes, refusals 23 and 24 and their places. Where words
 * have two bytes, the last byte of a chip whose size is odd is in no word under either. A table does not say
 * which order it was built with: the one who reads it back names it again. Any other number than 0 and 1 is
 * refusal 1 before all else, also for words of one byte and for a plugin, and whatever the records are.
 */
#ifndef ONEROM_H
#define ONEROM_H

#include <stddef.h>
#include <stdint.h>

#ifdef __cplusplus
extern "C" {
#endif

/* The version of this interface: an older caller is answered as before while it stays. */
#define ONEROM_INTERFACE_VERSION 2

/* A call returns one number of 64 bits: 0 if it succeeded, else the refusal's number times 2^48 plus its place. So
   the number is the result shifted right by 48, and the place its low 48 bits (onerom_number and onerom_place in
   C, Refusal in Rust; onerom_refusal_name gives a number's name in C). A refusal that names no place has place 0.
   Four calls answer in the low 48 bits beside number 0, which is no refusal's: onerom_well_wired has 1 where the
   answer is no, onerom_write_page the length of the page, onerom_write_hex the length of the text,
   onerom_hex_fault_line a line. */
enum {
    /* A record of another length, or a number that no board or chip can have. */
    ONEROM_OUT_OF_DOMAIN = 1,
    /* No line selects the chip, or a line of the Multi set is not on it. */
    ONEROM_NO_SELECT_LINE = 2,
    /* A needed pin has no GPIO. Place: the pin: socket pin in the address search, chip pin in the select search. */
    ONEROM_UNMAPPED_PIN = 3,
    /* A needed X pin has no GPIO. Place: 1 or 2, for X1 or X2. */
    ONEROM_MISSING_X_PIN = 4,
    /* Qualifiers are given without an address layout. */
    ONEROM_MISSING_ADDR_PIN_GPIOS = 5,
    /* Excess address lines need cs1, which is ignored. */
    ONEROM_ROM_TOO_LARGE_NO_CS_CONFIG = 6,
    /* The select GPIOs leave a gap that cannot be served. Place: the set of GPIOs, bit g for GPIO g. */
    ONEROM_NON_CONTIGUOUS_SELECT = 7,
    /* An ignored line lies between the select lines. Place: its GPIO. */
    ONEROM_INTERIOR_IGNORED_LINE = 8,
    /* No choice of GPIOs fits one PIO window. */
    ONEROM_NO_VALID_LAYOUT = 9,
    /* The chip does not go into this socket. */
    ONEROM_INCOMPATIBLE_PIN_COUNT = 10,
    /* The table is larger than the limit. */
    ONEROM_ROM_TABLE_TOO_LARGE = 11,
    /* The set type does not take this number of chips. */
    ONEROM_INVALID_CONFIG = 12,
    /* A line's position is not 0 to 31, or a needed X pin or select line is absent. */
    ONEROM_BAD_POSITION = 13,
    /* A chip has no bytes. Place: the chip, from 0. */
    ONEROM_MISSING_IMAGE_DATA = 14,
    /* A chip has fewer bytes than its size. Place: the chip, from 0. */
    ONEROM_SHORT_IMAGE_DATA = 15,
    /* A lent buffer is too short. */
    ONEROM_SHORT_BUFFER = 16,
    /* The data's length is not the declared size. */
    ONEROM_WRONG_SIZE = 17,
    /* The slot's kind is unknown. */
    ONEROM_UNKNOWN_SLOT_TYPE = 18,
    /* There is no layout, or a ROM has no pin map. */
    ONEROM_MISSING_LAYOUT = 19,
    /* An algorithm or bit mode is unknown. */
    ONEROM_UNKNOWN_ALGORITHM = 20,
    /* The layout contradicts itself. */
    ONEROM_BAD_LAYOUT = 21,
    /* Not exactly one GPIO of an X pin is in the table's window. Place: 1 or 2, for X1 or X2. */
    ONEROM_X_PIN = 22,
    /* Two entries give different values for one word. Place: ROM * 2^32 + address, the address counting words. */
    ONEROM_INCONSISTENT = 23,
    /* No entry gives a word. Place: ROM * 2^32 + address, the address counting words. */
    ONEROM_UNSERVED = 24,
    /* The Multi set has no active line. */
    ONEROM_NO_ACTIVE_LINE = 25,
    /* A line is no record of Intel HEX, or the end record is missing. */
    ONEROM_BAD_RECORD = 26,
    /* A record's bytes do not sum to zero. */
    ONEROM_BAD_CHECKSUM = 27,
    /* A record has a data byte past the chip. */
    ONEROM_PAST_CHIP = 28,
};

/* The refusal's number in a call's result: 0 if the call succeeded. */
static inline unsigned onerom_number(uint64_t result)
{
    return (unsigned)(result >> 48);
}

/* The place in a refused call's result. */
static inline uint64_t onerom_place(uint64_t result)
{
    return result & ((UINT64_C(1) << 48) - 1);
}

/* The name of a refusal by its number; Unknown where no refusal has it. */
static inline const char *onerom_refusal_name(unsigned number)
{
    switch (number) {
    case ONEROM_OUT_OF_DOMAIN:
        return "OutOfDomain";
    case ONEROM_NO_SELECT_LINE:
        return "NoSelectLine";
    case ONEROM_UNMAPPED_PIN:
        return "UnmappedPin";
    case ONEROM_MISSING_X_PIN:
        return "MissingXPin";
    case ONEROM_MISSING_ADDR_PIN_GPIOS:
        return "MissingAddrPinGpios";
    case ONEROM_ROM_TOO_LARGE_NO_CS_CONFIG:
        return "RomTooLargeNoCsConfig";
    case ONEROM_NON_CONTIGUOUS_SELECT:
        return "NonContiguousSelect";
    case ONEROM_INTERIOR_IGNORED_LINE:
        return "InteriorIgnoredLine";
    case ONEROM_NO_VALID_LAYOUT:
        return "NoValidLayout";
    case ONEROM_INCOMPATIBLE_PIN_COUNT:
        return "IncompatiblePinCount";
    case ONEROM_ROM_TABLE_TOO_LARGE:
        return "RomTableTooLarge";
    case ONEROM_INVALID_CONFIG:
        return "InvalidConfig";
    case ONEROM_BAD_POSITION:
        return "BadPosition";
    case ONEROM_MISSING_IMAGE_DATA:
        return "MissingImageData";
    case ONEROM_SHORT_IMAGE_DATA:
        return "ShortImageData";
    case ONEROM_SHORT_BUFFER:
        return "ShortBuffer";
    case ONEROM_WRONG_SIZE:
        return "WrongSize";
    case ONEROM_UNKNOWN_SLOT_TYPE:
        return "UnknownSlotType";
    case ONEROM_MISSING_LAYOUT:
        return "MissingLayout";
    case ONEROM_UNKNOWN_ALGORITHM:
        return "UnknownAlgorithm";
    case ONEROM_BAD_LAYOUT:
        return "BadLayout";
    case ONEROM_X_PIN:
        return "XPin";
    case ONEROM_INCONSISTENT:
        return "Inconsistent";
    case ONEROM_UNSERVED:
        return "Unserved";
    case ONEROM_NO_ACTIVE_LINE:
        return "NoActiveLine";
    case ONEROM_BAD_RECORD:
        return "BadRecord";
    case ONEROM_BAD_CHECKSUM:
        return "BadChecksum";
    case ONEROM_PAST_CHIP:
        return "PastChip";
    default:
        return "Unknown";
    }
}

/* Anywhere. */
enum {
    /* A byte that names no GPIO. */
    ONEROM_GPIO_NONE = 255,
    /* A setting that is not given, or that its form does not use. */
    ONEROM_NOT_GIVEN = 255,
    /* A select layout without an ignore index. */
    ONEROM_NO_IGNORE_INDEX = 255,
};

/* Packages. */
enum {
    /* The RP2350B, GPIOs 0 to 47. */
    ONEROM_PACKAGE_B = 0,
    /* The RP2350A, GPIOs 0 to 29. */
    ONEROM_PACKAGE_A = 1,
};

/* Set types. */
enum {
    /* One chip. */
    ONEROM_SET_SINGLE = 0,
    /* 2 to 4 chips, picked by X1 and X2 as the bits of a bank. */
    ONEROM_SET_BANKED = 1,
    /* 2 or 3 chips, each with a select line of its own. */
    ONEROM_SET_MULTI = 2,
};

/* Forms of the select settings. */
enum {
    /* Settings of cs1 to cs4. */
    ONEROM_FORM_CHIP_SELECTS = 0,
    /* Ce and oe, both active low. */
    ONEROM_FORM_CE_OE = 1,
    /* Settings of ce and oe. */
    ONEROM_FORM_EXPLICIT = 2,
};

/* Settings of a line. */
enum {
    /* Asserted when low. */
    ONEROM_ACTIVE_LOW = 0,
    /* Asserted when high. */
    ONEROM_ACTIVE_HIGH = 1,
    /* No select line. */
    ONEROM_IGNORED = 2,
};

/* Kinds of control lines. */
enum {
    /* Chip enable. */
    ONEROM_KIND_CE = 0,
    /* Output enable. */
    ONEROM_KIND_OE = 1,
    /* Chip select 1. */
    ONEROM_KIND_CS1 = 2,
    /* Chip select 2. */
    ONEROM_KIND_CS2 = 3,
    /* Chip select 3. */
    ONEROM_KIND_CS3 = 4,
    /* Chip select 4. */
    ONEROM_KIND_CS4 = 5,
    /* Any other, never a select. */
    ONEROM_KIND_OTHER = 6,
};

/* Roles of select lines. */
enum {
    /* Chip enable. */
    ONEROM_ROLE_CE = 0,
    /* Output enable. */
    ONEROM_ROLE_OE = 1,
    /* Chip select 1. */
    ONEROM_ROLE_CS1 = 2,
    /* Chip select 2. */
    ONEROM_ROLE_CS2 = 3,
    /* Chip select 3. */
    ONEROM_ROLE_CS3 = 4,
    /* Chip select 4. */
    ONEROM_ROLE_CS4 = 5,
    /* X1, the second chip's select. */
    ONEROM_ROLE_X1 = 6,
    /* X2, the third chip's select. */
    ONEROM_ROLE_X2 = 7,
    /* An excess address line. */
    ONEROM_ROLE_HALF_SELECT = 8,
};

/* Kinds of stored slots. */
enum {
    /* A table of one ROM. */
    ONEROM_SLOT_SINGLE_ROM = 0,
    /* Read as a Single ROM. */
    ONEROM_SLOT_SINGLE_RAM = 1,
    /* A table of 2 to 4 ROMs. */
    ONEROM_SLOT_BANKED = 2,
    /* A table of 2 or 3 ROMs. */
    ONEROM_SLOT_MULTI = 3,
    /* Bytes that are copied as they are. */
    ONEROM_SLOT_SYSTEM_PLUGIN = 4,
    /* Bytes that are copied as they are. */
    ONEROM_SLOT_USER_PLUGIN = 5,
    /* Bytes that are copied as they are. */
    ONEROM_SLOT_PIO_PLUGIN = 6,
};

/* Bit modes. */
enum {
    /* Words of one byte. */
    ONEROM_BIT_MODE_8 = 0,
    /* Words of two bytes. */
    ONEROM_BIT_MODE_16 = 1,
};

/* Byte orders. */
enum {
    /* A word's low byte comes first in a dump. */
    ONEROM_ORDER_LOW_FIRST = 0,
    /* A word's high byte comes first in a dump. */
    ONEROM_ORDER_HIGH_FIRST = 1,
};

/* Kinds of overrides. */
enum {
    /* The GPIO as it is. */
    ONEROM_OVERRIDE_NORMAL = 0,
    /* Inverted; counts for nothing in a read-back. */
    ONEROM_OVERRIDE_INVERT = 1,
    /* Forced low. */
    ONEROM_OVERRIDE_LOW = 2,
    /* Forced high, which beats low. */
    ONEROM_OVERRIDE_HIGH = 3,
};

/* The description record, place by place. A board's socket, the chips of one slot on it, and which GPIOs can serve
   each pin. Another length is refusal 1, and so is a byte that is none of the values named here, in every call
   that takes the record; but onerom_well_wired looks at the length, the package, set type, offset, form and
   settings, the flag of the Multi configuration, the places kept, and that no second candidate is without a
   first, and takes other numbers as they stand. Two rules depend on the call. Qualifiers are held against the
   lines of an address layout, so that only a call which has one tests them: a build always, the select search if
   a layout is handed in. More than 8 of them, an index that is not below the layout's lines in use, or GPIOs of
   which two are more than 7 apart are refusal 1 there. The address search does not look at them, and a select
   search without a layout answers 5 to any count but 0. Each search counts the two-candidate pins among the pins
   that it lists, and more than 16 are refusal 1. The address search lists its lines, one off the socket with the
   candidates of the X pin that stands in for it, and the X pins that pick; the select search lists data pins,
   select lines and, in Multi, the X pins that select and the commoned lines. A build lists none. On package A a
   candidate above GPIO 29 is refusal 1, in every call that takes the record: at each of the 40 socket pins, those
   past the board's socket too, at X1 and at X2, first or second, whether a line is on the pin or not. In all else
   package A answers as B. Only candidates are bound: a layout that is handed in may name GPIOs up to 47, and the
   pins of an address layout that is found may reach past 29, since there are 8 at least. A stored slot has no
   package. */
enum {
    /* Bytes of the record. */
    ONEROM_DESCRIPTION_RECORD_SIZE = 424,
    /* Pins of the board's socket. Values: 24, 28, 32 or 40. */
    ONEROM_DESCRIPTION_BOARD_PINS = 0,
    /* Package of the RP2350. Values: 0 B, 1 A. */
    ONEROM_DESCRIPTION_PACKAGE = 1,
    /* Set type. Values: 0 Single, 1 Banked, 2 Multi. */
    ONEROM_DESCRIPTION_SET_TYPE = 2,
    /* Bytes in a word. Values: 1 or 2. */
    ONEROM_DESCRIPTION_WORD_BYTES = 3,
    /* Socket pin less chip pin. Values: 0 to 4, or 252 to 255 for -4 to -1. */
    ONEROM_DESCRIPTION_PIN_OFFSET = 4,
    /* Number of chips. Values: 1 to 4. */
    ONEROM_DESCRIPTION_CHIP_COUNT = 5,
    /* Number of qualifiers. Values: 0 for no list, or 1 to 8 where they are tested. */
    ONEROM_DESCRIPTION_QUALIFIER_COUNT = 6,
    /* Multi configuration present; if not, its places count for nothing. Values: 0 no, 1 yes; in a Multi set yes. */
    ONEROM_DESCRIPTION_MULTI_GIVEN = 7,
    /* 4 bytes: largest table in bytes. Values: 256 to 2^20. */
    ONEROM_DESCRIPTION_LARGEST_TABLE = 8,
    /* 4 bytes: marks of inverted address lines, a bit a line. Values: 0 (kept). */
    ONEROM_DESCRIPTION_INVERTED = 12,
    /* Form of chip 0's select settings. Values: 0 chip selects, 1 ce and oe, 2 explicit ce and oe. */
    ONEROM_DESCRIPTION_FORM = 16,
    /* Setting of ce. Values: form 2: 0 active low, 1 active high, 2 ignored; other forms: 255. */
    ONEROM_DESCRIPTION_CE_SETTING = 17,
    /* Setting of oe. Values: as above. */
    ONEROM_DESCRIPTION_OE_SETTING = 18,
    /* Setting of cs1. Values: form 0: 0, 1, 2 as above; other forms: 255. */
    ONEROM_DESCRIPTION_CS1_SETTING = 19,
    /* 3 bytes: settings of cs2, cs3, cs4. Values: form 0: 0, 1, 2 as above, or 255 for not given; other forms: 255. */
    ONEROM_DESCRIPTION_CS_SETTINGS = 20,
    /* Multi: kind of the select line. Values: 0 to 5. */
    ONEROM_DESCRIPTION_MULTI_SELECT = 23,
    /* Multi: number of commoned lines. Values: 0 to 6. */
    ONEROM_DESCRIPTION_MULTI_COMMONED_COUNT = 24,
    /* Multi: number of ignored lines. Values: 0 to 6. */
    ONEROM_DESCRIPTION_MULTI_IGNORED_COUNT = 25,
    /* 2 bytes: nothing. Values: 0 (kept). */
    ONEROM_DESCRIPTION_SPARE = 26,
    /* 8 bytes: Multi: kinds of the commoned lines. Values: 0 to 5. */
    ONEROM_DESCRIPTION_MULTI_COMMONED = 28,
    /* 8 bytes: Multi: kinds of the ignored lines. Values: 0 to 5. */
    ONEROM_DESCRIPTION_MULTI_IGNORED = 36,
    /* 8 bytes: qualifiers: indices of address lines in use. Values: below the lines in use where they are tested. */
    ONEROM_DESCRIPTION_QUALIFIERS = 44,
    /* 80 bytes: candidates of socket pins 1 to 40, two bytes a pin. Values: 255 255 none; g 255 one; g h two; GPIOs
       0 to 47 that differ, on package A 0 to 29. */
    ONEROM_DESCRIPTION_SOCKET = 52,
    /* 2 bytes: candidates of X1. Values: as above. */
    ONEROM_DESCRIPTION_X1 = 132,
    /* 2 bytes: candidates of X2. Values: as above. */
    ONEROM_DESCRIPTION_X2 = 134,
    /* 288 bytes: chips 0 to 3, 72 bytes a chip. Values: a chip record each. */
    ONEROM_DESCRIPTION_CHIPS = 136,
};

/* The chip record, place by place. A chip of a description, at place 136 + 72 * n for chip n. */
enum {
    /* Bytes of the record. */
    ONEROM_CHIP_RECORD_SIZE = 72,
    /* 4 bytes: size in bytes. Values: 0 to 2^24. */
    ONEROM_CHIP_BYTES = 0,
    /* Number of address pins. Values: 1 to 24, in 16-bit mode 2 to 24. */
    ONEROM_CHIP_ADDRESS_COUNT = 4,
    /* Number of data pins. Values: 1 to 16. */
    ONEROM_CHIP_DATA_COUNT = 5,
    /* Number of control lines. Values: 0 to 8. */
    ONEROM_CHIP_CONTROL_COUNT = 6,
    /* Nothing. Values: 0 (kept). */
    ONEROM_CHIP_SPARE = 7,
    /* 24 bytes: address pins, lowest line first; in 16-bit mode the first is not used. Values: 1 to 40. */
    ONEROM_CHIP_ADDRESS = 8,
    /* 16 bytes: data pins, lowest line first. Values: 1 to 40. */
    ONEROM_CHIP_DATA = 32,
    /* 24 bytes: control lines, three bytes a line: kind, pin, fixed level. Values: kind 0 to 6, each of 0 to 5 at
       most once; pin 1 to 40; level: 0 (kept for the fixed level). */
    ONEROM_CHIP_CONTROL = 48,
};

/* The address layout record, place by place. Which GPIOs the address PIO reads. A line is an address line of chip 0;
   in 16-bit mode the first of them is at address pin 1. A record that is handed in has just this length, and 0 at
   the places kept; anything else is refusal 1. */
enum {
    /* Bytes of the record. */
    ONEROM_ADDR_LAYOUT_RECORD_SIZE = 36,
    /* Lowest GPIO of the window, bit 0 of the table's index. Values: 0 to 47. */
    ONEROM_ADDR_LAYOUT_BASE = 0,
    /* Number of GPIOs that the address PIO reads, the bits of the table's index. Values: 0 to 48. */
    ONEROM_ADDR_LAYOUT_PINS = 1,
    /* GPIO of X1 where it picks a bank or a chip. Values: 0 to 47, or 255 for none. */
    ONEROM_ADDR_LAYOUT_X1 = 2,
    /* GPIO of X2 where it picks a bank or a chip. Values: 0 to 47, or 255 for none. */
    ONEROM_ADDR_LAYOUT_X2 = 3,
    /* Number of lines in use. Values: 0 to 24, with the excess lines. */
    ONEROM_ADDR_LAYOUT_LINE_COUNT = 4,
    /* Number of excess lines. Values: 0 to 24, with the lines in use. */
    ONEROM_ADDR_LAYOUT_EXCESS_COUNT = 5,
    /* 2 bytes: nothing. Values: 0 (kept). */
    ONEROM_ADDR_LAYOUT_SPARE = 6,
    /* 24 bytes: GPIOs of the lines in use, then of the excess lines; 0 past them where the library writes it.
       Values: 0 to 47. */
    ONEROM_ADDR_LAYOUT_LINES = 8,
    /* 4 bytes: marks of inverted address lines, a bit a line. Values: 0 (kept). */
    ONEROM_ADDR_LAYOUT_INVERTED = 32,
};

/* The select layout record, place by place. Which GPIOs select the chip and carry its data. Base pins are counted
   from the base. A record that is handed in has just this length, and 0 or 1 at place 8; anything else is refusal
   1. The three places after it count for nothing where it is 0. */
enum {
    /* Bytes of the record. */
    ONEROM_CS_DATA_LAYOUT_RECORD_SIZE = 100,
    /* First GPIO of the PIO window. Values: 0 or 16 if found; 0 to 47 if handed in. */
    ONEROM_CS_DATA_LAYOUT_BASE = 0,
    /* Lowest data GPIO less the base. Values: 0 to 47. */
    ONEROM_CS_DATA_LAYOUT_BASE_DATA_PIN = 1,
    /* Number of data lines. Values: 1 to 16. */
    ONEROM_CS_DATA_LAYOUT_DATA_COUNT = 2,
    /* Lowest GPIO of select and commoned lines less the base. Values: 0 to 47. */
    ONEROM_CS_DATA_LAYOUT_BASE_CS_PIN = 3,
    /* Number of GPIOs from the lowest of these to the highest. Values: any. */
    ONEROM_CS_DATA_LAYOUT_CS_PINS = 4,
    /* Which of these GPIOs is no select line, from 0. Values: any; 255 none. */
    ONEROM_CS_DATA_LAYOUT_IGNORE_INDEX = 5,
    /* Number of select lines. Values: 0 to 30. */
    ONEROM_CS_DATA_LAYOUT_SELECT_COUNT = 6,
    /* Number of commoned lines. Values: 0 to 6. */
    ONEROM_CS_DATA_LAYOUT_COMMONED_COUNT = 7,
    /* Whether there are qualifiers. Values: 1 with qualifiers, else 0. */
    ONEROM_CS_DATA_LAYOUT_QUALIFIED = 8,
    /* Lowest qualifier GPIO less the base. Values: 0 to 47; 0 without qualifiers. */
    ONEROM_CS_DATA_LAYOUT_BASE_QUALIFIER_PIN = 9,
    /* Number of GPIOs from the lowest qualifier to the highest. Values: any; 0 without qualifiers. */
    ONEROM_CS_DATA_LAYOUT_QUALIFIER_PINS = 10,
    /* A bit for each qualifier GPIO, bit 0 the lowest. Values: any; 0 without qualifiers. */
    ONEROM_CS_DATA_LAYOUT_QUALIFIER_PATTERN = 11,
    /* 16 bytes: GPIOs of the data lines, lowest line first; 0 past them where the library writes it. Values: 0 to
       47. */
    ONEROM_CS_DATA_LAYOUT_DATA = 12,
    /* 60 bytes: select lines, two bytes a line: role, GPIO; excess address lines last; 0 past them where the library
       writes it. Values: role 0 to 8, GPIO 0 to 47. */
    ONEROM_CS_DATA_LAYOUT_SELECT = 28,
    /* 12 bytes: commoned lines in the same way. Values: role 0 to 8, GPIO 0 to 47. */
    ONEROM_CS_DATA_LAYOUT_COMMONED = 88,
};

/* The pin page, place by place. A text of 48 rows, which says what each GPIO serves. It is written, and never handed
   in. */
enum {
    /* Bytes of the record. */
    ONEROM_PIN_PAGE_RECORD_SIZE = 432,
    /* 432 bytes: rows of GPIOs 0 to 47, 9 bytes a row. Values: a row each. */
    ONEROM_PIN_PAGE_ROWS = 0,
};

/* The row of a pin page, place by place. A GPIO of a pin page, at place 9 * g for GPIO g, in ASCII. */
enum {
    /* Bytes of the record. */
    ONEROM_PIN_PAGE_ROW_RECORD_SIZE = 9,
    /* 2 bytes: the GPIO in two decimal digits. Values: 00 to 47. */
    ONEROM_PIN_PAGE_ROW_GPIO = 0,
    /* A space. Values: 32. */
    ONEROM_PIN_PAGE_ROW_GAP = 2,
    /* 5 bytes: its role, and spaces behind it. Values: A0 to A23, D0 to D15, X1, X2, CE, OE, CS1 to CS4, HALF, or -. */
    ONEROM_PIN_PAGE_ROW_ROLE = 3,
    /* A line feed. Values: 10. */
    ONEROM_PIN_PAGE_ROW_END = 8,
};

/* The image spans record, place by place. Where in the bytes that are lent for all chips each chip's stand: chips 0
   to 3, an image span each. Another length is refusal 1. */
enum {
    /* Bytes of the record. */
    ONEROM_IMAGE_SPANS_RECORD_SIZE = 48,
    /* 48 bytes: chips 0 to 3, 12 bytes a chip. Values: an image span each. */
    ONEROM_IMAGE_SPANS_CHIPS = 0,
};

/* The image span, place by place. A chip of an image spans record, at place 12 * n for chip n. A value that is not
   named here is refusal 1, in a chip past the number of chips too. Of a span that reaches past the end of the
   lent bytes the chip has the bytes that are there. Spans may overlap. */
enum {
    /* Bytes of the record. */
    ONEROM_IMAGE_SPAN_RECORD_SIZE = 12,
    /* Whether the chip has bytes; if not, start and length count for nothing. Values: 0 no, 1 yes. */
    ONEROM_IMAGE_SPAN_GIVEN = 0,
    /* 3 bytes: nothing. Values: 0 (kept). */
    ONEROM_IMAGE_SPAN_SPARE = 1,
    /* 4 bytes: place of the chip's first byte in the lent bytes. Values: any. */
    ONEROM_IMAGE_SPAN_START = 4,
    /* 4 bytes: number of bytes. Values: any. */
    ONEROM_IMAGE_SPAN_LENGTH = 8,
};

/* The stored slot record, place by place. A slot as it is stored, with the board's X pins. Another length is refusal
   1, and so is another value than named here at place 5, at the candidates or at a count. Of each of the four
   ROMs, those past the number of ROMs too, MAP_GIVEN is 0 or 1 and the places kept are 0, or the record is
   refusal 1; a size is looked at in the ROMs below that number only. */
enum {
    /* Bytes of the record. */
    ONEROM_STORED_SLOT_RECORD_SIZE = 376,
    /* 4 bytes: declared size in bytes. Values: any. */
    ONEROM_STORED_SLOT_BYTES = 0,
    /* Slot kind. Values: 0 Single ROM, 1 Single RAM, 2 Banked, 3 Multi, 4 to 6 plugin, any other: unknown. */
    ONEROM_STORED_SLOT_KIND = 4,
    /* Layout present. Values: 0 no, 1 yes. */
    ONEROM_STORED_SLOT_LAYOUT_GIVEN = 5,
    /* Address algorithm. Values: 0, any other: unknown. */
    ONEROM_STORED_SLOT_ADDR_ALGORITHM = 6,
    /* Base of the address window. Values: any. */
    ONEROM_STORED_SLOT_ADDR_BASE = 7,
    /* First address pin, counted from that base. Values: any. */
    ONEROM_STORED_SLOT_BASE_ADDR_PIN = 8,
    /* Number of address pins. Values: any. */
    ONEROM_STORED_SLOT_ADDR_PINS = 9,
    /* Data algorithm. Values: 0 or 1, any other: unknown. */
    ONEROM_STORED_SLOT_DATA_ALGORITHM = 10,
    /* Base of the data window. Values: any. */
    ONEROM_STORED_SLOT_DATA_BASE = 11,
    /* First data pin, counted from that base. Values: any. */
    ONEROM_STORED_SLOT_BASE_DATA_PIN = 12,
    /* DMA algorithm. Values: 0, any other: unknown. */
    ONEROM_STORED_SLOT_DMA_ALGORITHM = 13,
    /* Bit mode. Values: 0 or 1, any other: unknown. */
    ONEROM_STORED_SLOT_BIT_MODE = 14,
    /* Select algorithm, looked at in Multi only. Values: 0, any other: refused there. */
    ONEROM_STORED_SLOT_CS_ALGORITHM = 15,
    /* Base of the select window, looked at in Multi only. Values: any. */
    ONEROM_STORED_SLOT_CS_BASE = 16,
    /* Pin of the first ROM's select, counted from that base. Values: any. */
    ONEROM_STORED_SLOT_FIRST_CS_PIN = 17,
    /* Number of overrides. Values: 0 to 64. */
    ONEROM_STORED_SLOT_OVERRIDE_COUNT = 18,
    /* 64 bytes: overrides, a byte each: GPIO in the low six bits, kind in the top two. Values: any. */
    ONEROM_STORED_SLOT_OVERRIDES = 19,
    /* 2 bytes: candidates of X1. Values: 255 255 none; g 255 one; g h two; GPIOs 0 to 47 that differ. */
    ONEROM_STORED_SLOT_X1 = 83,
    /* 2 bytes: candidates of X2. Values: as above. */
    ONEROM_STORED_SLOT_X2 = 85,
    /* Number of ROMs. Values: 0 to 4. */
    ONEROM_STORED_SLOT_ROM_COUNT = 87,
    /* 288 bytes: ROMs 0 to 3, 72 bytes a ROM. Values: a stored ROM each. */
    ONEROM_STORED_SLOT_ROMS = 88,
};

/* The stored ROM, place by place. A ROM of a stored slot, at place 88 + 72 * n for ROM n. GPIOs behind a 255 count
   for nothing; a list that fills its 32 places has no 255. */
enum {
    /* Bytes of the record. */
    ONEROM_STORED_ROM_RECORD_SIZE = 72,
    /* Whether the ROM has a pin map. Values: 0 no, 1 yes. */
    ONEROM_STORED_ROM_MAP_GIVEN = 0,
    /* 3 bytes: nothing. Values: 0 (kept). */
    ONEROM_STORED_ROM_SPARE = 1,
    /* 4 bytes: size in bytes. Values: 0 to 2^24. */
    ONEROM_STORED_ROM_BYTES = 4,
    /* 32 bytes: GPIOs of the address lines, lowest line first, ended by 255. Values: any. */
    ONEROM_STORED_ROM_ADDRESS = 8,
    /* 32 bytes: GPIOs of the data lines, lowest line first, ended by 255. Values: any. */
    ONEROM_STORED_ROM_DATA = 40,
};

/*
 * Finds the address layout of the slot that a description record describes: the one with the lowest score, of
 * equals the earliest choice.
 *
 *   description: read, description record
 *   layout: lent, for the address layout record, 36 bytes or more
 *
 * The number of the result; layout as before the call where no more is said:
 *
 *   0: a layout is found. Afterwards its first 36 bytes are the record, later ones as before.
 *   ONEROM_OUT_OF_DOMAIN: the bytes are no description record, or what they describe is outside the domain, such as
 *       a candidate above 29 on package A.
 *   ONEROM_UNMAPPED_PIN, place socket pin: a line's socket pin has no GPIO: give it one.
 *   ONEROM_MISSING_X_PIN, place 1 or 2: X1 or X2 is needed and has no GPIO: give it one.
 *   ONEROM_NO_VALID_LAYOUT: a line is off the socket and no X pin takes it, or no choice lies in one PIO window.
 *   ONEROM_SHORT_BUFFER: a layout is found, and layout has fewer than 36 bytes: lend more.
 *
 * 1 comes first and 16 last. Of several pins that cannot be served the first answers, lines before X1 and X2;
 * windows are looked at only if there is none.
 */
uint64_t onerom_derive_addr_layout(const uint8_t *description, size_t description_len, uint8_t *layout,
                                   size_t layout_len);

/*
 * Finds the select and data layout of the slot that a description record describes: the one with the lowest
 * preference, of equals the lowest span, of equals the earliest choice.
 *
 *   description: read, description record
 *   addr_layout: read, address layout record, or no bytes: no layout is given
 *   layout: lent, for the select layout record, 100 bytes or more
 *
 * The number of the result; layout as before the call where no more is said:
 *
 *   0: a layout is found. Afterwards its first 100 bytes are the record, later ones as before.
 *   ONEROM_OUT_OF_DOMAIN: bytes that are no record, or what they describe is outside the domain, such as a
 *       candidate above 29 on package A.
 *   ONEROM_NO_SELECT_LINE: no active select line, or a line that the Multi configuration names is not on chip 0.
 *   ONEROM_UNMAPPED_PIN, place chip pin: a data or select pin is off the socket or has no GPIO: give it one.
 *   ONEROM_MISSING_X_PIN, place 1 or 2: Multi: X1 or X2 has no GPIO: give it one.
 *   ONEROM_MISSING_ADDR_PIN_GPIOS: the description has qualifiers, and no address layout is given: hand it in.
 *   ONEROM_ROM_TOO_LARGE_NO_CS_CONFIG: the address layout has excess lines, and cs1 reads as ignored.
 *   ONEROM_NON_CONTIGUOUS_SELECT, place set of GPIOs: select GPIOs with a gap that is not allowed.
 *   ONEROM_INTERIOR_IGNORED_LINE, place GPIO: an ignored line's GPIO lies in such a gap.
 *   ONEROM_NO_VALID_LAYOUT: no choice fits, and none that has gapless data has such a gap.
 *   ONEROM_SHORT_BUFFER: a layout is found, and layout has fewer than 100 bytes: lend more.
 *
 * 1 comes first and 16 last; 5, 6, then data pins, then select lines. 7, 8 and 9 are said only if all these are
 * past and no choice fits.
 */
uint64_t onerom_derive_cs_data_layout(const uint8_t *description, size_t description_len, const uint8_t *addr_layout,
                                      size_t addr_layout_len, uint8_t *layout, size_t layout_len);

/*
 * Builds the table of a slot: for each index the word of the chip that it picks, each bit where the data lines
 * read it. It has 2^pins entries, pins being byte 1 of the address layout record, and an entry has as many bytes
 * as a word, byte 3 of the description record.
 *
 * Of the description a build goes by the set type, the bytes in a word, the number of chips, their sizes and the
 * largest table; which GPIOs carry what, it takes from the layouts. All of the description is tested all the
 * same, and so are its qualifiers against the address layout's lines.
 *
 *   description: read, description record
 *   addr_layout: read, address layout record
 *   cs_data_layout: read, select layout record
 *   spans: read, image spans record
 *   images: read, the chips' bytes
 *   order: value, byte order of the chips' bytes, 0 low byte first, 1 high byte first
 *   table: lent, for the table, its size or more
 *
 * The number of the result; table as before the call where no more is said:
 *
 *   0: the table is built. Afterwards its first bytes, as many as the table has, are the table, later ones as
 *       before.
 *   ONEROM_OUT_OF_DOMAIN: order is neither 0 nor 1, bytes that are no record, or what they describe is outside the
 *       domain, such as a candidate above 29 on package A.
 *   ONEROM_ROM_TABLE_TOO_LARGE: the table is larger than the description allows.
 *   ONEROM_INVALID_CONFIG: not 1 chip (Single), 2 to 4 (Banked), 2 or 3 (Multi).
 *   ONEROM_BAD_POSITION: the GPIO of an address line in use, of a line that picks a chip or of a data line lies
 *       below its base or more than 31 above it, or a line that picks a chip has no GPIO; excess lines are not
 *       looked at, nor are select lines that pick no chip.
 *   ONEROM_MISSING_IMAGE_DATA, place chip: a chip has no bytes.
 *   ONEROM_SHORT_IMAGE_DATA, place chip: a chip has fewer bytes than its size.
 *   ONEROM_SHORT_BUFFER: everything else is well, and table has fewer bytes than the table: lend more.
 *
 * 1 comes first, for order before the records are looked at; then 11, 13 for an address line, 12, 13 for another
 * line, 14, 15, 16. Chips are counted from 0, and the lowest answers. No bytes for the address layout are 1 here:
 * a build needs one.
 */
uint64_t onerom_build_rom_image(const uint8_t *description, size_t description_len, const uint8_t *addr_layout,
                                size_t addr_layout_len, const uint8_t *cs_data_layout, size_t cs_data_layout_len,
                                const uint8_t *spans, size_t spans_len, const uint8_t *images, size_t images_len,
                                uint64_t order, uint8_t *table, size_t table_len);

/*
 * Reads back what a slot stores: the words of its ROMs, ROM after ROM, and a mark for each. A ROM has as many
 * words as its size has, rounded down, and at most 2^lines, lines being the GPIOs of its address map. A word has
 * w bytes, 1 in bit mode 0 and 2 in bit mode 1. The words of all ROMs together are those counted below.
 *
 *   slot: read, stored slot record
 *   stored: read, the bytes that are stored
 *   order: value, byte order of the words in output, 0 low byte first, 1 high byte first
 *   output: lent, for the ROMs' bytes, w a word counted, or more; for a plugin as many as are stored
 *   marks: lent, for the marks, one byte a word counted, or more; none for a plugin
 *
 * The number of the result; output and marks as before the call where no more is said:
 *
 *   0: every word is read. Afterwards the first bytes of output are the words, a mark for each is 1, later bytes as
 *       before.
 *   0: a plugin: its bytes are copied. Afterwards the first bytes of output are those stored, later ones and marks
 *       as before.
 *   ONEROM_OUT_OF_DOMAIN: order is neither 0 nor 1, bytes that are no record, or what they describe is outside the
 *       domain.
 *   ONEROM_SHORT_BUFFER: output or marks is too short: lend more.
 *   ONEROM_WRONG_SIZE: stored is not as long as the declared size.
 *   ONEROM_UNKNOWN_SLOT_TYPE: the slot kind is unknown.
 *   ONEROM_MISSING_LAYOUT: no layout, or a ROM without a pin map.
 *   ONEROM_UNKNOWN_ALGORITHM: the address, data or DMA algorithm or the bit mode is unknown, or in Multi the select
 *       algorithm is not 0.
 *   ONEROM_BAD_LAYOUT: a base and its pin come to more than 255; 32 address pins or more; stored has not w bytes
 *       for each of 2^pins entries; a ROM's address GPIO that is none of the address pins, or a data GPIO that is
 *       none of the 8w from the data base; other than 8w data GPIOs; not 1 ROM (Single), 2 to 4 (Banked), 2 or 3
 *       (Multi); a Multi select that is none of the address pins.
 *   ONEROM_X_PIN, place 1 or 2: not exactly one GPIO of X1 or X2 is among the address pins, where it picks a ROM.
 *   ONEROM_INCONSISTENT, place ROM and address: an entry has another value for a word than the first entry for it:
 *       the first such entry. Afterwards 0 over the words counted, later bytes as before.
 *   ONEROM_UNSERVED, place ROM and address: a word has no entry: the lowest ROM, then the lowest address.
 *       Afterwards 0 over the words counted, later bytes as before.
 *
 * Refusals come in this order: 1, 17, 18; a plugin then 16 alone. 19 for the layout, 20 and 21 for the address
 * algorithm and base, for the data algorithm and base, 20 for DMA algorithm and bit mode, 21 for the pins and the
 * length. ROM by ROM 19, then 21 for the address lines and for the data lines. 21 for the number of ROMs, 22 for
 * X1 and then X2, 20 and 21 for the select of Multi, 16, 23, 24.
 */
uint64_t onerom_unscramble_slot(const uint8_t *slot, size_t slot_len, const uint8_t *stored, size_t stored_len,
                                uint64_t order, uint8_t *output, size_t output_len, uint8_t *marks, size_t marks_len);

/*
 * Runs both searches, the build and the read-back in turn. The select search is given the found address layout,
 * and the build both layouts. Build and read-back are given the same byte order. Read-back is given the table's
 * own bytes, and a slot of the found layouts: the table's length as its size, the kind of the set type, base and
 * pins of the address layout, base and base data pin of the select layout, algorithms 0, the bit mode of the word
 * bytes, the first select line's GPIO as select base, base pins 0 for address and select, no overrides, the
 * description's X candidates, and for each chip its size and the maps of the address lines in use and of the data
 * lines.
 *
 *   description: read, description record
 *   spans: read, image spans record
 *   images: read, the chips' bytes
 *   order: value, byte order of the chips' bytes and of output, 0 low byte first, 1 high byte first
 *   table: lent, for the table, its size or more
 *   output: lent, for the chips' bytes, as in the read-back
 *   marks: lent, for the marks, as in the read-back
 *
 * The number of the result; table, output and marks as before the call where no more is said:
 *
 *   0: all four succeed. Afterwards the first bytes of table are the table, later ones as before; output and marks
 *       are what the read-back leaves.
 *   any of the searches' and the build's: the first of these that refuses.
 *   any of the read-back's: the table is built, and the read-back refuses. Afterwards the first bytes of table are
 *       the table, later ones as before; output and marks are what the read-back leaves.
 *
 * An order that is neither 0 nor 1, bytes that are no record, spans or description, and a candidate above 29 on
 * package A are 1 before anything else; then the first of the four that refuses answers. 16 is said of table last
 * in the build, of output and marks only when the table is built. Number 3 names a socket pin if the address
 * search refuses and a chip pin if the select search does; the single calls tell which.
 *
 * If the slot is well wired, which onerom_well_wired tests, and the four succeed, each chip's words are the first
 * of its bytes in images, byte for byte, under either order. Where it is not, words can come back as others.
 */
uint64_t onerom_round_trip(const uint8_t *description, size_t description_len, const uint8_t *spans, size_t spans_len,
                           const uint8_t *images, size_t images_len, uint64_t order, uint8_t *table, size_t table_len,
                           uint8_t *output, size_t output_len, uint8_t *marks, size_t marks_len);

/*
 * Tests whether a slot is well wired with the address layout that was found for it: no GPIO is a candidate of two
 * pins of the board; the address lines in use, and in Multi the select, lie on different chip pins, and so do the
 * data lines, 8 for each byte of a word; in Multi the select's pin has no second candidate, and there are no
 * qualifiers; X1 in Banked and Multi, and X2 with three chips or more, has just one candidate among the GPIOs
 * that the address layout reads. What is then laid out, built and read back is proved to be the chips' words.
 *
 *   description: read, description record
 *   addr_layout: read, address layout record
 *
 * The number of the result:
 *
 *   0, place 0: the slot is well wired.
 *   0, place 1: the slot is not: the result is 1.
 *   ONEROM_OUT_OF_DOMAIN: the bytes are no description record, or no address layout record, or a candidate is above
 *       29 on package A, whatever the wiring.
 */
uint64_t onerom_well_wired(const uint8_t *description, size_t description_len, const uint8_t *addr_layout,
                           size_t addr_layout_len);

/*
 * Writes the pin page of two layouts: for each GPIO, used or not, the role that it has there.
 *
 * A0 to A23 is an address line in use, numbered by its place among them, so that in 16-bit mode A0 is the line at
 * address pin 1. D0 to D15 is a data line, numbered in the same way. X1 and X2 are the address layout's GPIOs for
 * them, and every select and commoned line with that role. CE, OE and CS1 to CS4 are select and commoned lines by
 * their roles. HALF is an excess line of the address layout, and every select and commoned line with the role of
 * one. A GPIO shows - exactly if it has none of these.
 *
 * A GPIO with several shows the first of address line, data line, X pin, select line, commoned line. HALF counts
 * as a select line, whichever list has it. Of address and of data lines the lowest number is shown, X1 goes
 * before X2, and of select and of commoned lines the first of CE, OE, CS1, CS2, CS3, CS4, HALF is shown: HALF and
 * a select CS1 show CS1, HALF and a commoned CE show HALF.
 *
 *   addr_layout: read, address layout record
 *   cs_data_layout: read, select layout record
 *   page: lent, for the pin page, 432 bytes or more
 *
 * The number of the result; page as before the call where no more is said:
 *
 *   0, place length: the page is written, and the result is its length, 432. Afterwards its first 432 bytes are the
 *       page, later ones as before.
 *   ONEROM_OUT_OF_DOMAIN: bytes that are no record, or a layout that is outside the domain, such as one with GPIO
 *       48, role 9 or no data line.
 *   ONEROM_SHORT_BUFFER: both layouts are in the domain, and page has fewer than 432 bytes: lend more.
 *
 * 1 comes first. Both layouts have to be what a build takes, but there is no description here to hold qualifiers
 * against. Layouts that no search found are shown too, with GPIOs up to 47 whatever the package. Lines past the
 * counts count for nothing.
 */
uint64_t onerom_write_page(const uint8_t *addr_layout, size_t addr_layout_len, const uint8_t *cs_data_layout,
                           size_t cs_data_layout_len, uint8_t *page, size_t page_len);

/*
 * Reads a text of Intel HEX into a chip's bytes. The chip is the whole lent slice. A byte that no record names is
 * 255, and where several records name one the last counts.
 *
 * A line is what stands up to a line feed, or up to the text's end; a carriage return just before the line feed
 * belongs to the line's end. Every line is a record: a colon and two hex digits a byte, of either case. The bytes
 * are a count, two of an offset with the high one first, a type, as many data bytes as the count says, and a
 * checksum, by which all of them sum to 0 modulo 256. Type 00 has data bytes from the offset on, up to offset
 * 65535, in a block of 64 KiB: block 0, or the one that the last type 04 before it names. Type 04 has two data
 * bytes, a block's number with the high byte first, and type 01 has none and ends the text; both have offset 0.
 *
 *   text: read, the text
 *   chip: lent, for the chip's bytes, as many as the chip has, at most 2^24
 *
 * The number of the result; chip as before the call where no more is said:
 *
 *   0: every line is a sound record, and the last one is of type 01. Afterwards each byte is what the last record
 *       that names it says, else 255.
 *   ONEROM_OUT_OF_DOMAIN: chip has more than 2^24 bytes.
 *   ONEROM_BAD_RECORD: a line is no such record, or stands behind a sound one of type 01; or no line is of type 01:
 *       the text is not whole.
 *   ONEROM_BAD_CHECKSUM: a record's bytes do not sum to 0 modulo 256.
 *   ONEROM_PAST_CHIP: a record has a data byte at an address past the chip; one without data bytes has none.
 *
 * 1 comes first. Then the first line at fault answers, of its faults the one with the lowest number;
 * onerom_hex_fault_line says which line. That no line is of type 01 comes last.
 */
uint64_t onerom_read_hex(const uint8_t *text, size_t text_len, uint8_t *chip, size_t chip_len);

/*
 * Writes a chip's bytes as a text of Intel HEX, which onerom_read_hex reads as the same bytes. The text has
 * records of type 00 with 16 data bytes, the last one with what is left, a record of type 04 ahead of each block
 * of 64 KiB but the first, and at the end :00000001FF; capitals, and a line feed behind each record.
 *
 * Of n bytes the text has 12 * ceil(n / 16) + 2 * n + 16 * max(ceil(n / 65536) - 1, 0) + 12 characters: 12 of
 * none, 46141436 of 2^24.
 *
 *   chip: read, the chip's bytes, at most 2^24
 *   text: lent, for the text, its length or more
 *
 * The number of the result; text as before the call where no more is said:
 *
 *   0, place length: the text is written, and the result is its length. Afterwards its first bytes, so many, are
 *       the text, later ones as before.
 *   ONEROM_OUT_OF_DOMAIN: chip has more than 2^24 bytes.
 *   ONEROM_SHORT_BUFFER: text has fewer bytes than the text: lend more.
 *
 * 1 comes first.
 */
uint64_t onerom_write_hex(const uint8_t *chip, size_t chip_len, uint8_t *text, size_t text_len);

/*
 * Says which line of a text of Intel HEX is the first at fault, where onerom_read_hex answers 26, 27 or 28 to the
 * text and a chip of this size. Lines are counted from 1. Where no line is of type 01, and nothing else is at
 * fault, it is the line behind the last.
 *
 *   text: read, the text
 *   chip_size: value, how many bytes the chip has
 *
 * The number of the result:
 *
 *   0, place 0: the text is read into a chip of this size, or the size is more than 2^24.
 *   0, place line: a line is at fault, and the result is the first such line.
 */
uint64_t onerom_hex_fault_line(const uint8_t *text, size_t text_len, uint64_t chip_size);

#ifdef __cplusplus
}
#endif

#endif
