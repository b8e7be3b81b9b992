/* Devices: a serial line (a UART like the 8250, always ready to send), and what firmware asks for before it goes on.
 * Reads of other ports give ones. Linux finds a serial line and nothing else. */
#include "monitor.h"
#include <stdio.h>

enum { SERIAL = 0x3f8, DEBUG = 0xe9, FIRMWARE_DEBUG = 0x402, CMOS = 0x70, KEYBOARD = 0x64 };
enum { DATA, INTERRUPTS, IDENTITY, LINE_CONTROL, MODEM_CONTROL, LINE_STATUS, MODEM_STATUS };
/* Bits of INTERRUPTS, which is what the guest wants to be interrupted for, and what IDENTITY then is. */
enum { RECEIVED = 1, SENT = 2, IS_SENT = 2, IS_RECEIVED = 4, IS_NONE = 1 };
enum { READY = 2 }; /* of MODEM_CONTROL: the guest is ready to receive */

static void print(struct devices *devices, unsigned vm, char character) {
    char name[20];
    if (devices->is_shown) {
        terminal_print(character);
        return;
    }
    snprintf(name, sizeof name, "guest %u", vm);
    print_character(&devices->line, OF_GUEST, name, character);
}

/* Whether the first two registers are the line's speed. */
static bool is_speed(const struct devices *devices, unsigned number) {
    return number <= INTERRUPTS && devices->serial[LINE_CONTROL] & 0x80;
}

static void serial_out(struct devices *devices, unsigned vm, unsigned number, uint8_t value) {
    if (is_speed(devices, number)) devices->speed[number] = value;
    else if (number == DATA) print(devices, vm, (char)value);
    else devices->serial[number] = number == INTERRUPTS ? value & 0xf : value;
    if (number <= INTERRUPTS) devices->was_sent = true;
}

/* Why there is an interrupt. */
static uint32_t identity(const struct devices *devices) {
    uint8_t wanted = devices->serial[INTERRUPTS];
    if (wanted & RECEIVED && devices->count) return IS_RECEIVED;
    return wanted & SENT && devices->was_sent ? IS_SENT : IS_NONE;
}

/* The guest reads it, and is then informed. */
static uint32_t identify(struct devices *devices) {
    uint32_t why = identity(devices);
    if (why == IS_SENT) devices->was_sent = false;
    return why;
}

bool device_interrupts(const struct devices *devices) { return identity(devices) != IS_NONE; }

bool device_has_room(const struct devices *devices) {
    return devices->serial[MODEM_CONTROL] & READY && devices->count < sizeof devices->typed;
}

void device_type(struct devices *devices, char character) {
    devices->typed[(devices->first + devices->count++) % sizeof devices->typed] = character;
}

static uint8_t receive(struct devices *devices) {
    if (!devices->count) return 0;
    uint8_t character = devices->typed[devices->first];
    devices->first = (devices->first + 1) % sizeof devices->typed;
    devices->count--;
    return character;
}

static uint32_t serial_in(struct devices *devices, unsigned number) {
    if (is_speed(devices, number)) return devices->speed[number];
    switch (number) {
    case DATA: return receive(devices);
    case IDENTITY: return identify(devices);
    case LINE_STATUS: return 0x60 | (devices->count > 0); /* all is sent */
    case MODEM_STATUS: return 0xb0; /* connected */
    default: return devices->serial[number];
    }
}

void device_out(struct devices *devices, unsigned vm, uint16_t port, uint32_t value) {
    if (port >= SERIAL && port < SERIAL + 8) serial_out(devices, vm, port - SERIAL, value);
    if (port == DEBUG || port == FIRMWARE_DEBUG) print(devices, vm, (char)value);
    if (port == CMOS) devices->cmos = value & 0x7f;
}

uint32_t device_in(struct devices *devices, uint16_t port) {
    if (port >= SERIAL && port < SERIAL + 8) return serial_in(devices, port - SERIAL);
    if (port == FIRMWARE_DEBUG) return 0xe9; /* what says that it is there */
    if (port == CMOS + 1) return devices->cmos == 0x35; /* 16 MiB above 16 MiB, in 256 pieces of 64 KiB */
    if (port == KEYBOARD && !devices->has_interrupts) return devices->keyboard ^= 1;
    return UINT32_MAX;
}
