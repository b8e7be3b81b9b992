/* The terminal: the other end of the first Linux guest's serial line. A guest may move the cursor, erase and colour; no
 * other sequence of its own comes through, since some have a terminal type, or keep what was typed. */
#include "monitor.h"
#include <string.h>
#include <termios.h>
#include <unistd.h>

enum { ESCAPE = 0x1b, LONGEST = 16 };

static struct {
    struct termios before;
    bool is_open;
    char sequence[LONGEST]; /* one that has begun */
    size_t length;
} terminal;

bool terminal_may_read(void) { return !isatty(STDIN_FILENO) || tcgetpgrp(STDIN_FILENO) == getpgrp(); }

bool terminal_open(void) {
    if (!isatty(STDIN_FILENO) || !isatty(STDOUT_FILENO)) return false;
    if (tcgetattr(STDIN_FILENO, &terminal.before)) fail("the terminal");
    struct termios raw = terminal.before;
    raw.c_lflag &= ~(ICANON | ECHO);
    raw.c_iflag &= ~ICRNL;
    raw.c_cc[VSUSP] = _POSIX_VDISABLE;
    if (tcsetattr(STDIN_FILENO, TCSANOW, &raw)) fail("the terminal");
    return terminal.is_open = true;
}

void terminal_close(void) {
    if (terminal.is_open) tcsetattr(STDIN_FILENO, TCSANOW, &terminal.before);
    terminal.is_open = false;
}

static bool is_one_of(const char *characters, char character) { return character && strchr(characters, character); }

/* A sequence goes on until a letter. */
static void print_sequence(char character) {
    bool is_second = terminal.length == 1;
    terminal.sequence[terminal.length++] = character;
    if (is_one_of(is_second ? "[" : "0123456789;", character) && terminal.length < LONGEST) return;
    if (!is_second && is_one_of("ABCDGHJKm", character)) print_text(terminal.sequence, terminal.length);
    terminal.length = 0;
}

void terminal_print(char character) {
    if (character == ESCAPE) terminal.sequence[0] = ESCAPE, terminal.length = 1;
    else if (terminal.length) print_sequence(character);
    else if ((character >= ' ' && character < 127) || is_one_of("\n\r\b\t\a", character))
        print_text(&character, 1);
}
