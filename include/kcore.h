/* The trusted core in a program of your own: link with -lkcore. docs/EMBED.md says more, and what a monitor of virtual
 * machines must do.
 *
 * What is said below of each function's status, of *used and of the buffer is proved for a caller that obeys these
 * rules, which nothing checks:
 *  - a pointer and the length after it are this many bytes, or changes, of the caller's, and any other pointer is to
 *    one value of its type; nothing else uses them while the call runs, and they and the session do not overlap;
 *  - a session begins as {0}, and then only these functions change it; it is not copied while it is open;
 *  - one thread at a time uses a session, and hands it on by a lock, or by a thread's start or end; no function is called
 *    by a signal handler, or by the forked child of a process with threads;
 *  - malloc, realloc and free are one allocator's, and align as those of the C library do.
 * All else is tested: no line, length, number or configuration breaks a session, and a closed one is refused. */
#ifndef KCORE_H
#define KCORE_H
#include <stdbool.h>
#include <stddef.h>
#include <stdint.h>
#ifdef __cplusplus
extern "C" {
#endif

/* A session: a core, and the volume of the calls that it answered. {0} is a closed one. */
typedef struct {
    void *session;
    bool is_open;
} kcore;

enum kcore_status {
    KCORE_DONE = 0,
    KCORE_CLOSED = 1,          /* the session is not open */
    KCORE_ALREADY_OPEN = 2,    /* it is open, and must be ended first */
    KCORE_MEMORY = 3,          /* there is not enough memory */
    KCORE_NO_ROOM = 4,         /* the buffer is too short */
    KCORE_NO_SUCH_LINE = 5,    /* the trace has fewer lines */
    KCORE_BAD_LINE = 6,        /* the line is not a call */
    KCORE_HISTORY_FULL = 7,    /* the volume has 65,536 calls */
    KCORE_NOT_JSON = 8,        /* the configuration is not JSON */
    KCORE_BAD_SHAPE = 9,       /* it has other keys, or other kinds of values */
    KCORE_BAD_FRAMES = 10,     /* its frames are refused */
    KCORE_BAD_CORE_HOST = 11,  /* its core and host are refused */
    KCORE_BAD_LEAVES = 12,     /* its leaves are refused */
    KCORE_TOO_MANY_DIGESTS = 13, /* it approves too many digests */
    KCORE_NOT_YOURS = 14,      /* the call is not the asker's */
    KCORE_NO_SUCH_FRAME = 15,  /* there is no such frame, or none at this place */
    KCORE_NO_SUCH_CHANGE = 16, /* the last call changed fewer frames */
    KCORE_NO_SUCH_CALL = 17,   /* no call has this number, or it needs 1 to 4,096 bytes and has fewer or more */
    KCORE_TOO_LONG = 18,       /* the text has more than 1,073,741,824 bytes */
    KCORE_NO_STATE_HEADER = 19, /* the text does not begin as a state's does */
    KCORE_BAD_STATE_LINE = 20, /* the line of this number may not be there */
    KCORE_MISSING_FRAME = 21,  /* in its dump, the line of this frame is due and missing */
    KCORE_BAD_SIZES = 22,      /* no configuration has its numbers, or it has other slots or frames */
    KCORE_BAD_DUMP = 23,       /* an audit of its dump finds something */
    KCORE_BAD_SLOT = 24,       /* no core has this slot */
    KCORE_BAD_FRAME = 25,      /* no core has this frame: for example, its digest is not that of its page */
    KCORE_NO_TEXT = 26         /* the version of the machine has no dump and no text of a state */
};

/* Who owns a frame. */
enum kcore_owner { KCORE_CORE = 0, KCORE_HOST = 1, KCORE_FREE = 2, KCORE_VM = 3 };

/* No slot, or no guest frame; for the vm that asks, it means the host. */
#define KCORE_NONE UINT32_C(0xffffffff)

/* The custody of a frame. */
typedef struct {
    uint32_t owner;   /* an enum kcore_owner */
    uint32_t vm;      /* the slot of the VM that owns it, else KCORE_NONE */
    uint32_t gfn;     /* the guest frame at which its VM sees it, else KCORE_NONE */
    uint32_t share;   /* how many of its VM's grants are not revoked, 0 to 100 */
    uint32_t present; /* 1 if the host has it mapped, else 0 */
} kcore_record;

/* A change of a frame's custody by a call. */
typedef struct {
    uint32_t frame;
    kcore_record before, after;
} kcore_frame_change;

/* The calls by number, and what the numbers of each are, in the order of a trace's line. */
enum kcore_call_number {
    KCORE_TAKE = 0,
    KCORE_GIVE = 1,     /* frame */
    KCORE_HFAULT = 2,   /* frame */
    KCORE_HREAD = 3,    /* frame, offset, length */
    KCORE_HWRITE = 4,   /* frame, offset; bytes */
    KCORE_REGVM = 5,    /* vm */
    KCORE_REGVCPU = 6,  /* vm, vcpu */
    KCORE_SETBOOT = 7,  /* vm, guest frame, length */
    KCORE_REMAP = 8,    /* vm, image, frame */
    KCORE_VERIFY = 9,   /* vm */
    KCORE_MAP = 10,     /* vm, vcpu, frame */
    KCORE_GREAD = 11,   /* vm, vcpu, guest frame, offset, length */
    KCORE_GWRITE = 12,  /* vm, vcpu, guest frame, offset; bytes */
    KCORE_GRANT = 13,   /* vm, vcpu, guest frame */
    KCORE_REVOKE = 14,  /* vm, vcpu, guest frame */
    KCORE_GRANTR = 15,  /* vm, vcpu, guest frame, count */
    KCORE_REVOKER = 16, /* vm, vcpu, guest frame, count */
    KCORE_DROP = 17,    /* vm, vcpu, guest frame */
    KCORE_CLEAR = 18    /* vm */
};

/* A call by numbers. Numbers that it does not have are not read. */
typedef struct {
    uint32_t call; /* an enum kcore_call_number */
    uint32_t number[5];
} kcore_request;

/* The replies by number, and what the number of each is; 0 if it has none. */
enum kcore_reply_number {
    KCORE_IS_DONE = 0,
    KCORE_IS_FRAME = 1,    /* the frame */
    KCORE_IS_IMAGE = 2,    /* the image */
    KCORE_IS_DATA = 3,     /* the number of bytes */
    KCORE_IS_FAULT = 4,    /* the guest frame */
    KCORE_IS_REJECTED = 5, /* the image */
    KCORE_IS_REFUSED = 6   /* the refusal, 1 to 26: docs/RULES.md */
};

/* A reply by numbers. */
typedef struct {
    uint32_t kind; /* an enum kcore_reply_number */
    uint32_t number;
} kcore_answer;

/* How many frames a core has, how many of them were its own and the host's at boot, its slots, and how many more calls
 * its volume can hold. */
typedef struct {
    uint32_t frames, core, host, slots, left;
} kcore_size;

/* The numbers of bytes of the longest reply and of the longest line of a trace, each with its newline. */
size_t kcore_longest_reply(void);
size_t kcore_longest_line(void);

/* Opens a closed session, whose core is in the boot state of this configuration (JSON, up to 1,073,741,824 bytes). If it
 * cannot, the session stays closed. */
uint32_t kcore_boot(kcore *core, const uint8_t *config, size_t config_length);

/* Opens a session as kcore_boot does, whose traces have the header `kcore-trace 3` and a head: that of the first volume
 * says `volume 1 -`, and that of each later one its number and the digest that kcore_digest gave at the end of the
 * volume before it. So each trace says which machine it is of and what came before. (After volume 4,294,967,295 the
 * traces have the header `kcore-trace 2`, as those of kcore_boot have.) */
uint32_t kcore_boot_history(kcore *core, const uint8_t *config, size_t config_length);

/* Opens a closed session, whose core is in the state of this text, and which has answered no call yet: the text is what
 * kcore_state or kcore_blank_state gave, or `kcore replay --state` wrote. If it says which volume goes on from the
 * state, the session fills that one, and its traces have heads. The text is judged as by `kcore replay --from`, and the
 * first fault is reported; then *place is the number of the line, frame or slot that is at fault, or 0 (so too if
 * memory runs out), and the session stays closed. A session that is open, and a text that is too long, leave *place as
 * it was. */
uint32_t kcore_resume(kcore *core, const uint8_t *text, size_t text_length, uint32_t *place);

/* Answers the call on a line, which is given without its newline. The reply's line, with its newline, is the first
 * *used bytes of the buffer, which has room for kcore_longest_reply() bytes; the bytes after them stay as they are. If
 * it does not answer, session and buffer stay as they are, and *used is 0; after KCORE_MEMORY the same line may be
 * asked again. */
uint32_t kcore_call(kcore *core, const uint8_t *line, size_t line_length, uint8_t *out, size_t out_length,
                    size_t *used);

/* Answers as kcore_call does if the line's call is by the one that asks: virtual processor vcpu of slot vm, or the host
 * if vm is KCORE_NONE, whatever vcpu is. If it is by another, the status is KCORE_NOT_YOURS and nothing has changed: so
 * no line that the host sends makes a guest's call, if the caller is truthful about who asks. kcore_call is for
 * recorded traces and consoles, which have the calls of all. */
uint32_t kcore_call_by(kcore *core, uint32_t vm, uint32_t vcpu, const uint8_t *line, size_t line_length, uint8_t *out,
                       size_t out_length, size_t *used);

/* Makes a call that is given by numbers, and for KCORE_HWRITE and KCORE_GWRITE by its 1 to 4,096 bytes, which no other
 * call reads. The trace has its line, as if kcore_call had been asked. The reply is *answer, and its bytes are the
 * first *used of the buffer, which has room for 4,096; the bytes after them stay as they are. If it does not answer,
 * session, buffer and *answer stay as they are, and *used is 0. Who asks is not checked: this is for replays and tests,
 * as kcore_call is. */
uint32_t kcore_do(kcore *core, const kcore_request *request, const uint8_t *bytes, size_t bytes_length, uint8_t *out,
                  size_t out_length, size_t *used, kcore_answer *answer);

/* Makes a call as kcore_do does, if it is by the one that asks, given as in kcore_call_by: this is for a monitor. */
uint32_t kcore_do_by(kcore *core, uint32_t vm, uint32_t vcpu, const kcore_request *request, const uint8_t *bytes,
                     size_t bytes_length, uint8_t *out, size_t out_length, size_t *used, kcore_answer *answer);

/* Reports what the last call that was answered changed in the custody of frames: one change, by its place from 0, in
 * rising order of frames. Those from 0 to KCORE_NO_SUCH_CHANGE are all of them; a refused call has none. They are kept
 * until the next call is answered, even after kcore_turn. If there is no such change, *change stays as it is. */
uint32_t kcore_change(kcore *core, size_t number, kcore_frame_change *change);

/* Reports all of them, in the first *count places of a buffer of this many changes; the places after them stay as they
 * are. If there is not enough room, the status is KCORE_NO_ROOM, the buffer stays as it is, and *count is how many
 * there are. */
uint32_t kcore_changes(kcore *core, kcore_frame_change *changes, size_t changes_length, size_t *count);

/* Report the custody of a frame; the frame at a guest frame of a slot; the first frame, from a number on, that has this
 * owner (vm is a slot for KCORE_VM, else KCORE_NONE); and the core's sizes. What is not reported is not written. */
uint32_t kcore_record_of(kcore *core, uint32_t frame, kcore_record *custody);
uint32_t kcore_frame_of(kcore *core, uint32_t vm, uint32_t gfn, uint32_t *frame);
uint32_t kcore_next(kcore *core, uint32_t owner, uint32_t vm, uint32_t from, uint32_t *frame);
uint32_t kcore_sizes(kcore *core, kcore_size *size);

/* Gives a line of the volume's trace, by its place from 0, with its newline: the header, then a line for each call that
 * was answered. A head comes with the header, all its lines at once, so that the call at place n is the one of line
 * n + 1 in reports. The lines from 0 to KCORE_NO_SUCH_LINE, one after another, are the trace. The bytes after the first
 * *used stay as they are; if no line is given, *used is 0. */
uint32_t kcore_line(kcore *core, size_t number, uint8_t *out, size_t out_length, size_t *used);

/* Does what kcore_line does, with zeros in place of the bytes that virtual processors wrote: what may be written to a
 * disk, or shown. The lines from 0 to KCORE_NO_SUCH_LINE, one after another, are the volume's redacted trace, which is
 * what `kcore redact` makes of its trace. */
uint32_t kcore_redacted_line(kcore *core, size_t number, uint8_t *out, size_t out_length, size_t *used);

/* Gives the SHA-256 digest of the volume's redacted trace so far, 32 bytes: what sha256sum prints for its lines. The
 * calls since it was last asked for are hashed now, and a session that is not asked pays nothing. The bytes after the
 * first *used stay as they are; if no digest is given, *used is 0. No memory is taken. */
uint32_t kcore_digest(kcore *core, uint8_t *out, size_t out_length, size_t *used);

/* Gives the text of the core's state, which is what `kcore replay --state` writes after the calls so far; and the same
 * with zero pages in place of those of active VMs, as `--state --blank` writes it. If the traces have heads, it says
 * which volume goes on from the state: after kcore_turn it is the one that is being filled, which has no call yet, and
 * after a call the next. For F frames it has at most 8,600 F + 600,000 bytes; the buffer may be a mapped file. A machine
 * of version 3 has no such text (KCORE_NO_TEXT). The bytes after the first *used stay as they are; if no text is given,
 * *used is 0. */
uint32_t kcore_state(kcore *core, uint8_t *out, size_t out_length, size_t *used);
uint32_t kcore_blank_state(kcore *core, uint8_t *out, size_t out_length, size_t *used);

/* Gives the SHA-256 digest of the text that kcore_blank_state gives, 32 bytes: what sha256sum prints for it. If there
 * is no such text, the status is KCORE_NO_TEXT. The bytes after the first *used stay as they are; if no digest is given,
 * *used is 0. */
uint32_t kcore_blank_digest(kcore *core, uint8_t *out, size_t out_length, size_t *used);

/* Gives the dump of the core, as `kcore replay --dump` writes it: for F frames at most 320 F + 200,000 bytes. A machine
 * of version 3 has none (KCORE_NO_TEXT). The bytes after the first *used stay as they are; if no dump is given, *used is
 * 0. */
uint32_t kcore_dump(kcore *core, uint8_t *out, size_t out_length, size_t *used);

/* Begins the next volume, with the core as it is: calls and lines from then on are those of the next volume, and those
 * of the last one are gone. If that one has a head, so has the next one, with the digest of all its calls: those since
 * kcore_digest was last asked for are hashed now. After KCORE_MEMORY nothing has changed. */
uint32_t kcore_turn(kcore *core);

/* Ends a session: zeroes the core's pages, frees the memory, and closes it. */
uint32_t kcore_end(kcore *core);

#ifdef __cplusplus
}
#endif
#endif
