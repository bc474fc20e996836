/* switchbr: a model of the Linux bridge with switchdev offload, over texts in memory, whole or line by line.

   A text is bytes as the program reads and writes them (docs/FORMATS.md), with no zero behind it. The calls keep nothing but what a session has,
   read no file and print nothing; any thread may make them, but no signal handler. A call takes 200 kB of stack (measured, not proved: give
   a thread 512), and its memory by malloc, realloc and free. No pointer may be NULL, not even where a size is 0, and what is written may overlap
   nothing else that is passed.

   The status of each call is pinned by a proof against the definitions of the bridge (docs/PROVED.md). What the calls answer, by status; the text
   is the first *len bytes of `out`, and no byte of `out` behind it is changed:

     status     *len              in `out`             a session afterwards
     OK         of the text       the text             has taken the line or section
     BAD_LINE   of the text       the text, of which   has taken it, and is behind its end
                                  `bad N WHY` is last
     NO_ROOM    of the text       nothing is written   has taken it, and keeps the text for the next call
     USAGE      0                 nothing is written   as before
     TOO_LONG   0                 nothing is written   as before
     CLOSED     0                 nothing is written   as before
     NO_MEMORY  0                 nothing is written   is closed

   `switchbr_try` and `switchbr_shown` leave a session as it was, whatever their status.
*/
#ifndef SWITCHBR_H
#define SWITCHBR_H
#include <stdbool.h>
#include <stddef.h>
#include <stdint.h>
#ifdef __cplusplus
extern "C" {
#endif

#define SWITCHBR_VERSION "0.1.0"
#define SWITCHBR_VERSION_NUMBER 0x000100 /* a byte each: major, minor, patch */
#define SWITCHBR_ABI 3
uint32_t switchbr_abi(void); /* another number than SWITCHBR_ABI: this header isn't the library's */

/* Up to 7 they are those of the program, whose faults of reading and writing (4, 5) don't come here. */
enum {
    SWITCHBR_OK = 0,
    SWITCHBR_DIFFERS = 1,
    SWITCHBR_USAGE = 2,
    SWITCHBR_BAD_LINE = 3,
    SWITCHBR_NO_MEMORY = 6,
    SWITCHBR_TOO_LONG = 7,
    SWITCHBR_NO_ROOM = 16,
    SWITCHBR_CLOSED = 17
};
typedef uint8_t switchbr_status;

/* In words, for a person. */
static inline const char *switchbr_strerror(switchbr_status status) {
    switch (status) {
    case SWITCHBR_OK: return "success";
    case SWITCHBR_DIFFERS: return "the transcript differs";
    case SWITCHBR_USAGE: return "another line, section or table is wanted";
    case SWITCHBR_BAD_LINE: return "a line is bad";
    case SWITCHBR_NO_MEMORY: return "out of memory";
    case SWITCHBR_TOO_LONG: return "the input is too long";
    case SWITCHBR_NO_ROOM: return "the buffer has no room";
    case SWITCHBR_CLOSED: return "the session is closed or at its end";
    default: return "no status of this library";
    }
}

/* These give the text that the program writes: the transcript of a scenario (`replay`), the table of lines of messages (`follow`), a
   scenario of so many frames (`gen`). `out` has `room` bytes. OK, BAD_LINE, NO_ROOM: the same call with *len bytes of room gives the text.
   TOO_LONG: more than 2^28 bytes are to be read, or more than 100,000 frames to be made. NO_MEMORY. */
switchbr_status switchbr_replay(const uint8_t *scenario, size_t size, uint8_t *out, size_t room, size_t *len);
switchbr_status switchbr_follow(const uint8_t *messages, size_t size, uint8_t *out, size_t room, size_t *len);
switchbr_status switchbr_generate(uint64_t number, uint32_t count, uint8_t *out, size_t room, size_t *len);

/* The tables that can be shown: address entries, members of VLANs, members of groups. */
enum { SWITCHBR_FDB = 0, SWITCHBR_VLAN = 1, SWITCHBR_MDB = 2 };

/* A table at the end of a scenario (`show fdb`, `show vlan`, `show mdb`). As above, but that of a bad scenario the text is `bad N WHY` alone;
   and USAGE: there is no table of this number. */
switchbr_status switchbr_show(uint8_t table, const uint8_t *scenario, size_t size, uint8_t *out, size_t room, size_t *len);

/* Whether a transcript, of this program or of another, is what the scenario tells; its lines `post ID at POINT` are read.
   OK: it is. DIFFERS: it isn't, first in its line *line, counted from 1. BAD_LINE: line *line of the scenario is bad.
   TOO_LONG: the scenario has more than 2^28 bytes, or the transcript has 2^28 or more. NO_MEMORY.
   *line is 0, but for DIFFERS and BAD_LINE. */
switchbr_status switchbr_check(const uint8_t *scenario, size_t size, const uint8_t *transcript, size_t transcript_size, uint32_t *line);

/* A session takes a scenario line by line, and gives after each the lines of the transcript that it tells. Once the scenario has ended, all
   that it has given together is what `replay` gives of the same lines. It is yours: make it of zeroes, open it, lend it to one call at a time,
   end it, neither copy it nor write to it. Use it in the thread that has opened it: the proof is of a session that stays there, and nothing is
   promised of another. */
typedef struct {
    void *at;
    bool is_open;
} switchbr_session;
#define SWITCHBR_SESSION_INIT {0, false}

/* Opens a session, before the first line of a scenario; one that was open there is ended first. OK, or NO_MEMORY: then it isn't open. */
switchbr_status switchbr_open(switchbr_session *session);

/* These give a session its next line, without the line feed, or behind a line `capture LENGTH` the whole section; `text` gives it nothing.
   The text is all that is told of what was taken and wasn't given before; before the first line that is `transcript 1`. Of the line `end`
   it is the last line; then only `text` and `end` remain.
   NO_ROOM: `text` with *len bytes of room gives what was told.
   USAGE: the line has a line feed, or a section is wanted; no section is wanted, or one of another length.
   TOO_LONG: with it more than 2^28 bytes would be taken.
   CLOSED: the session isn't open, or, but for `text`, its scenario has ended. */
switchbr_status switchbr_line(switchbr_session *session, const uint8_t *line, size_t size, uint8_t *out, size_t room, size_t *len);
switchbr_status switchbr_section(switchbr_session *session, const uint8_t *section, size_t size, uint8_t *out, size_t room, size_t *len);
switchbr_status switchbr_text(switchbr_session *session, uint8_t *out, size_t room, size_t *len);

/* Tells what would become of a session's next line, which isn't taken: the session is as before, whatever the status.
   OK: the line would be taken; *len is 0. BAD_LINE: the scenario would end; the text is `bad N WHY`, and no transcript.
   NO_ROOM: the same call with *len bytes of room gives the text. NO_MEMORY. USAGE, TOO_LONG, CLOSED: as `line` would answer. */
switchbr_status switchbr_try(switchbr_session *session, const uint8_t *line, size_t size, uint8_t *out, size_t room, size_t *len);

/* A table of all that was taken, wherever the scenario stands: as `switchbr_show` would give it were the line `end` next. The session is as
   before, whatever the status. OK. NO_ROOM: the same call with *len bytes of room gives the text. NO_MEMORY. USAGE: there is no table of this
   number. CLOSED: the session isn't open. */
switchbr_status switchbr_shown(switchbr_session *session, uint8_t table, uint8_t *out, size_t room, size_t *len);

/* Ends a session, wherever it stands, and frees it. OK, or CLOSED: it wasn't open. */
switchbr_status switchbr_end(switchbr_session *session);

#ifdef __cplusplus
}
#endif
#endif
