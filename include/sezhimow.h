/* Sezhimow: the upstream scheduler of an XG-PON optical line terminal, as a library (ITU-T G.987.3).
 *
 * A port makes the bandwidth map of each upstream frame of 125 us: the guaranteed rates of its Alloc-IDs, then the surplus
 * shared as fairly as any assignment can, in whole words, in bursts that do not overlap. Each function below is proved
 * against a contract in crates/pon_c/src; the text here says the same in words. docs/INTEGRATE.md shows how to use it.
 *
 * HANDLES. A `sez_port` is a handle: all bytes 0 (`{0}`) is a closed one. sez_open opens it, sez_close closes it, and only
 * the library writes to its fields. A call on a closed handle returns SEZ_CLOSED and changes nothing. An open handle owns
 * the memory of its port, until it is closed. The bytes of an open handle must not be copied to a second handle that is
 * used too; to move a handle is to copy its bytes and to use the old one no more.
 *
 * RETURN VALUES. 0 (SEZ_DONE): the call did what it is for. 1 to 21: a refusal, the E01 to E21 of `olt plan`. From 32 on:
 * an argument, or the handle, does not fit. After anything but 0 the port is exactly as it was, unless a function says
 * otherwise. If several reasons apply, the first in the order that the function gives is returned. SEZ_OUT_OF_MEMORY is
 * returned if malloc or realloc returned NULL in this call and it cannot do without; the call may be repeated. Only sez_audit
 * and sez_resume may do without: if a block for all items of a list is refused, they ask for a smaller one, which grows, and
 * if an audit is refused memory they audit once more.
 * That SEZ_OUT_OF_MEMORY is returned for no other reason is tested, not proved.
 *
 * THREADS. Ports share nothing. Different handles may be used by different threads at the same time, with no lock. One
 * handle is used by one call at a time: another thread may use it after a lock, the start or join of a thread, or a
 * sequentially consistent atomic. No function blocks, sleeps, starts a thread, reads a clock or sets errno.
 *
 * MEMORY. The library calls malloc, realloc and free, or what a program gives in their place (docs/INTEGRATE.md). What a
 * caller passes by pointer stays the caller's, is used only during the call, and is never freed.
 *
 * MISUSE THAT NO FUNCTION CAN SEE is undefined: a null pointer, also for a room of 0 bytes; a pointer to less memory than
 * its size says; pointers of one call that overlap; a handle that was not closed by `{0}` or by the library, or whose
 * bytes were changed or copied; two calls at a time on one handle; a call from a signal handler, or in the forked child
 * of a process with threads.
 *
 * UNITS. Rates are in kbit/s, words are of 4 bytes, a frame is 125 us. Numbers in bytes are most significant byte first. */
#ifndef SEZHIMOW_H
#define SEZHIMOW_H

#include <stdbool.h>
#include <stddef.h>
#include <stdint.h>

#ifdef __cplusplus
extern "C" {
#endif

/* The version of this interface: a program and a library with the same number fit each other (sez_abi). */
#define SEZ_ABI 0u

/* The version of this header and of its library, 0.3.0: 65,536 for each step of the first number, 256 of the second and 1 of
 * the third (sez_version). */
#define SEZ_VERSION 768u

/* Done. */
#define SEZ_DONE 0u

/* The refusals. Each has the number of its code in `olt plan` (E01 to E21). */
#define SEZ_NO_SUCH_ALLOC 1u         /* the Alloc-ID is not admitted */
#define SEZ_ALLOC_TAKEN 2u           /* the Alloc-ID is admitted already */
#define SEZ_ALLOC_RANGE 3u           /* the Alloc-ID is outside 1024 to 16383 */
#define SEZ_ONU_RANGE 4u             /* the ONU-ID is above 1022 */
#define SEZ_RATE_RANGE 5u            /* a rate is above 2,488,320 kbit/s */
#define SEZ_MAX_BELOW_GUARANTEED 6u  /* the maximum is below fixed and assured rate together */
#define SEZ_NEEDS_GUARANTEE 7u       /* the non-assured class needs a fixed or an assured rate */
#define SEZ_NO_SURPLUS_ROOM 8u       /* a class that shares surplus needs a maximum above fixed and assured rate */
#define SEZ_TOO_MANY_ALLOCS 9u       /* the port has 512 Alloc-IDs */
#define SEZ_TOO_MANY_ONUS 10u        /* the port has 128 ONUs */
#define SEZ_SERIES_FULL 11u          /* the ONU has 16 Alloc-IDs */
#define SEZ_CAPACITY 12u             /* the guaranteed rates and the overhead would not fit the line */
#define SEZ_STALE_FRAME 13u          /* the frame of the report is in no map of the window */
#define SEZ_NOT_POLLED 14u           /* the map of that frame did not poll the ONU */
#define SEZ_REPORT_COUNT 15u         /* the ONU had another number of structures in that map */
#define SEZ_ALREADY_REPORTED 16u     /* the ONU has reported for that frame */
#define SEZ_PORT_DOWN 17u            /* the line is failed: sez_restore it first */
#define SEZ_PORT_UP 18u              /* the line is not failed */
#define SEZ_FRAME_LIMIT 19u          /* no frame number is left */
#define SEZ_CHAPTER_FULL 20u         /* the port keeps 65,536 entries: sez_turn it */
#define SEZ_OUT_OF_MEMORY 21u        /* memory was refused */

/* What does not fit. */
#define SEZ_CLOSED 32u               /* the handle is closed */
#define SEZ_IS_OPEN 33u              /* the handle that the call opens is open already */
#define SEZ_BAD_GAP 34u              /* the gap is outside 1 to 256 words */
#define SEZ_BAD_PROFILE 35u          /* the burst profile is above 3 */
#define SEZ_BAD_CLASS 36u            /* the class is above 2 */
#define SEZ_BAD_CAUSE 37u            /* the cause is outside 1 to 9 */
#define SEZ_BAD_COUNT 38u            /* more than 16 occupancies */
#define SEZ_BAD_OCCUPANCY 39u        /* an occupancy is above 16,777,215, and is not SEZ_GARBLED */
#define SEZ_BAD_PORT 40u             /* the number of the port is above 63 */
#define SEZ_NO_ROOM 41u              /* the room is too small */
#define SEZ_NO_MAP 42u               /* no map was made in the kept chapter */
#define SEZ_NO_ROW 43u               /* there is no Alloc-ID at this place */
#define SEZ_SHORT 44u                /* there are fewer bytes than are needed */
#define SEZ_BAD_CODE 45u             /* a word is more than two bits away from every codeword */
#define SEZ_BAD_HEADER 46u           /* a field of a header is out of its range */
#define SEZ_BAD_REPORT 47u           /* the check byte of a report is wrong */
#define SEZ_TOO_MANY 48u             /* a map has more than 512 structures */
#define SEZ_SERIES_START 49u         /* the first structure of a map has no start */
#define SEZ_START_RANGE 50u          /* a structure starts beyond the frame */
#define SEZ_SERIES_LONG 51u          /* a burst has more than 16 structures */
#define SEZ_BAD_PROBLEM 52u          /* more than 512 items, or a weight, a cap or the surplus out of its range */
#define SEZ_BAD_LEVEL 53u            /* the level is no SEZ_LEVEL_ALL, and no fraction with a denominator above 0 */
#define SEZ_CERT_LENGTH 54u          /* a certificate has another number of flags than items */
#define SEZ_CERT_DENOMINATOR 55u     /* the denominator is not the weight of the unsaturated items */
#define SEZ_CERT_SATURATED 56u       /* an item is saturated, and its cap is above its share */
#define SEZ_CERT_UNSATURATED 57u     /* an item is not saturated, and its cap is at most its share */
#define SEZ_CERT_NOT_EXHAUSTED 58u   /* the rates are less than the surplus, and the level is a fraction */
#define SEZ_CERT_OVERSPENT 59u       /* the rates are more than the surplus */
#define SEZ_NOT_GOOD 60u             /* the recording is not good: the verdict says why */
#define SEZ_NO_CHAPTER 61u           /* no chapter of the recording is of the port */
#define SEZ_BAD_STATE 62u            /* no port of this version goes on from the end of the recording */

/* The classes by which an Alloc-ID shares surplus. */
#define SEZ_CLASS_NONE 0u
#define SEZ_CLASS_NON_ASSURED 1u
#define SEZ_CLASS_BEST_EFFORT 2u

/* In place of an occupancy: the report was garbled. */
#define SEZ_GARBLED UINT32_MAX

/* In place of the first word of a burst: the structure continues the burst before it. */
#define SEZ_NO_START UINT16_MAX

/* The levels of a class, in sez_why_info. */
#define SEZ_LEVEL_NONE 0u     /* the class shares no surplus */
#define SEZ_LEVEL_ALL 1u      /* each Alloc-ID of the class gets its cap */
#define SEZ_LEVEL_FRACTION 2u /* level_num / level_den kbit/s for each unit of weight */

/* The verdicts on a recording, in sez_verdict_info. */
#define SEZ_GOOD 0u
#define SEZ_BAD 1u
#define SEZ_MALFORMED 2u
#define SEZ_TRUNCATED 3u

/* Why a recording is bad, in sez_verdict_info. */
#define SEZ_WHY_OPENING 1u     /* the chapter does not open lawfully */
#define SEZ_WHY_CHAIN 2u       /* it does not open with the end of the one before it */
#define SEZ_WHY_NUMBER 3u      /* its number does not ascend */
#define SEZ_WHY_EVENT 4u       /* a check refuses the event */
#define SEZ_WHY_CERTIFICATE 5u /* the certificate of a map is not that of its state */
#define SEZ_WHY_WORDS 6u       /* a grant is not what its certificate gives */
#define SEZ_WHY_BURSTS 7u      /* the map differs in another way */

/* The greatest number of bytes of a map: the room that sez_map needs. */
#define SEZ_MAP_ROOM 4100u

/* The greatest number of grants of a map: the places that sez_map_grants needs. */
#define SEZ_MAX_GRANTS 512u

/* The greatest number of occupancies of a report. */
#define SEZ_MAX_REPORTS 16u

/* The initializer of a closed handle. `{0}` is the same. */
#define SEZ_CLOSED_HANDLE { NULL, false }

/* The bytes of a recording before its first chapter. */
#define SEZ_MAGIC_BYTES 8u

/* A port: closed if all bytes are 0. */
typedef struct sez_port {
    void *owned;
    bool is_open;
} sez_port;

/* A chapter that a port has returned: closed if all bytes are 0. */
typedef struct sez_chapter {
    void *owned;
    bool is_open;
} sez_chapter;

/* A map that was made: its frame, and the number of its bytes, 4 and 8 for each Alloc-ID. */
typedef struct sez_map_info {
    uint64_t frame;
    size_t size;
} sez_map_info;

/* The grant of a map to an Alloc-ID. */
typedef struct sez_grant_info {
    uint16_t alloc_id; /* 1024 to 16383 */
    uint16_t start;    /* the first word of the burst, or SEZ_NO_START if the grant continues the burst before it */
    uint16_t words;    /* the granted words, that of the report included */
} sez_grant_info;

/* A map that was made: its frame, and the number of its grants, one for each Alloc-ID. */
typedef struct sez_grants_info {
    uint64_t frame;
    size_t count;
} sez_grants_info;

/* The levels of the certificate of a map: of the non-assured class (na) and of best effort (be). */
typedef struct sez_levels_info {
    uint64_t na_num; /* the level is na_num / na_den, both 0 unless it is a fraction */
    uint64_t na_den;
    uint64_t be_num; /* the level is be_num / be_den, both 0 unless it is a fraction */
    uint64_t be_den;
    size_t na_count; /* the Alloc-IDs of the class at the map, 0 to 512 */
    size_t be_count;
    uint8_t na_level; /* SEZ_LEVEL_ALL or SEZ_LEVEL_FRACTION */
    uint8_t be_level;
} sez_levels_info;

/* An item of a class problem: weight 1 to 2,488,320, cap 0 to 2,488,320 kbit/s. */
typedef struct sez_item_info {
    uint64_t weight;
    uint64_t cap;
} sez_item_info;

/* What is shown of a port. */
typedef struct sez_state_info {
    uint64_t next_frame; /* the frame of the next map */
    uint64_t chapter;    /* the number of the kept chapter, from 0 */
    uint64_t taken;      /* the events taken since the port was opened */
    size_t kept;         /* the events of the kept chapter, 0 to 65,536 */
    size_t alloc_ids;    /* the admitted Alloc-IDs, 0 to 512 */
    size_t onus;         /* the ONUs that own one of them, 0 to 128 */
    uint64_t guaranteed; /* the sum of the fixed and assured rates, in kbit/s */
    uint64_t capacity;   /* what the overhead leaves of the line, in kbit/s, 0 to 2,488,320 */
    uint8_t cause;       /* the cause of the failure, 1 to 9, or 0 if the line is up */
} sez_state_info;

/* What is shown of an admitted Alloc-ID. */
typedef struct sez_row_info {
    uint64_t fixed;        /* in kbit/s */
    uint64_t assured;      /* in kbit/s */
    uint64_t max;          /* in kbit/s */
    uint64_t load;         /* the offered load: 256 kbit/s for each reported word that was not granted since */
    uint64_t report_frame; /* the frame of the report that counts, 0 if none does */
    uint32_t report_words; /* its words that were not granted since, 0 to 16,777,215 */
    uint16_t onu;          /* 0 to 1022 */
    uint16_t alloc_id;     /* 1024 to 16383 */
    uint8_t class_;        /* SEZ_CLASS_.. */
    uint8_t carry;         /* what the last map left, in kbit/s, 0 to 255 */
    bool has_report;       /* whether a report counts */
} sez_row_info;

/* What the last map gives an Alloc-ID, with each number that it follows from. Rates are in kbit/s. */
typedef struct sez_why_info {
    uint64_t frame;        /* the frame of the map */
    uint64_t fixed;        /* at the map */
    uint64_t assured;      /* at the map */
    uint64_t max;          /* at the map */
    uint64_t load;         /* the offered load */
    uint64_t guaranteed;   /* the guaranteed rate */
    uint64_t weight;       /* the weight in its class */
    uint64_t cap;          /* the most surplus that the load can use */
    uint64_t surplus_num;  /* the surplus rate is surplus_num / surplus_den */
    uint64_t surplus_den;  /* above 0 */
    uint64_t owed;         /* the carry, the guaranteed rate and the whole kbit/s of the surplus rate */
    uint64_t level_num;    /* the level of the class, 0 unless it is a fraction */
    uint64_t level_den;    /* 0 unless it is a fraction */
    uint64_t report_frame; /* the frame of the report that counted, 0 if none did */
    uint32_t report_words; /* its words that were not granted by then */
    uint16_t onu;          /* 0 to 1022 */
    uint16_t alloc_id;     /* 1024 to 16383 */
    uint16_t start;        /* the first word of the burst, or SEZ_NO_START */
    uint16_t grant;        /* the granted words, that of the report included */
    uint8_t class_;        /* SEZ_CLASS_.. */
    uint8_t level;         /* SEZ_LEVEL_.. */
    uint8_t carry;         /* what the map before left, 0 to 255 */
    bool has_report;       /* whether a report counted */
} sez_why_info;

/* The verdict on a recording. */
typedef struct sez_verdict_info {
    uint64_t maps;    /* the maps of a good recording, otherwise 0 */
    uint64_t chapter; /* the number of the chapter that fails, if bad */
    size_t place;     /* the index of the entry that fails, if bad; the place of the chapter in the bytes, if malformed
                         or cut short */
    uint8_t verdict;  /* SEZ_GOOD, SEZ_BAD, SEZ_MALFORMED, SEZ_TRUNCATED */
    uint8_t port;     /* the port of the chapter that fails, if bad */
    uint8_t why;      /* SEZ_WHY_.., if bad */
} sez_verdict_info;

/* The header of an upstream burst. */
typedef struct sez_header_info {
    uint16_t onu;         /* 0 to 1023 */
    uint16_t indications; /* 0 to 511 */
    uint8_t corrected;    /* the corrected bits, 0 to 2 */
} sez_header_info;

/* The head of a map. */
typedef struct sez_map_head_info {
    uint16_t structures; /* the structures that follow it, 0 to 2047 */
    uint8_t messages;    /* the messages after them, 0 to 255 */
    uint8_t corrected;   /* the corrected bits, 0 to 2 */
} sez_map_head_info;

/* An allocation structure of a map. */
typedef struct sez_structure_info {
    uint16_t alloc_id; /* 0 to 16383 */
    uint16_t start;    /* the first word of the burst, or SEZ_NO_START */
    uint16_t grant;    /* the granted words, that of a report included */
    uint8_t profile;   /* the burst profile, 0 to 3 */
    bool dbru;         /* whether a report is asked for */
    bool ploam;        /* whether a message is asked for */
    bool fwi;          /* whether a forced wake-up is indicated */
} sez_structure_info;

/* What was decoded of a map. */
typedef struct sez_decoded_info {
    size_t count;       /* the number of structures; after a fault of a structure its place, from 0 */
    size_t size;        /* the bytes that the map uses */
    uint32_t corrected; /* the corrected bits */
} sez_decoded_info;

/* Returns the version of the library, as SEZ_VERSION. May be called at any time by any thread. */
uint32_t sez_version(void);

/* Returns the version of the interface of the library, as SEZ_ABI. May be called at any time by any thread. */
uint32_t sez_abi(void);

/* Opens a port in a closed handle: no Alloc-ID, the line up, `first` as its next frame. `gap` is the gap before each burst
 * in words, 1 to 256; `profile` the burst profile, 0 to 3.
 * Returns SEZ_DONE, or the first of SEZ_IS_OPEN, SEZ_BAD_GAP, SEZ_BAD_PROFILE, SEZ_OUT_OF_MEMORY; then the handle is
 * unchanged. */
uint32_t sez_open(sez_port *port, uint16_t gap, uint8_t profile, uint64_t first);

/* Closes a handle, and frees all memory of its port. Returns SEZ_DONE, or SEZ_CLOSED if it was closed. */
uint32_t sez_close(sez_port *port);

/* Admits an Alloc-ID to an ONU: each later map has it. Rates are in kbit/s, 0 to 2,488,320.
 * Returns SEZ_DONE, or the first of SEZ_ALLOC_RANGE, SEZ_ONU_RANGE, SEZ_BAD_CLASS, SEZ_RATE_RANGE,
 * SEZ_MAX_BELOW_GUARANTEED, SEZ_NEEDS_GUARANTEE, SEZ_NO_SURPLUS_ROOM, SEZ_CLOSED, SEZ_ALLOC_TAKEN, SEZ_TOO_MANY_ALLOCS,
 * SEZ_TOO_MANY_ONUS, SEZ_SERIES_FULL, SEZ_CAPACITY, SEZ_CHAPTER_FULL, SEZ_OUT_OF_MEMORY. */
uint32_t sez_admit(sez_port *port, uint16_t onu, uint16_t alloc_id, uint64_t fixed, uint64_t assured, uint64_t max,
                   uint8_t class_);

/* Changes the rates and the class of an admitted Alloc-ID from the next map on.
 * Returns SEZ_DONE, or the first of SEZ_ALLOC_RANGE, SEZ_BAD_CLASS, SEZ_RATE_RANGE, SEZ_MAX_BELOW_GUARANTEED,
 * SEZ_NEEDS_GUARANTEE, SEZ_NO_SURPLUS_ROOM, SEZ_CLOSED, SEZ_NO_SUCH_ALLOC, SEZ_CAPACITY, SEZ_CHAPTER_FULL,
 * SEZ_OUT_OF_MEMORY. */
uint32_t sez_change(sez_port *port, uint16_t alloc_id, uint64_t fixed, uint64_t assured, uint64_t max, uint8_t class_);

/* Removes an admitted Alloc-ID: no later map has it.
 * Returns SEZ_DONE, or the first of SEZ_ALLOC_RANGE, SEZ_CLOSED, SEZ_NO_SUCH_ALLOC, SEZ_CHAPTER_FULL,
 * SEZ_OUT_OF_MEMORY. */
uint32_t sez_remove(sez_port *port, uint16_t alloc_id);

/* Takes the report of an ONU for the map of a frame, one of the last 64: an occupancy in words for each of its structures
 * in that map, in order, 0 to 16,777,215, or SEZ_GARBLED. `count` is their number.
 * Returns SEZ_DONE, or the first of SEZ_ONU_RANGE, SEZ_BAD_COUNT, SEZ_BAD_OCCUPANCY, SEZ_CLOSED, SEZ_PORT_DOWN,
 * SEZ_STALE_FRAME, SEZ_NOT_POLLED, SEZ_REPORT_COUNT, SEZ_ALREADY_REPORTED, SEZ_CHAPTER_FULL, SEZ_OUT_OF_MEMORY. */
uint32_t sez_report(sez_port *port, uint64_t frame, uint16_t onu, const uint32_t *words, size_t count);

/* Fails the line for a cause: 1 operator, 2 read, 3 write, 4 bad record, 5 end of input, 6 to 9 free for the caller. The
 * window of maps is emptied, and reports that count are forgotten.
 * Returns SEZ_DONE, or the first of SEZ_BAD_CAUSE, SEZ_CLOSED, SEZ_PORT_DOWN, SEZ_CHAPTER_FULL, SEZ_OUT_OF_MEMORY. */
uint32_t sez_fail(sez_port *port, uint8_t cause);

/* Restores a failed line.
 * Returns SEZ_DONE, or the first of SEZ_CLOSED, SEZ_PORT_UP, SEZ_CHAPTER_FULL, SEZ_OUT_OF_MEMORY. */
uint32_t sez_restore(sez_port *port);

/* Makes the map of the next frame, and writes its bytes, as on the line, to the front of the room. The rest of the room is
 * unchanged. `room_size` must be at least SEZ_MAP_ROOM, whatever the map needs.
 * Returns SEZ_DONE, or the first of SEZ_NO_ROOM, SEZ_CLOSED, SEZ_PORT_DOWN, SEZ_FRAME_LIMIT, SEZ_CHAPTER_FULL,
 * SEZ_OUT_OF_MEMORY; then the room is unchanged too. */
uint32_t sez_map(sez_port *port, uint8_t *room, size_t room_size, sez_map_info *map);

/* Writes the certificate of the last map of the kept chapter to the front of the room, and the number of its bytes to
 * `size`. The port is unchanged.
 * Returns SEZ_DONE, or SEZ_CLOSED, SEZ_NO_MAP, SEZ_OUT_OF_MEMORY, or SEZ_NO_ROOM: then `size` is the number of bytes that
 * the room must have. */
uint32_t sez_certificate(sez_port *port, uint8_t *room, size_t room_size, size_t *size);

/* Makes the map of the next frame, as sez_map does, and writes its grants in place of its bytes to the front of `grants`, for
 * hardware that writes the words of a map with their code itself. Each grant asks for a report and for no message, has the
 * burst profile of the port, and indicates no wake-up. `count` must be at least SEZ_MAX_GRANTS, whatever the map needs.
 * Returns SEZ_DONE, or the first of SEZ_NO_ROOM, SEZ_CLOSED, SEZ_PORT_DOWN, SEZ_FRAME_LIMIT, SEZ_CHAPTER_FULL,
 * SEZ_OUT_OF_MEMORY; then the grants are unchanged too. */
uint32_t sez_map_grants(sez_port *port, sez_grant_info *grants, size_t count, sez_grants_info *info);

/* Shows the certificate of the last map in its parts: the levels, and for each Alloc-ID of the non-assured class (`na`) and of
 * best effort (`be`) as they were at that map, in map order, whether it gets its cap. The port is unchanged.
 * Returns SEZ_DONE, or SEZ_CLOSED, SEZ_NO_MAP, or SEZ_NO_ROOM for fewer flags than Alloc-IDs, whose numbers are then in
 * `levels`, and the flags unchanged. */
uint32_t sez_levels(sez_port *port, bool *na, size_t na_size, bool *be, size_t be_size, sez_levels_info *levels);

/* Checks the certificate of a class, as `olt check` does: whether the level, and for each item whether it gets its cap, are
 * the fairest sharing of the surplus in kbit/s, 0 to 2,488,320. `level` is SEZ_LEVEL_ALL, or SEZ_LEVEL_FRACTION for num / den.
 * Returns SEZ_DONE if they are. Otherwise SEZ_OUT_OF_MEMORY, or the first of SEZ_BAD_PROBLEM, SEZ_BAD_LEVEL,
 * SEZ_CERT_LENGTH, SEZ_CERT_DENOMINATOR, then for the items in order SEZ_CERT_SATURATED or SEZ_CERT_UNSATURATED, with the
 * index in `place`, and SEZ_CERT_NOT_EXHAUSTED or SEZ_CERT_OVERSPENT. */
uint32_t sez_check_class(const sez_item_info *items, size_t item_count, uint64_t surplus, uint8_t level, uint64_t num,
                         uint64_t den, const bool *saturated, size_t flag_count, size_t *place);

/* Shows a port. The port is unchanged. Returns SEZ_DONE, or SEZ_CLOSED. */
uint32_t sez_state(sez_port *port, sez_state_info *state);

/* Shows the admitted Alloc-ID at a place, from 0: by ascending ONU-ID, and by ascending Alloc-ID of each ONU. The port is
 * unchanged. Returns SEZ_DONE, or the first of SEZ_CLOSED and SEZ_NO_ROW. */
uint32_t sez_row(sez_port *port, size_t place, sez_row_info *row);

/* Shows an admitted Alloc-ID. The port is unchanged.
 * Returns SEZ_DONE, or the first of SEZ_ALLOC_RANGE, SEZ_CLOSED, SEZ_NO_SUCH_ALLOC. */
uint32_t sez_find(sez_port *port, uint16_t alloc_id, sez_row_info *row);

/* Explains the last map of the kept chapter for an Alloc-ID that was admitted then. The port is unchanged. The chapter is
 * replayed up to that map: the time grows with it, so this is not for the path of a frame.
 * Returns SEZ_DONE, or SEZ_ALLOC_RANGE, SEZ_CLOSED, SEZ_NO_MAP, SEZ_NO_SUCH_ALLOC, or SEZ_OUT_OF_MEMORY. */
uint32_t sez_why(sez_port *port, uint16_t alloc_id, sez_why_info *why);

/* Turns a port: the events that it keeps go into the closed handle `chapter`, and it goes on in the same state with a new
 * chapter. No event is copied. At the latest when a call returns SEZ_CHAPTER_FULL; earlier to keep memory small.
 * Returns SEZ_DONE, or the first of SEZ_IS_OPEN for `chapter`, SEZ_CLOSED for `port`, SEZ_OUT_OF_MEMORY, and
 * SEZ_CHAPTER_FULL once 2^64 - 1 chapters are turned; then neither handle has changed. */
uint32_t sez_turn(sez_port *port, sez_chapter *chapter);

/* Writes a recording of a chapter, as one of the port with the number `number`, 0 to 63, to the front of the room, and the
 * number of its bytes to `size`. `olt audit` judges these bytes. A file of several chapters has the first recording whole,
 * and the later ones without their first SEZ_MAGIC_BYTES bytes. The chapter is unchanged, and may be written again. While
 * the call runs it needs memory for the bytes a second time.
 * Returns SEZ_DONE, or SEZ_BAD_PORT, SEZ_CLOSED, SEZ_OUT_OF_MEMORY, or SEZ_NO_ROOM: then `size` is the number of bytes
 * that the room must have. */
uint32_t sez_chapter_bytes(sez_chapter *chapter, uint8_t number, uint8_t *room, size_t room_size, size_t *size);

/* Closes the handle of a chapter, and frees the chapter. Returns SEZ_DONE, or SEZ_CLOSED if it was closed. */
uint32_t sez_chapter_close(sez_chapter *chapter);

/* Audits a recording of any ports, as `olt audit` does: whether each chapter is lawful, goes on where the one before it in
 * its port ended, and has fair maps; or else the first fault. On the thread of the caller.
 * Returns SEZ_DONE, whatever the verdict is, or SEZ_OUT_OF_MEMORY. */
uint32_t sez_audit(const uint8_t *bytes, size_t size, sez_verdict_info *verdict);

/* Opens a port in a closed handle that goes on where a recording ends: audits the recording as sez_audit does, and if it is
 * good goes on from the end of the last chapter of the port `number`, 0 to 63. Its Alloc-IDs, its next frame, the reports
 * that count and the window of maps are those of that end; its first chapter has the next number and no events, so that the
 * recording and its later chapters are good together. The recording may have chapters of other ports. It is read twice.
 * Returns SEZ_DONE, or the first of SEZ_IS_OPEN, SEZ_BAD_PORT, SEZ_NOT_GOOD unless the verdict is SEZ_GOOD, SEZ_NO_CHAPTER,
 * SEZ_CHAPTER_FULL if the last chapter has the number 2^64 - 1, SEZ_BAD_STATE for an end that no port of this version has
 * (the chapter is of a recording of version one, or migrated from one; or the window has a map of more than 128 ONUs), or
 * SEZ_OUT_OF_MEMORY; then the handle is unchanged. `verdict` is filled in, except after SEZ_IS_OPEN,
 * SEZ_BAD_PORT and SEZ_OUT_OF_MEMORY. */
uint32_t sez_resume(sez_port *port, const uint8_t *bytes, size_t size, uint8_t number, sez_verdict_info *verdict);

/* Writes the header of an upstream burst, 4 bytes with their code, to the front of the room: an ONU-ID of 0 to 1023, and
 * indications of 0 to 511. Returns SEZ_DONE, or the first of SEZ_BAD_HEADER and SEZ_NO_ROOM. */
uint32_t sez_header_seal(uint16_t onu, uint16_t indications, uint8_t *room, size_t room_size);

/* Reads the header at the front of a burst, and corrects up to two bits. Later bytes are not read.
 * Returns SEZ_DONE, or SEZ_SHORT for fewer than 4 bytes, or SEZ_BAD_CODE. */
uint32_t sez_header_open(const uint8_t *bytes, size_t size, sez_header_info *header);

/* Writes the head of a downstream map (HLend), 4 bytes with their code, to the front of the room: the number of structures
 * that follow it, 0 to 2047, and of messages after them. Returns SEZ_DONE, or the first of SEZ_BAD_HEADER and SEZ_NO_ROOM. */
uint32_t sez_map_head_seal(uint16_t structures, uint8_t messages, uint8_t *room, size_t room_size);

/* Reads the head at the front of a map, and corrects up to two bits. Later bytes are not read; a map of more than 512
 * structures, which sez_map_decode refuses, has a head too.
 * Returns SEZ_DONE, or SEZ_SHORT for fewer than 4 bytes, or SEZ_BAD_CODE. */
uint32_t sez_map_head_open(const uint8_t *bytes, size_t size, sez_map_head_info *head);

/* Writes the report of an occupancy in words, 0 to 16,777,215, 4 bytes with their check byte, to the front of the room.
 * Returns SEZ_DONE, or the first of SEZ_BAD_OCCUPANCY and SEZ_NO_ROOM. */
uint32_t sez_report_seal(uint32_t words, uint8_t *room, size_t room_size);

/* Reads the report at the front of the bytes. Later bytes are not read.
 * Returns SEZ_DONE, or SEZ_SHORT for fewer than 4 bytes, or SEZ_BAD_REPORT. */
uint32_t sez_report_open(const uint8_t *bytes, size_t size, uint32_t *words);

/* Decodes the map at the front of the bytes, and corrects up to two bits of each of its words. Its structures go to the
 * front of `rows`, of which there are `row_count`. Messages in the map are skipped, later bytes are not read.
 * Returns SEZ_DONE, or the first of SEZ_SHORT, SEZ_BAD_CODE of the head, SEZ_TOO_MANY, SEZ_SHORT for fewer bytes than the
 * map uses, then for each structure in order SEZ_BAD_CODE, SEZ_SERIES_START, SEZ_START_RANGE, SEZ_SERIES_LONG, with its
 * place in `decoded->count`; then SEZ_OUT_OF_MEMORY, or SEZ_NO_ROOM, with the number of structures in `decoded->count`.
 * After anything but 0 the rows are unchanged. */
uint32_t sez_map_decode(const uint8_t *bytes, size_t size, sez_structure_info *rows, size_t row_count,
                        sez_decoded_info *decoded);

/* The sizes that the library was built for. */
#if defined(__cplusplus)
#define SEZ_SIZE_IS(type, bytes) static_assert(sizeof(type) == (bytes), "size of " #type)
#elif defined(__STDC_VERSION__) && __STDC_VERSION__ >= 201112L
#define SEZ_SIZE_IS(type, bytes) _Static_assert(sizeof(type) == (bytes), "size of " #type)
#else
#define SEZ_SIZE_IS(type, bytes) typedef char type##_has_its_size[sizeof(type) == (bytes) ? 1 : -1]
#endif

SEZ_SIZE_IS(size_t, 8);
SEZ_SIZE_IS(sez_port, 16);
SEZ_SIZE_IS(sez_chapter, 16);
SEZ_SIZE_IS(sez_map_info, 16);
SEZ_SIZE_IS(sez_grant_info, 6);
SEZ_SIZE_IS(sez_grants_info, 16);
SEZ_SIZE_IS(sez_levels_info, 56);
SEZ_SIZE_IS(sez_item_info, 16);
SEZ_SIZE_IS(sez_state_info, 72);
SEZ_SIZE_IS(sez_row_info, 56);
SEZ_SIZE_IS(sez_why_info, 128);
SEZ_SIZE_IS(sez_verdict_info, 32);
SEZ_SIZE_IS(sez_header_info, 6);
SEZ_SIZE_IS(sez_map_head_info, 4);
SEZ_SIZE_IS(sez_structure_info, 10);
SEZ_SIZE_IS(sez_decoded_info, 24);

#ifdef __cplusplus
}
#endif

#endif
