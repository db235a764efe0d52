/* hotsync.h: the readers, the texts, the merge and the handheld of hotsync for C, over libhotsync.a or libhotsync.so.
 *
 * Pure functions over bytes. Any thread may call them; nothing that is passed is kept, and nothing is to be freed. No
 * function reaches a file, a terminal or a clock; memory comes from malloc.
 *
 * A text or other bytes go into `room`, which has `n` bytes, as far as they fit, without a zero byte behind them. The
 * answer is how long they are, so that a call with too little room (n may be 0) says how much is wanted. An answer below
 * 0 says why there is nothing; the room is as it was then.
 *
 * What the caller owes: no pointer is null, also not where its length is 0; behind each pointer lie as many bytes as its
 * length says; results that are passed by a pointer have some value before the call; no two pieces of memory overlap
 * where one of them is written; no call from a signal handler; and a malloc that aligns blocks to 16 bytes. */
#ifndef HOTSYNC_H
#define HOTSYNC_H

#include <stddef.h>
#include <stdint.h>

#ifdef __cplusplus
extern "C" {
#endif

/* Answers below 0: each means the same in all calls. */
enum {
    HS_MEMORY = -1,    /* memory was refused */
    HS_FORM = -2,      /* the bytes are not of the form that is read: no database's file, or too many for a trace; or what
                          is asked is none of what can be */
    HS_ABSENT = -3,    /* hs_entry: the database has no such entry */
    HS_FULL = -4,      /* hs_merge: more than 65,535 records on the handheld, rows, base rows, or entries of the archive */
    HS_RESOURCES = -5, /* hs_merge, as the next four, which leave the database as it is: the handheld's holds resources */
    HS_READ_ONLY = -6, /* attribute 0x0002, on either side */
    HS_STREAM = -7,    /* attribute 0x0080, on either side */
    HS_DIFFERS = -8,   /* its type or its creator differs between the sides */
    HS_MISSING = -9,   /* the side that the action goes by lacks it, or the handheld lost what both had */
    HS_FILES = -10,    /* hs_device_new, hs_device_take: no handheld has such files */
    HS_NOTHING = -11,  /* hs_export: the database holds nothing of that form */
    HS_RECORD = -12,   /* hs_export: a record is out of its form */
    HS_LABELS = -13,   /* hs_import: more than 15 labels */
    HS_MEMOS = -14,    /* hs_import: more than 65,535 memos */
    HS_LINE = -100     /* hs_verify, hs_picture, hs_import: HS_LINE - N where line N, from 1 on, is the first that is out of its
                          form */
};

/* The sentence that says what an answer below 0 means; of length 0 where no call has that answer. */
int64_t hs_why(int64_t answer, uint8_t *room, size_t n);

/* The version that this header is of, and that of the library: 0x00MMmmpp for MAJOR.MINOR.PATCH. */
#define HS_VERSION 0x000900u
uint32_t hs_version(void);

/* ---- the file of one database (PDB or PRC) ---- */

/* The first rule that a file breaks: `kind` of hs_check, and what `place` is then. */
enum {
    HS_GOOD = 0,
    HS_SHORT = 1,  /* too few bytes for the header and the entries: how many there are */
    HS_NAME = 2,   /* the name is empty (0) or has no end (32) */
    HS_CHAINED = 3, /* a second list of entries: 72 */
    HS_OFFSET = 4, /* a block begins out of its place: its number */
    HS_LARGE = 5   /* a block has more than 65,500 bytes: its number */
};

/* How many entries the database has: records or resources. HS_FORM says `kind` and `place`, which are 0 else. */
int64_t hs_check(const uint8_t *file, size_t len, uint32_t *kind, uint64_t *place);

/* The lines of `hotsync show`: the head, the blocks, and a line for each entry. */
int64_t hs_show(const uint8_t *file, size_t len, uint8_t *room, size_t n);

/* The length of a block that isn't there. */
#define HS_NO_BLOCK UINT32_MAX

/* What the header says. Dates are seconds since 1904-01-01T00:00:00, a type has its first character in its highest byte. */
struct hs_head {
    uint32_t attributes; /* bit 0x0001: the entries are resources */
    uint32_t version;
    uint32_t created;
    uint32_t modified;
    uint32_t backup;
    uint32_t modnum;
    uint32_t seed;
    uint32_t type;
    uint32_t creator;
    uint32_t entries; /* how many there are */
    uint32_t name;    /* the length of the name */
    uint32_t app;     /* the length of the app block, or HS_NO_BLOCK */
    uint32_t sort;    /* the length of the sort block, or HS_NO_BLOCK */
};

/* The head; in the room the name, the app block and the sort block, one behind the other. An answer below 0 leaves `head`
   as it was. */
int64_t hs_head(const uint8_t *file, size_t len, struct hs_head *head, uint8_t *room, size_t n);

/* What stands in front of a record or a resource. */
struct hs_entry {
    uint32_t type;       /* of a resource; 0 for a record */
    uint32_t id;         /* the id of a record, the number of a resource */
    uint32_t attributes; /* of a record: 0x80 deleted, 0x40 dirty, 0x20 busy, 0x10 secret, and the category */
    uint32_t size;       /* how many bytes it has */
};

/* All entries: what stands in front of each, and in the room the bytes of all of them, one behind the other, as hs_build
   takes them. The answer is how many entries there are, and `size` says how many bytes: both rooms are written, or where one
   is too small neither, and the call is made again with more. An answer below 0 leaves `size` as it was. The file is read
   once. */
int64_t hs_entries(const uint8_t *file, size_t len, struct hs_entry *entries, size_t count, uint8_t *room, size_t n,
                   uint64_t *size);

/* The entry of this index, from 0 on; in the room its bytes. An answer below 0 leaves `entry` as it was. Each call reads
   the whole file: for all entries hs_entries is the one to call. */
int64_t hs_entry(const uint8_t *file, size_t len, uint32_t index, struct hs_entry *entry, uint8_t *room, size_t n);

/* The file of a database of these parts: `bytes` are the name, the app block, the sort block and the bytes of all entries,
   one behind the other, as hs_head and hs_entries put them into a room; `head->entries` is not looked at. HS_FORM where there
   is no database of them: a number or a name that has no place in a file, an entry of more than 65,500 bytes, or more or
   fewer bytes than the parts have. */
int64_t hs_build(const struct hs_head *head, const struct hs_entry *entries, size_t count, const uint8_t *bytes,
                 size_t len, uint8_t *room, size_t n);

/* What the file of a database of this name is called, without its ending: letters, digits, '_' and '-' stand for themselves,
   each other byte is '%' with two hexadecimal digits. HS_FORM for bytes that are no name. */
int64_t hs_name(const uint8_t *name, size_t len, uint8_t *room, size_t n);

/* ---- what records mean ---- */

/* The form of a text, in UTF-8. */
enum {
    HS_TXT = 0, /* memos, as plain text */
    HS_VCF = 1, /* addresses, as vCards */
    HS_CSV = 2, /* addresses or tasks, as a table */
    HS_ICS = 3  /* tasks or dates, as an iCalendar object */
};

/* Flags, to be added. */
enum {
    HS_WITHOUT_PRIVATE = 1, /* private records are left out */
    HS_KEEP_BROKEN = 2      /* a record that is out of its form stands in the text with its bytes, and refuses nothing */
};

/* A record that is out of its form. */
struct hs_bad_record {
    uint64_t index; /* among all records of the database, from 0 on */
    uint64_t place; /* the first byte of it, from 0 on, that is out of the form */
};

/* The text of a database in a form, as `hotsync export` prints it; `made`, in seconds since 1904, is when a calendar is made,
   and is not looked at for other forms. HS_NOTHING where the database holds nothing of the form; HS_RECORD says in `told`
   which exported record is the first that is out of its form, and `told` is as it was in all other cases. HS_FORM also where
   `form` is none of the four, or `flags` has others than these two. */
int64_t hs_export(const uint8_t *file, size_t len, uint32_t form, uint32_t made, uint32_t flags, uint8_t *room, size_t n,
                  struct hs_bad_record *told);

/* The file of the database of memos that a text makes, as `hotsync import --as=txt` writes it. HS_LINE - N where line N, from
   1 on, is the first that is out of its form (any line behind 4,294,967,295 is told as that one), HS_LABELS for more than 15
   labels, HS_MEMOS for more than 65,535 memos. */
int64_t hs_import(const uint8_t *text, size_t len, uint8_t *room, size_t n);

/* ---- both sides of one database ---- */

/* What is asked of a merge. */
struct hs_how {
    uint32_t action; /* HS_SYNC, HS_HANDHELD, HS_DESKTOP or HS_BOTH */
    uint32_t agree;  /* 1 where the last session of both sides was with each other; 0: it wasn't, or nobody knows */
    uint32_t date;   /* of the session, in seconds since 1904: rows that are new on the desktop bear it */
};

enum {
    HS_SYNC = 0,     /* what changed on either side counts, and no change is lost */
    HS_HANDHELD = 1, /* the handheld's records are taken as they are */
    HS_DESKTOP = 2,  /* the desktop's */
    HS_BOTH = 3      /* the base is not looked at: what is live on either side stays, and nothing is deleted */
};

/* Where each file ends in the room, which begins with the handheld's. A file that is not there has no bytes. */
struct hs_ends {
    uint64_t handheld;
    uint64_t rows;
    uint64_t base;
    uint64_t archive;
};

/* What `hotsync run --slow` leaves of one database whose files these are: the handheld's `NAME.pdb`, and the desktop's
   `NAME.pdb`, `NAME.base` and `NAME.arc`; of length 0 where there is none. All of the handheld's records are looked at.
   The four files stand in the room one behind the other, each as it is written, and `ends` says where each ends; put into
   four files again, they are what the next merge takes. All of them are written, or none: where the room is too small it
   stays as it was, and the answer and `ends` say how much is wanted. An answer below 0 leaves `ends` as it was. HS_FORM
   also where the files bear several names, where one of the desktop's holds resources, and where `action` is none of the
   four. */
int64_t hs_merge(const uint8_t *handheld, size_t handheld_len, const uint8_t *rows, size_t rows_len, const uint8_t *base,
                 size_t base_len, const uint8_t *archive, size_t archive_len, const struct hs_how *how, uint8_t *room,
                 size_t n, struct hs_ends *ends);

/* ---- a handheld in memory ---- */

/* The files of a handheld's folder are a list: for each its name and then its bytes, both behind their length, a number of
   eight bytes with the highest first; no name twice. NAME.pdb and NAME.prc are its databases, device.inf knows its user, and
   other files stay as they are. A name is that of the database in it: hs_check says whether a file is whole.

   Between two calls the handheld is bytes in the caller's memory, its state, to be kept, copied, compared and thrown away as
   any bytes are. What it says and does is what `hotsync device` says and does. */

/* What a call tells. */
struct hs_told {
    uint64_t said;  /* how many bytes go back over the line */
    uint32_t phase; /* how far the talk is */
};

enum {
    HS_GOES_ON = 0,
    HS_ENDED = 1,     /* the reply to EndOfSync was acknowledged */
    HS_ABORTED = 2,   /* the desktop ended the connection */
    HS_BAD_HELLO = 3, /* the desktop's first message is no init */
    HS_SPENT = 4      /* silence, and the piece that waits was said ten times: the line is down */
};

/* A handheld with these files, and its wake, which it says first. The answer is how long the state is. The state goes into
   `state`, which has n bytes, and what is said into `room`: both of them, or none. Where the answer is more than n, or
   told->said more than m, both stay as they were, and the call is made again with more room. HS_FORM for bytes that are no
   list of files; HS_FILES for more than 200 databases, or where one of the files is bad. */
int64_t hs_device_new(const uint8_t *files, size_t len, uint8_t *state, size_t n, uint8_t *room, size_t m,
                      struct hs_told *told);

/* The handheld whose state stands in the first `len` bytes of `state` hears bytes of the line, in any pieces. Its new state
   takes the place of the old one, what it says goes into `room`, and the answer is how long the new state is: both of them,
   or none, as above. No bytes (count 0) are a tick of silence: the piece that waits is said once more, ten times at most.
   Each request is done once, however often it comes, and what it changes is in the state before its reply is said. Once the
   talk is over nothing is heard any more. HS_FORM for bytes that are no state; HS_FILES for one with files that
   hs_device_new takes for none of a handheld. */
int64_t hs_device_take(uint8_t *state, size_t n, size_t len, const uint8_t *bytes, size_t count, uint8_t *room, size_t m,
                       struct hs_told *told);

/* The list of the files that a handheld has. HS_FORM for bytes that are no state. The files are not looked into, so HS_FILES
   never comes. */
int64_t hs_device_files(const uint8_t *state, size_t len, uint8_t *room, size_t n);

/* ---- a serial line ---- */

/* The lines of `hotsync packet`: one for each packet in the bytes, and their number. */
int64_t hs_packets(const uint8_t *bytes, size_t len, uint8_t *room, size_t n);

/* Judges the text of a trace: 0 for a proper one, whose whole requests and replies are counted then; 'A' to 'G' for the
   first rule that it breaks; HS_LINE - N where line N, from 1 on, is the first that is none of a trace; HS_FORM for more
   than 67,108,864 bytes. The counts are 0 in all other cases than the first. */
int64_t hs_verify(const uint8_t *trace, size_t len, uint32_t *requests, uint32_t *replies);

/* The page of `hotsync picture` for such a text. Answers below 0 are those of hs_verify. */
int64_t hs_picture(const uint8_t *trace, size_t len, uint8_t *room, size_t n);

#ifdef __cplusplus
}
#endif

#endif
