/* Calls each function of the library: in room that fits, in none, in one byte too few, and over no bytes at all. What is
   wanted was worked out from the formats by hand.
   cc each.c $(pkg-config --cflags --libs hotsync) */
#include <hotsync.h>
#include <stdio.h>
#include <stdlib.h>
#include <string.h>

static int failed;

static void expect(const char *what, int64_t got, int64_t wanted)
{
    if (got != wanted) {
        fprintf(stderr, "each: %s: %lld, and not %lld\n", what, (long long)got, (long long)wanted);
        failed = 1;
    }
}

/* A call that puts bytes into the room. */
typedef int64_t call(const uint8_t *bytes, size_t len, uint8_t *room, size_t n);

/* Calls it in a room of n bytes, no byte more, and looks at the answer and at the room. */
static void in_room(const char *what, call *made, const uint8_t *bytes, size_t len, const char *text, size_t wanted, size_t n)
{
    size_t most = n > 0 ? n : 1;
    uint8_t *room = malloc(most);
    if (room == NULL)
        exit(2);
    memset(room, 0xAA, most);
    expect(what, made(bytes, len, room, n), (int64_t)wanted);
    size_t fits = wanted < n ? wanted : n;
    expect(what, memcmp(room, text, fits), 0);
    for (size_t place = fits; place < most; place++)
        expect(what, room[place], 0xAA);
    free(room);
}

static void in_rooms(const char *what, call *made, const uint8_t *bytes, size_t len, const char *text, size_t wanted)
{
    in_room(what, made, bytes, len, text, wanted, wanted);
    in_room(what, made, bytes, len, text, wanted, 0);
    in_room(what, made, bytes, len, text, wanted, wanted + 7);
    if (wanted > 0)
        in_room(what, made, bytes, len, text, wanted, wanted - 1);
}

/* The same where there is nothing: the room stays as it was. */
static void refused(const char *what, call *made, const uint8_t *bytes, size_t len, int64_t answer)
{
    uint8_t room[3] = {0xAA, 0xAA, 0xAA};
    expect(what, made(bytes, len, room, 3), answer);
    expect(what, room[0] + room[1] + room[2], 3 * 0xAA);
}

/* Bytes of their hexadecimal. */
static size_t bytes_of(const char *hex, uint8_t *bytes)
{
    size_t count = 0;
    unsigned value;
    for (; sscanf(hex, "%2x", &value) == 1; hex += 2)
        bytes[count++] = (uint8_t)value;
    return count;
}

/* ---- files ---- */

/* A file of two records, its numbers by name: docs/FORMATS.md says the places. */
static const char PDB[] =
    "4e6f746500000000000000000000000000000000000000000000000000000000" /* Note */
    "0008" "0001" "00000001" "00000002" "00000003" "00000004"          /* attributes, version, dates, modification number */
    "00000060" "00000000" "44415441" "6d656d6f" "00000005" "00000000"  /* app, sort, DATA, memo, seed, next list */
    "0002" "00000063" "42" "000001" "00000065" "00" "3b1004"           /* two entries */
    "0000" "617070" "4869" "42796521";                                 /* filler, app, Hi, Bye! */

/* A file of one resource. */
static const char PRC[] =
    "4170700000000000000000000000000000000000000000000000000000000000" /* App */
    "0001" "0002" "00000001" "00000002" "00000003" "00000004"
    "00000000" "00000000" "6170706c" "4e6f7465" "00000005" "00000000"
    "0001" "636f6465" "0001" "0000005a"
    "0000" "ff00ff";

static struct hs_entry entry;
static struct hs_head head;
static uint32_t wanted_index;

static int64_t entry_of(const uint8_t *bytes, size_t len, uint8_t *room, size_t n)
{
    return hs_entry(bytes, len, wanted_index, &entry, room, n);
}

static int64_t head_of(const uint8_t *bytes, size_t len, uint8_t *room, size_t n)
{
    return hs_head(bytes, len, &head, room, n);
}

static void check(const char *what, const uint8_t *bytes, size_t len, int64_t answer, uint32_t kind, uint64_t place)
{
    uint32_t found = 99;
    uint64_t at = 99;
    expect(what, hs_check(bytes, len, &found, &at), answer);
    expect(what, found, kind);
    expect(what, (int64_t)at, (int64_t)place);
}

static void entry_is(const char *what, uint32_t type, uint32_t id, uint32_t attributes, uint32_t size)
{
    expect(what, entry.type, type);
    expect(what, entry.id, id);
    expect(what, entry.attributes, attributes);
    expect(what, entry.size, size);
}

static void texts(const uint8_t *pdb, size_t pdb_size, const uint8_t *prc, size_t prc_size)
{
    static const char pdb_text[] =
        "name Note\n"
        "type 44415441 creator 6d656d6f version 1 attributes 0008\n"
        "created 1 modified 2 backup 3\n"
        "app 3 sort -\n"
        "0 id 000001 attr 42 size 2\n"
        "1 id 3b1004 attr 00 size 4\n";
    static const char prc_text[] =
        "name App\n"
        "type 6170706c creator 4e6f7465 version 2 attributes 0001\n"
        "created 1 modified 2 backup 3\n"
        "app - sort -\n"
        "0 type 636f6465 id 1 size 3\n";
    in_rooms("hs_show of records", hs_show, pdb, pdb_size, pdb_text, sizeof pdb_text - 1);
    in_rooms("hs_show of resources", hs_show, prc, prc_size, prc_text, sizeof prc_text - 1);
    refused("hs_show of a part", hs_show, pdb, pdb_size - 44, HS_FORM);
    refused("hs_show of nothing", hs_show, pdb, 0, HS_FORM);
}

static void parts(const uint8_t *pdb, size_t pdb_size, const uint8_t *prc, size_t prc_size)
{
    in_rooms("hs_head", head_of, pdb, pdb_size, "Noteapp", 7);
    expect("attributes", head.attributes, 8);
    expect("version", head.version, 1);
    expect("dates", head.created * 100 + head.modified * 10 + head.backup, 123);
    expect("modification number and seed", head.modnum * 10 + head.seed, 45);
    expect("type", head.type, 0x44415441);
    expect("creator", head.creator, 0x6d656d6f);
    expect("entries", head.entries, 2);
    expect("lengths", head.name * 10 + head.app, 43);
    expect("no sort block", head.sort, HS_NO_BLOCK);
    refused("hs_head of nothing", head_of, pdb, 0, HS_FORM);
    expect("head as it was", head.entries, 2);

    wanted_index = 0;
    in_rooms("hs_entry 0", entry_of, pdb, pdb_size, "Hi", 2);
    entry_is("entry 0", 0, 1, 0x42, 2);
    wanted_index = 1;
    in_rooms("hs_entry 1", entry_of, pdb, pdb_size, "Bye!", 4);
    entry_is("entry 1", 0, 0x3b1004, 0, 4);
    wanted_index = 2;
    refused("hs_entry 2", entry_of, pdb, pdb_size, HS_ABSENT);
    refused("hs_entry of nothing", entry_of, pdb, 0, HS_FORM);
    entry_is("entry as it was", 0, 0x3b1004, 0, 4);
    wanted_index = 0;
    in_rooms("hs_entry of a resource", entry_of, prc, prc_size, "\xff\0\xff", 3);
    entry_is("resource", 0x636f6465, 1, 0, 3);
}

static struct hs_entry entries[2];
static size_t entry_count;

/* All entries at once, in rooms for so many of them and so many bytes: both are written, or neither. */
static void listed(const char *what, const uint8_t *file, size_t size, size_t count, const char *text, size_t length)
{
    for (size_t room = 0; room <= count + 1; room++)
        for (size_t more = 0; more < 3; more++) {
            struct hs_entry found[3];
            uint8_t bytes[20];
            uint64_t told = 77;
            size_t n = length + more - 1;
            memset(found, 0xAA, sizeof found);
            memset(bytes, 0xAA, sizeof bytes);
            expect(what, hs_entries(file, size, found, room, bytes, n, &told), (int64_t)count);
            expect(what, (int64_t)told, (int64_t)length);
            int whole = room >= count && n >= length;
            expect(what, memcmp(bytes, text, length) == 0, whole);
            expect(what, bytes[whole ? length : 0], 0xAA);
            for (size_t place = 0; place < count; place++) {
                struct hs_entry one;
                uint8_t left[20];
                hs_entry(file, size, (uint32_t)place, &one, left, sizeof left);
                expect(what, memcmp(&found[place], &one, sizeof one) == 0, whole);
            }
            expect(what, found[whole ? count : 0].id, 0xAAAAAAAA);
        }
    uint64_t told = 77;
    uint8_t none[1] = {0};
    expect(what, hs_entries(file, size - 44, entries, 0, none, 0, &told), HS_FORM);
    expect(what, hs_entries(file, 0, entries, 0, none, 0, &told), HS_FORM);
    expect(what, (int64_t)told, 77);
}

static int64_t why_of(const uint8_t *answer, size_t len, uint8_t *room, size_t n)
{
    return hs_why(len == 0 ? 0 : -(int64_t)*answer, room, n);
}

static void reasons(void)
{
    static const char *const texts[] = {
        "", "memory was refused", "the bytes are not of the form that is read", "the database has no such entry",
        "a side has more than 65,535 records", "the database holds resources", "the database is read-only",
        "the database is a stream", "the type or the creator differs between the sides", "a side lacks the database",
        "no handheld has such files", "the database holds nothing of that form", "a record is out of its form",
        "the text has more than 15 labels", "the text has more than 65,535 memos", "",
    };
    for (uint8_t number = 0; number < sizeof texts / sizeof *texts; number++)
        in_rooms("hs_why", why_of, &number, 1, texts[number], strlen(texts[number]));
    static const char line[] = "a line is out of its form: its number is -100 less the answer";
    uint8_t last = 100;
    in_rooms("hs_why of -100", why_of, &last, 1, "", 0);
    last = 101;
    in_rooms("hs_why of a line", why_of, &last, 1, line, sizeof line - 1);
    uint8_t room[1] = {0xAA};
    expect("hs_why of an answer", hs_why(7, room, 1), 0);
    expect("hs_why of the largest line", hs_why(INT64_MIN, room, 0), sizeof line - 1);
    expect("the header's version", HS_VERSION, hs_version());
}

static int64_t file_of(const uint8_t *bytes, size_t len, uint8_t *room, size_t n)
{
    return hs_build(&head, entries, entry_count, bytes, len, room, n);
}

/* What hs_head and hs_entries say of a canonical file gives this file again. */
static void built(const char *what, const uint8_t *file, size_t size, size_t count)
{
    uint8_t bytes[200], none[1] = {0};
    size_t length = (size_t)hs_head(file, size, &head, bytes, sizeof bytes);
    uint64_t more = 0;
    entry_count = (size_t)hs_entries(file, size, entries, 2, bytes + length, sizeof bytes - length, &more);
    expect(what, (int64_t)entry_count, (int64_t)count);
    length += (size_t)more;
    in_rooms(what, file_of, bytes, length, (const char *)file, size);
    refused("hs_build of a byte too few", file_of, bytes, length - 1, HS_FORM);
    refused("hs_build of a byte too many", file_of, bytes, length + 1, HS_FORM);
    refused("hs_build of no bytes", file_of, none, 0, HS_FORM);
    entries[0].id = 0x1000000;
    refused("hs_build of a large id", file_of, bytes, length, HS_FORM);
    entries[0].id = 1;
    head.version = 65536;
    refused("hs_build of a large version", file_of, bytes, length, HS_FORM);
    head.version = 1;
    bytes[0] = 0;
    refused("hs_build of a zero in the name", file_of, bytes, length, HS_FORM);
}

static void files(void)
{
    uint8_t pdb[200], prc[200];
    size_t pdb_size = bytes_of(PDB, pdb), prc_size = bytes_of(PRC, prc);
    check("hs_check of records", pdb, pdb_size, 2, HS_GOOD, 0);
    check("hs_check of resources", prc, prc_size, 1, HS_GOOD, 0);
    check("hs_check of nothing", pdb, 0, HS_FORM, HS_SHORT, 0);
    check("hs_check of a header alone", pdb, 78, HS_FORM, HS_SHORT, 78);
    texts(pdb, pdb_size, prc, prc_size);
    listed("hs_entries of records", pdb, pdb_size, 2, "HiBye!", 6);
    listed("hs_entries of resources", prc, prc_size, 1, "\xff\0\xff", 3);
    built("hs_build of records", pdb, pdb_size, 2);
    built("hs_build of resources", prc, prc_size, 1);
    parts(pdb, pdb_size, prc, prc_size);
    pdb[0] = 0;
    check("hs_check without a name", pdb, pdb_size, HS_FORM, HS_NAME, 0);
    pdb[0] = 'N';
    pdb[75] = 1;
    check("hs_check of a second list", pdb, pdb_size, HS_FORM, HS_CHAINED, 72);
    pdb[75] = 0;
    pdb[81] = 200;
    check("hs_check of a block out of place", pdb, pdb_size, HS_FORM, HS_OFFSET, 1);
}

static void large(void)
{
    size_t size = 99 + 65501 + 4;
    uint8_t *pdb = calloc(1, size);
    if (pdb == NULL)
        exit(2);
    bytes_of(PDB, pdb);
    /* The second block is the first record: 65,501 bytes. */
    size_t begin = 99 + 65501;
    pdb[86] = (uint8_t)(begin >> 24), pdb[87] = (uint8_t)(begin >> 16);
    pdb[88] = (uint8_t)(begin >> 8), pdb[89] = (uint8_t)begin;
    check("hs_check of a large block", pdb, size, HS_FORM, HS_LARGE, 1);
    free(pdb);
}

/* ---- what records mean ---- */

/* Two memos and their file without the application block, which begins at 60 and has 11a bytes. */
static const char MEMOS[] = "--- 000001\nHi\n--- 000002 private Home\nBye\n";
static const char MEMO_HEAD[] =
    "4d656d6f44420000000000000000000000000000000000000000000000000000" /* MemoDB */
    "0008" "0000" "00000000" "00000000" "00000000" "00000000"
    "00000060" "00000000" "44415441" "6d656d6f" "00000000" "00000000"
    "0002" "0000017a" "00" "000001" "0000017d" "11" "000002" "0000";

static size_t memo_file(uint8_t *file)
{
    size_t size = bytes_of(MEMO_HEAD, file);
    uint8_t *block = file + size;
    memset(block, 0, 282);
    memcpy(block + 2, "Unfiled", 7);
    memcpy(block + 18, "Home", 4);
    for (uint8_t number = 0; number < 17; number++)
        block[258 + number] = number < 16 ? number : 15;
    memcpy(block + 282, "Hi\0Bye", 7);
    return size + 289;
}

/* A file of one record, or two: the name, the creator, how many entries there are, these, the filler, the records. */
#define RECORDS_OF(NAME, CREATOR, COUNT) \
    NAME "0000" "0000" "00000000" "00000000" "00000000" "00000000" \
    "00000000" "00000000" "44415441" CREATOR "00000000" "00000000" COUNT

static const char ADDRESS[] =
    RECORDS_OF("4164647265737344420000000000000000000000000000000000000000000000", "61646472", "0001") /* AddressDB, addr */
    "00000058" "00" "3b1002" "0000"
    "00043215" "00000009" "00" "53746174696f6e00" "3535352d3031393900"; /* main; last name and phone 1; Station, 555-0199 */

/* The second one is private. */
static const char TASKS[] =
    RECORDS_OF("546f446f44420000000000000000000000000000000000000000000000000000", "746f646f", "0002") /* ToDoDB, todo */
    "00000060" "00" "3b1004" "0000006a" "10" "3b1005" "0000"
    "c2e1" "01" "52656e657700" "00"  /* until 2001-07-01, of priority 1: Renew */
    "ffff" "85" "4f696c00" "00";     /* done, of priority 5: Oil */

static const char DATE[] =
    RECORDS_OF("4461746562" "6f6f6b444200000000000000000000000000000000000000000000", "64617465", "0001") /* DatebookDB */
    "00000058" "00" "3c1003" "0000"
    "ffffffff" "c32f" "2400" "0400ffff01000000" "52656e7400"; /* 2001-09-15, each month by date: Rent */

#define CARD \
    "BEGIN:VCARD\r\nVERSION:3.0\r\nPRODID:-//hotsync//Palm address book//EN\r\nUID:3b1002.AddressDB@palm\r\n" \
    "FN:Station\r\nN:Station;;;;\r\nTEL;TYPE=MAIN,PREF:555-0199\r\nEND:VCARD\r\n"
#define ADDRESS_ROWS \
    "id,private,category,last name,first name,company,phone 1 kind,phone 1,phone 2 kind,phone 2,phone 3 kind,phone 3," \
    "phone 4 kind,phone 4,phone 5 kind,phone 5,address,city,state,zip code,country,title,custom 1,custom 2,custom 3," \
    "custom 4,note,record\r\n3b1002,,,Station,,,main,555-0199,,,,,,,,,,,,,,,,,,,,\r\n"
#define ROWS_BEGIN \
    "id,private,category,due,done,priority,description,note,record\r\n3b1004,,,2001-07-01,,1,Renew,,\r\n"
#define OBJECT_BEGIN "BEGIN:VCALENDAR\r\nVERSION:2.0\r\nPRODID:-//hotsync//Palm calendar//EN\r\n"
#define TODO \
    "BEGIN:VTODO\r\nUID:3b1004.ToDoDB@palm\r\nDTSTAMP:20010909T014640Z\r\nSUMMARY:Renew\r\nDUE;VALUE=DATE:20010701\r\n" \
    "PRIORITY:1\r\nSTATUS:NEEDS-ACTION\r\nEND:VTODO\r\n"
#define EVENT \
    "BEGIN:VEVENT\r\nUID:3c1003.DatebookDB@palm\r\nDTSTAMP:20010909T014640Z\r\nDTSTART;VALUE=DATE:20010915\r\n" \
    "RRULE:FREQ=MONTHLY;INTERVAL=1\r\nSUMMARY:Rent\r\nEND:VEVENT\r\n"
#define OBJECT_END "END:VCALENDAR\r\n"

static struct hs_bad_record bad_record;
static uint32_t asked_form, asked_flags;

/* 2001-09-09T01:46:40 */
static int64_t export_of(const uint8_t *bytes, size_t len, uint8_t *room, size_t n)
{
    return hs_export(bytes, len, asked_form, 3082844800u, asked_flags, room, n, &bad_record);
}

static void asked(uint32_t form, uint32_t flags)
{
    asked_form = form;
    asked_flags = flags;
    bad_record.index = bad_record.place = 77;
}

static void exported(const char *what, const uint8_t *file, size_t size, uint32_t form, uint32_t flags, const char *text)
{
    asked(form, flags);
    in_rooms(what, export_of, file, size, text, strlen(text));
    expect(what, (int64_t)(bad_record.index + bad_record.place), 2 * 77);
}

static void unexported(const char *what, const uint8_t *file, size_t size, uint32_t form, uint32_t flags, int64_t answer,
                       uint64_t index, uint64_t place)
{
    asked(form, flags);
    refused(what, export_of, file, size, answer);
    expect(what, (int64_t)bad_record.index, (int64_t)index);
    expect(what, (int64_t)bad_record.place, (int64_t)place);
}

static void exports(void)
{
    uint8_t file[500];
    size_t size = memo_file(file);
    exported("hs_export of memos", file, size, HS_TXT, 0, MEMOS);
    exported("hs_export of memos, kept", file, size, HS_TXT, HS_KEEP_BROKEN, MEMOS);
    exported("hs_export without private ones", file, size, HS_TXT, HS_WITHOUT_PRIVATE, "--- 000001\nHi\n");
    for (uint32_t form = HS_VCF; form <= HS_ICS; form++)
        unexported("hs_export of memos in another form", file, size, form, 0, HS_NOTHING, 77, 77);
    for (uint32_t form = HS_TXT; form <= HS_ICS; form++)
        unexported("hs_export of no bytes", file, 0, form, 0, HS_FORM, 77, 77);
    unexported("hs_export in no form", file, size, 4, 0, HS_FORM, 77, 77);
    unexported("hs_export with another flag", file, size, HS_TXT, 4, HS_FORM, 77, 77);
    unexported("hs_export with all flags", file, size, HS_TXT, UINT32_MAX, HS_FORM, 77, 77);
    unexported("hs_export of resources", file, bytes_of(PRC, file), HS_TXT, 0, HS_NOTHING, 77, 77);

    size = bytes_of(ADDRESS, file);
    exported("hs_export of an address as a card", file, size, HS_VCF, 0, CARD);
    exported("hs_export of an address as a row", file, size, HS_CSV, 0, ADDRESS_ROWS);
    unexported("hs_export of an address as a memo", file, size, HS_TXT, 0, HS_NOTHING, 77, 77);
    unexported("hs_export of an address as a date", file, size, HS_ICS, 0, HS_NOTHING, 77, 77);
    /* Field 19. */
    file[88 + 5] = 8;
    unexported("hs_export of a bad address as a card", file, size, HS_VCF, 0, HS_RECORD, 0, 4);
    unexported("hs_export of a bad address as a row", file, size, HS_CSV, 0, HS_RECORD, 0, 4);

    size = bytes_of(DATE, file);
    exported("hs_export of a date", file, size, HS_ICS, 0, OBJECT_BEGIN EVENT OBJECT_END);
    unexported("hs_export of a date as a row", file, size, HS_CSV, 0, HS_NOTHING, 77, 77);
}

static void tasks(void)
{
    uint8_t file[500];
    size_t size = bytes_of(TASKS, file);
    exported("hs_export of tasks as rows", file, size, HS_CSV, 0, ROWS_BEGIN "3b1005,private,,,done,5,Oil,,\r\n");
    exported("hs_export of a task", file, size, HS_ICS, HS_WITHOUT_PRIVATE, OBJECT_BEGIN TODO OBJECT_END);
    unexported("hs_export of a task as a card", file, size, HS_VCF, 0, HS_NOTHING, 77, 77);
    /* The priority of the second one is 9. */
    file[108] = 0x89;
    unexported("hs_export of a bad task as a row", file, size, HS_CSV, 0, HS_RECORD, 1, 2);
    unexported("hs_export of a bad task", file, size, HS_ICS, 0, HS_RECORD, 1, 2);
    exported("hs_export of a bad task, private", file, size, HS_CSV, HS_WITHOUT_PRIVATE, ROWS_BEGIN);
    exported("hs_export of a bad task, kept", file, size, HS_CSV, HS_KEEP_BROKEN,
             ROWS_BEGIN "3b1005,private,,,,,,,ffff894f696c0000\r\n");
    exported("hs_export of a bad task, private and kept", file, size, HS_CSV, HS_WITHOUT_PRIVATE | HS_KEEP_BROKEN, ROWS_BEGIN);
}

static void imports(void)
{
    uint8_t file[500];
    size_t size = memo_file(file);
    in_rooms("hs_import", hs_import, (const uint8_t *)MEMOS, sizeof MEMOS - 1, (const char *)file, size);
    expect("hs_import of nothing", hs_import((const uint8_t *)MEMOS, 0, file, 0), 78 + 2 + 282);
    refused("hs_import of a memo without a head", hs_import, (const uint8_t *)"Hi", 2, HS_LINE - 1);
    refused("hs_import of a bad head", hs_import, (const uint8_t *)"--- new\nHi\n--- x\n", 17, HS_LINE - 3);
    static char text[8 * 65536];
    size_t length = 0;
    for (int label = 0; label < 16; label++)
        length += (size_t)sprintf(text + length, "--- new %c\n", 'a' + label);
    expect("hs_import of 15 labels", hs_import((const uint8_t *)text, length - 10, file, 0), 78 + 15 * 8 + 2 + 282 + 15);
    refused("hs_import of 16 labels", hs_import, (const uint8_t *)text, length, HS_LABELS);
    for (size_t place = 0; place < sizeof text; place += 8)
        memcpy(text + place, "--- new\n", 8);
    expect("hs_import of the most memos", hs_import((const uint8_t *)text, sizeof text - 8, file, 0), 362 + 65535 * 9);
    refused("hs_import of too many memos", hs_import, (const uint8_t *)text, sizeof text, HS_MEMOS);
}

static void names(void)
{
    static const char longest[] = "0123456789012345678901234567890";
    const uint8_t *name = (const uint8_t *)"My Memo/1_-\xff";
    in_rooms("hs_name", hs_name, name, 12, "My%20Memo%2F1_-%FF", 18);
    in_rooms("hs_name of 31 bytes", hs_name, (const uint8_t *)longest, 31, longest, 31);
    refused("hs_name of 32 bytes", hs_name, (const uint8_t *)"01234567890123456789012345678901", 32, HS_FORM);
    refused("hs_name of nothing", hs_name, name, 0, HS_FORM);
    refused("hs_name with a zero byte", hs_name, (const uint8_t *)"a\0b", 3, HS_FORM);
}

/* ---- both sides ---- */

/* The first file above as a session leaves it: the first record is not marked any more. */
static const char MERGED[] =
    "4e6f746500000000000000000000000000000000000000000000000000000000"
    "0008" "0001" "00000001" "00000002" "00000003" "00000004"
    "00000060" "00000000" "44415441" "6d656d6f" "00000005" "00000000"
    "0002" "00000063" "02" "000001" "00000065" "00" "3b1004"
    "0000" "617070" "4869" "42796521";

/* Rows and base rows of both records, as a session of the date 9 makes them for a desktop that had none. */
static const char ROWS[] =
    "4e6f746500000000000000000000000000000000000000000000000000000000"
    "0008" "0001" "00000009" "00000009" "00000000" "00000000"
    "00000000" "00000000" "44415441" "6d656d6f" "00000000" "00000000"
    "0002" "00000060" "02" "000001" "00000062" "00" "3b1004"
    "0000" "4869" "42796521";

/* Rows of the record that both had, with another content than the base rows have, and of one that is new: id 0, "New". */
static const char CHANGED[] =
    "4e6f746500000000000000000000000000000000000000000000000000000000"
    "0008" "0001" "00000009" "00000009" "00000000" "00000000"
    "00000000" "00000000" "44415441" "6d656d6f" "00000000" "00000000"
    "0002" "00000060" "42" "000001" "00000063" "40" "000000"
    "0000" "486f21" "4e6577";

/* The base rows of these: "Hi" under id 1, and under id 3b1004 what both sides had there. */
#define BASE ROWS

/* A file of a side. */
struct side {
    uint8_t bytes[300];
    size_t size;
};

static struct side side_of(const char *hex)
{
    struct side side = {.size = 0};
    side.size = bytes_of(hex, side.bytes);
    return side;
}

static const struct side NO_SIDE = {.size = 0};

/* The four files of a merge, and where each ends. */
struct sides {
    struct side handheld, rows, base, archive;
};

static int64_t merge_in(const struct sides *sides, const struct hs_how *how, uint8_t *room, size_t n, struct hs_ends *ends)
{
    return hs_merge(sides->handheld.bytes, sides->handheld.size, sides->rows.bytes, sides->rows.size, sides->base.bytes,
                    sides->base.size, sides->archive.bytes, sides->archive.size, how, room, n, ends);
}

/* A merge in a room of n bytes that leaves these sides; one with too little room writes none. */
static void merged_in(const char *what, const struct sides *sides, struct hs_how how, const struct sides *after, size_t n)
{
    const struct side *parts[] = {&after->handheld, &after->rows, &after->base, &after->archive};
    struct hs_ends ends = {99, 99, 99, 99};
    uint8_t *room = malloc(n > 0 ? n : 1);
    uint64_t found[4], end = 0;
    if (room == NULL)
        exit(2);
    memset(room, 0xAA, n > 0 ? n : 1);
    int64_t answer = merge_in(sides, &how, room, n, &ends);
    found[0] = ends.handheld, found[1] = ends.rows, found[2] = ends.base, found[3] = ends.archive;
    int64_t wanted = 0;
    for (int part = 0; part < 4; part++)
        wanted += (int64_t)parts[part]->size;
    expect(what, answer, wanted);
    for (int part = 0; part < 4; part++) {
        if ((size_t)wanted <= n)
            expect(what, memcmp(room + end, parts[part]->bytes, parts[part]->size), 0);
        end += parts[part]->size;
        expect(what, (int64_t)found[part], (int64_t)end);
    }
    for (size_t place = (size_t)wanted <= n ? (size_t)wanted : 0; place < n; place++)
        expect(what, room[place], 0xAA);
    free(room);
}

static void merged(const char *what, const struct sides *sides, struct hs_how how, const struct sides *after)
{
    size_t whole = after->handheld.size + after->rows.size + after->base.size + after->archive.size;
    merged_in(what, sides, how, after, whole);
    merged_in(what, sides, how, after, 0);
    merged_in(what, sides, how, after, whole + 7);
    if (whole > 0)
        merged_in(what, sides, how, after, whole - 1);
}

static void unmerged(const char *what, const struct sides *sides, struct hs_how how, int64_t answer)
{
    struct hs_ends ends = {99, 99, 99, 99};
    uint8_t room[3] = {0xAA, 0xAA, 0xAA};
    expect(what, merge_in(sides, &how, room, 3, &ends), answer);
    expect(what, room[0] + room[1] + room[2], 3 * 0xAA);
    expect(what, (int64_t)(ends.handheld + ends.rows + ends.base + ends.archive), 4 * 99);
}

static void merges(void)
{
    struct hs_how how = {HS_SYNC, 0, 9};
    struct sides none = {NO_SIDE, NO_SIDE, NO_SIDE, NO_SIDE};
    struct sides new = {side_of(PDB), NO_SIDE, NO_SIDE, NO_SIDE};
    struct sides whole = {side_of(MERGED), side_of(ROWS), side_of(ROWS), NO_SIDE};
    merged("hs_merge of nothing", &none, how, &none);
    merged("hs_merge for a desktop that has none", &new, how, &whole);
    merged("hs_merge of what was merged", &whole, how, &whole);
    how.agree = 1;
    merged("hs_merge of what was merged, both agreeing", &whole, how, &whole);
    how.action = HS_HANDHELD;
    merged("hs_merge by the handheld", &new, how, &whole);
    how.action = HS_BOTH;
    merged("hs_merge that keeps both", &whole, how, &whole);

    struct sides other = whole;
    how.action = 4;
    unmerged("hs_merge by nobody", &whole, how, HS_FORM);
    how.action = HS_SYNC;
    other.rows = side_of(PRC);
    unmerged("hs_merge of two databases", &other, how, HS_FORM);
    other.rows = whole.rows;
    other.base.size -= 1;
    other.base.bytes[81] = 0xFF;
    unmerged("hs_merge of a part", &other, how, HS_FORM);
    struct sides lost = {NO_SIDE, whole.rows, whole.base, NO_SIDE};
    unmerged("hs_merge of one that the handheld lost", &lost, how, HS_MISSING);
    struct sides resources = {side_of(PRC), NO_SIDE, NO_SIDE, NO_SIDE};
    unmerged("hs_merge of resources", &resources, how, HS_RESOURCES);
    other = whole;
    other.handheld.bytes[33] |= 0x02;
    unmerged("hs_merge of one that is read-only", &other, how, HS_READ_ONLY);
    other = whole;
    other.rows.bytes[33] |= 0x80;
    unmerged("hs_merge of a stream", &other, how, HS_STREAM);
    other = whole;
    other.rows.bytes[60] = 'd';
    unmerged("hs_merge of two types", &other, how, HS_DIFFERS);
}

/* The handheld changed "Hi" to "Hey", the desktop to "Ho!", and the desktop has "New": the handheld's change stays under the
   id, and the desktop's two contents are added. The desktop dropped what stands under id 3b1004, which goes on the
   handheld, and the base remembers it. */
static void conflict(void)
{
    struct hs_how how = {HS_SYNC, 1, 9};
    struct sides before = {side_of(PDB), side_of(CHANGED), side_of(BASE), NO_SIDE};
    before.handheld.bytes[99] = 'Y';
    struct hs_ends ends;
    static uint8_t room[2000];
    int64_t all = merge_in(&before, &how, room, sizeof room, &ends);
    if (all < 0) {
        expect("hs_merge of a conflict", all, 0);
        return;
    }
    struct hs_entry found;
    uint8_t bytes[10];
    uint32_t first, second;
    static const char *const contents[] = {"Yi", "Ho!", "New"};
    static const uint32_t categories[] = {2, 2, 0};
    for (int side = 0; side < 2; side++) {
        const uint8_t *file = side == 0 ? room : room + ends.handheld;
        size_t size = (size_t)(side == 0 ? ends.handheld : ends.rows - ends.handheld);
        uint32_t kind;
        uint64_t place;
        int seen[3] = {0, 0, 0};
        expect("records of a conflict", hs_check(file, size, &kind, &place), 3);
        for (uint32_t index = 0; index < 3; index++) {
            size_t length = (size_t)hs_entry(file, size, index, &found, bytes, sizeof bytes);
            for (int content = 0; content < 3; content++)
                if (length == strlen(contents[content]) && memcmp(bytes, contents[content], length) == 0) {
                    seen[content]++;
                    expect("attributes", found.attributes, categories[content]);
                    if (content == 0)
                        expect("id", found.id, 1);
                    if (content == 1)
                        side == 0 ? (void)(first = found.id) : expect("one id on both sides", found.id, first);
                    if (content == 2)
                        side == 0 ? (void)(second = found.id) : expect("one id on both sides", found.id, second);
                }
        }
        for (int content = 0; content < 3; content++)
            expect(contents[content], seen[content], 1);
    }
    /* The base has the three rows and the one that went, with the delete bit. */
    const uint8_t *base = room + ends.rows;
    size_t size = (size_t)(ends.base - ends.rows);
    uint32_t kind;
    uint64_t place;
    expect("base rows of a conflict", hs_check(base, size, &kind, &place), 4);
    expect("the row that went", hs_entry(base, size, 3, &found, bytes, sizeof bytes), 4);
    expect("its id", found.id, 0x3b1004);
    expect("its delete bit", found.attributes, 0x80);
    expect("no archive", (int64_t)(ends.archive - ends.base), 0);
}

/* A handheld with 65,535 records has no room for one of the desktop's. */
static void full(void)
{
    size_t count = 65535, size = 78 + 8 * count + 2 + count;
    uint8_t *many = calloc(1, size);
    struct side row = side_of(CHANGED);
    struct hs_how how = {HS_SYNC, 0, 9};
    struct hs_ends ends = {99, 99, 99, 99};
    uint8_t none[1] = {0xAA};
    if (many == NULL)
        exit(2);
    bytes_of(CHANGED, many);
    many[76] = 0xFF, many[77] = 0xFF;
    for (size_t index = 0; index < count; index++) {
        uint8_t *entry = many + 78 + 8 * index;
        size_t begin = 78 + 8 * count + 2 + index, id = index + 1;
        entry[0] = (uint8_t)(begin >> 24), entry[1] = (uint8_t)(begin >> 16);
        entry[2] = (uint8_t)(begin >> 8), entry[3] = (uint8_t)begin;
        entry[4] = 0, entry[5] = (uint8_t)(id >> 16), entry[6] = (uint8_t)(id >> 8), entry[7] = (uint8_t)id;
    }
    memset(many + 78 + 8 * count, 'x', 2 + count);
    expect("hs_merge for a full handheld", hs_merge(many, size, row.bytes, row.size, none, 0, none, 0, &how, none, 0, &ends), HS_FULL);
    expect("ends as they were", (int64_t)ends.archive, 99);
    free(many);
}

/* ---- a line ---- */

#define WAKE "beefed030302000effaf01c0000a0100010100000000258071ae\n"
#define ACK "beefed0303020004ffa502c0000a1a85\n"
#define INIT "beefed030302000effaf01c0000a02000101000000002580c061\n"
#define READ "beefed030302000601a901c0000210000e37\n"
#define ASKED "5 D ok + " READ "6 H ok + beefed030302000401a702c00002ce11\n"
#define ANSWERED "7 H ok + beefed030302002801cb01c0002490010000201e" NONE NONE NONE "ed6b\n" \
    "8 D ok - beefed030302000401a702c000248ab5\n9 D abort - beefed030302000402a808c000002de1\n"
#define NONE "00000000000000000000"
#define ACKED_READ "beefed0303020004" "01a702c00002ce11"
#define USER "beefed030302002801cb01c0002490010000201e" NONE NONE NONE "ed6b"
#define GREETED "1 H ok + " WAKE "2 D ok + " ACK "3 D ok + " INIT

static void judge(const char *trace, int64_t answer, uint32_t requests, uint32_t replies)
{
    uint32_t asked = 99, answered = 99;
    expect(trace, hs_verify((const uint8_t *)trace, strlen(trace), &asked, &answered), answer);
    expect(trace, asked, requests);
    expect(trace, answered, replies);
}

static void lines(void)
{
    static const char one[] = "slp 3 3 2 id 1 padp ack c0 2 data 0\npackets 1\n";
    static const char two[] = "slp 3 3 2 id 1 padp ack c0 2 data 0\nslp 3 3 2 id 1 padp ack c0 2 data 0\npackets 2\n";
    uint8_t bytes[100];
    size_t size = bytes_of("beefed030302000401a702c00002ce11beefbeefed030302000401a702c00002ce11", bytes);
    in_rooms("hs_packets", hs_packets, bytes, 16, one, sizeof one - 1);
    in_rooms("hs_packets of two", hs_packets, bytes, size, two, sizeof two - 1);
    in_rooms("hs_packets of nothing", hs_packets, bytes, 0, "packets 0\n", 10);

    judge("", 0, 0, 0);
    judge(GREETED "4 H ok + " ACK ASKED ANSWERED, 0, 1, 1);
    judge("1 H unplug - " WAKE "2 D ok + " ACK, 'A', 0, 0);
    judge("1 H lost + " WAKE, 'C', 0, 0);
    judge("1 H ok + " WAKE "2 H ok + " WAKE, 'D', 0, 0);
    judge(GREETED "4 D ok + " READ, 'E', 0, 0);
    judge("1 H lost - " WAKE "2 D ok + " ACK, 'G', 0, 0);
    judge("1\n", HS_LINE - 1, 0, 0);
    judge("1 H ok + " WAKE "2 D ok + ", HS_LINE - 2, 0, 0);
}

static void pictures(void)
{
    static const char trace[] = GREETED;
    const uint8_t *bytes = (const uint8_t *)trace;
    uint8_t none[1] = {0};
    int64_t wanted = hs_picture(bytes, sizeof trace - 1, none, 0);
    uint8_t *page = malloc(wanted > 0 ? (size_t)wanted : 1);
    if (page == NULL || wanted <= 0) {
        expect("hs_picture", wanted, 1);
        return;
    }
    expect("hs_picture", hs_picture(bytes, sizeof trace - 1, page, (size_t)wanted), wanted);
    expect("hs_picture begins", memcmp(page, "<!doctype html>", 15), 0);
    in_rooms("hs_picture", hs_picture, bytes, sizeof trace - 1, (const char *)page, (size_t)wanted);
    refused("hs_picture of a bad line", hs_picture, (const uint8_t *)"1\n", 2, HS_LINE - 1);
    free(page);
}

/* ---- a handheld in memory ---- */

/* A handheld between two calls. */
struct kept {
    uint8_t bytes[2000];
    size_t length;
};

/* A call for a handheld, in rooms of n and m bytes, no byte more: whether both were written. `begins` makes one of the
   bytes, which are a list of files then. */
static int in_both(const char *what, struct kept *kept, int begins, const uint8_t *bytes, size_t count, size_t n, size_t m,
                   const uint8_t *said, size_t wanted, uint32_t phase)
{
    uint8_t *state = malloc(n > 0 ? n : 1), *room = malloc(m > 0 ? m : 1);
    struct hs_told told = {99, 99};
    if (state == NULL || room == NULL)
        exit(2);
    memset(state, 0xAA, n > 0 ? n : 1);
    memset(room, 0xAA, m > 0 ? m : 1);
    memcpy(state, kept->bytes, kept->length);
    int64_t length = begins ? hs_device_new(bytes, count, state, n, room, m, &told)
                            : hs_device_take(state, n, kept->length, bytes, count, room, m, &told);
    int fits = length <= (int64_t)n && told.said <= m;
    expect(what, (int64_t)told.said, (int64_t)wanted);
    expect(what, told.phase, phase);
    expect(what, fits ? memcmp(room, said, wanted) : memcmp(state, kept->bytes, kept->length), 0);
    for (size_t place = fits ? wanted : 0; place < m; place++)
        expect(what, room[place], 0xAA);
    for (size_t place = fits ? (size_t)length : kept->length; place < n; place++)
        expect(what, state[place], 0xAA);
    if (fits && length > 0 && length <= (int64_t)sizeof kept->bytes) {
        memcpy(kept->bytes, state, (size_t)length);
        kept->length = (size_t)length;
    }
    free(state), free(room);
    return fits;
}

/* The same call in no room, in one byte too few of either, and in rooms that fit. */
static void stepped(const char *what, struct kept *kept, int begins, const char *hex, const char *hex_said, uint32_t phase)
{
    uint8_t bytes[200], said[200];
    size_t count = bytes_of(hex, bytes), wanted = bytes_of(hex_said, said);
    struct kept after = *kept;
    expect(what, in_both(what, &after, begins, bytes, count, sizeof after.bytes, wanted + 9, said, wanted, phase), 1);
    size_t most = after.length > kept->length ? after.length : kept->length;
    if (after.length > kept->length) {
        expect(what, in_both(what, kept, begins, bytes, count, kept->length, wanted, said, wanted, phase), 0);
        expect(what, in_both(what, kept, begins, bytes, count, most - 1, wanted, said, wanted, phase), 0);
    }
    if (wanted > 0) {
        expect(what, in_both(what, kept, begins, bytes, count, most, 0, said, wanted, phase), 0);
        expect(what, in_both(what, kept, begins, bytes, count, most, wanted - 1, said, wanted, phase), 0);
    }
    expect(what, in_both(what, kept, begins, bytes, count, most, wanted, said, wanted, phase), 1);
    expect(what, kept->length == after.length && memcmp(kept->bytes, after.bytes, after.length) == 0, 1);
}

/* The answer of a call that is refused, which leaves everything as it was. */
static void not_stepped(const char *what, const struct kept *kept, size_t length, int begins, const char *hex, int64_t answer)
{
    uint8_t bytes[200], room[3] = {0xAA, 0xAA, 0xAA};
    struct kept after = *kept;
    struct hs_told told = {99, 99};
    size_t count = bytes_of(hex, bytes);
    expect(what, begins ? hs_device_new(bytes, count, after.bytes, sizeof after.bytes, room, 3, &told)
                        : hs_device_take(after.bytes, sizeof after.bytes, length, bytes, count, room, 3, &told), answer);
    expect(what, memcmp(after.bytes, kept->bytes, sizeof after.bytes), 0);
    expect(what, room[0] + room[1] + room[2], 3 * 0xAA);
    expect(what, told.said == 99 && told.phase == 99, 1);
}

/* Lists of one file of one byte: one that no handheld reads, and one that should be a database. */
#define ONE_FILE "0000000000000005" "782e746d70" "0000000000000001" "42"
#define BAD_FILE "0000000000000005" "782e706462" "0000000000000001" "42"

static void handhelds(void)
{
    struct kept kept = {.length = 0}, silent;
    stepped("hs_device_new of no files", &kept, 1, "", WAKE, HS_GOES_ON);
    in_rooms("hs_device_files of none", hs_device_files, kept.bytes, kept.length, "", 0);
    kept.length = 0;
    stepped("hs_device_new", &kept, 1, ONE_FILE, WAKE, HS_GOES_ON);

    /* Silence: the wake is said ten times in all. */
    silent = kept;
    for (int tries = 1; tries < 10; tries++)
        stepped("a tick", &silent, 0, "", WAKE, HS_GOES_ON);
    stepped("a tick too many", &silent, 0, "", "", HS_SPENT);

    /* A request, in pieces, and once more; then the desktop ends the connection. */
    stepped("the wake was heard", &kept, 0, ACK, "", HS_GOES_ON);
    stepped("nothing waits", &kept, 0, "", "", HS_GOES_ON);
    stepped("the init", &kept, 0, INIT, ACK, HS_GOES_ON);
    stepped("half of a request", &kept, 0, "beefed0303020006", "", HS_GOES_ON);
    stepped("its other half", &kept, 0, "01a901c0000210000e37", ACKED_READ USER, HS_GOES_ON);
    stepped("a request once more", &kept, 0, READ, ACKED_READ, HS_GOES_ON);
    stepped("the reply once more", &kept, 0, "", USER, HS_GOES_ON);
    stepped("noise", &kept, 0, "beefbeef00", "", HS_GOES_ON);
    stepped("an abort", &kept, 0, "beefed030302000402a808c000002de1", "", HS_ABORTED);
    stepped("behind its end", &kept, 0, READ, "", HS_ABORTED);

    uint8_t file[100];
    size_t length = bytes_of(ONE_FILE, file);
    in_rooms("hs_device_files", hs_device_files, kept.bytes, kept.length, (const char *)file, length);
    refused("hs_device_files of nothing", hs_device_files, kept.bytes, 0, HS_FORM);
    refused("hs_device_files of a part", hs_device_files, kept.bytes, kept.length - 1, HS_FORM);
    not_stepped("hs_device_take of nothing", &kept, 0, 0, READ, HS_FORM);
    not_stepped("hs_device_take of a part", &kept, kept.length - 1, 0, READ, HS_FORM);
    not_stepped("hs_device_take of more than there is", &kept, sizeof kept.bytes + 1, 0, READ, HS_FORM);

    /* The number of requests, less whole rounds of 254, is never 254, so these are the bytes of no handheld. */
    struct kept other = kept;
    other.bytes[27] = 254;
    refused("hs_device_files of no talk", hs_device_files, other.bytes, other.length, HS_FORM);
    not_stepped("hs_device_take of no talk", &other, other.length, 0, READ, HS_FORM);

    /* Its file renamed to one that should be a database is still listed. */
    other = kept;
    memcpy(other.bytes + other.length - 12, "pdb", 3);
    length = bytes_of(BAD_FILE, file);
    in_rooms("hs_device_files of a bad file", hs_device_files, other.bytes, other.length, (const char *)file, length);
    not_stepped("hs_device_take of a bad file", &other, other.length, 0, READ, HS_FILES);

    not_stepped("hs_device_new of no list", &kept, 0, 1, "00", HS_FORM);
    not_stepped("hs_device_new of one name twice", &kept, 0, 1, ONE_FILE ONE_FILE, HS_FORM);
    not_stepped("hs_device_new of a bad file", &kept, 0, 1, BAD_FILE, HS_FILES);
}

int main(void)
{
    /* The script that runs this says what VERSION has. */
#ifdef WANTED_VERSION
    expect("hs_version", hs_version(), WANTED_VERSION);
#endif
    reasons();
    files();
    large();
    exports();
    tasks();
    imports();
    names();
    merges();
    conflict();
    full();
    lines();
    pictures();
    handhelds();
    if (failed == 0)
        printf("each: as wanted\n");
    return failed;
}
