/* What `mrep replay --db FILE STREAM` does, as a plain C program over the C library of SQLite: the yardstick of the whole job.
 *
 *     replay FILE STREAM
 *
 * It reads the stream in pieces of 64 KiB, puts payloads together, tests what mrep tests of packets, events and rows, keeps
 * a transaction until its last event, and gives the library the same statements, each prepared once: WAL, synchronous =
 * FULL, 2,000 pages of cache. A database that is there is tested and read as mrep does. It prints mrep's line where the
 * source has reached the end of its log, and ends with status 1 and a word where anything is wrong. It follows all tables,
 * takes the login as given, and knows one filter: none.
 *
 * With -DFEWEST it gives the statements that mrep gives: an INSERT that the key refuses where the row is there, a DELETE of
 * a row with the count 1, and only then the count is read and an UPDATE made; rows of a transaction of eight changes and
 * more that only inserts into one table in the order of their keys, eight an INSERT, and one by one once the key has refused
 * that; and one UPDATE of a span that gets longer. */

#include <sqlite3.h>
#include <stdint.h>
#include <stdio.h>
#include <stdlib.h>
#include <string.h>

typedef const unsigned char *Bytes;

enum { QUERY = 2, STOP = 3, ROTATE = 4, FORMAT = 15, XID = 16, TABLE_MAP = 19, WRITE = 30, UPDATE = 31, DELETE = 32, GTID = 33 };
enum { HEADER = 19, PIECE = 65536, FULL = 0xffffff, COLUMNS = 4096 };

static void fail(const char *word) {
    fprintf(stderr, "replay: %s\n", word);
    exit(1);
}

static void *grown(void *old, size_t size) {
    void *room = realloc(old, size ? size : 1);
    if (!room)
        fail("out of memory");
    return room;
}

static uint64_t number(Bytes at, size_t width) {
    uint64_t value = 0;
    for (size_t place = 0; place < width; place++)
        value |= (uint64_t)at[place] << 8 * place;
    return value;
}

/* A part of a payload. */
typedef struct {
    Bytes at, end;
} Part;

static Bytes take(Part *part, size_t size) {
    if ((size_t)(part->end - part->at) < size)
        fail("truncated");
    part->at += size;
    return part->at - size;
}

static uint64_t take_number(Part *part, size_t width) { return number(take(part, width), width); }

static uint64_t take_lenenc(Part *part) {
    uint64_t first = take_number(part, 1);
    if (first < 0xfb)
        return first;
    if (first == 0xfb || first == 0xff)
        fail("a length");
    return take_number(part, first == 0xfc ? 2 : first == 0xfd ? 3 : 8);
}

/* The executed set: intervals of a source, from lo up to but not including hi, in ascending order. */
typedef struct {
    unsigned char source[16];
    int64_t lo, hi;
} Span;

static Span *spans;
static size_t span_count, span_room;

/* How many intervals begin at or before a number. */
static size_t before(Bytes source, int64_t value) {
    size_t low = 0, high = span_count;
    while (low < high) {
        size_t mid = low + (high - low) / 2;
        int order = memcmp(spans[mid].source, source, 16);
        if (order < 0 || (order == 0 && spans[mid].lo <= value))
            low = mid + 1;
        else
            high = mid;
    }
    return low;
}

static int contains(Bytes source, int64_t value) {
    size_t at = before(source, value);
    return at && !memcmp(spans[at - 1].source, source, 16) && value < spans[at - 1].hi;
}

static void put(size_t at, const Span *span) {
    if (span_count == span_room) {
        span_room = span_room ? 2 * span_room : 16;
        spans = grown(spans, span_room * sizeof *spans);
    }
    memmove(spans + at + 1, spans + at, (span_count - at) * sizeof *spans);
    spans[at] = *span;
    span_count++;
}

static void cut(size_t at) {
    memmove(spans + at, spans + at + 1, (span_count - at - 1) * sizeof *spans);
    span_count--;
}

/* The database. */
static sqlite3 *base;
static sqlite3_stmt *find, *insert, *insert_eight, *update, *delete, *add_span, *drop_span, *move_end, *begin, *commit;

static void sql(const char *text) {
    if (sqlite3_exec(base, text, NULL, NULL, NULL) != SQLITE_OK)
        fail(sqlite3_errmsg(base));
}

static sqlite3_stmt *prepared(const char *text) {
    sqlite3_stmt *made;
    if (sqlite3_prepare_v3(base, text, -1, SQLITE_PREPARE_PERSISTENT, &made, NULL) != SQLITE_OK)
        fail(sqlite3_errmsg(base));
    return made;
}

static void run(sqlite3_stmt *statement) {
    if (sqlite3_step(statement) != SQLITE_DONE)
        fail(sqlite3_errmsg(base));
    sqlite3_reset(statement);
}

/* Whether a query has no rows but one with this text, or number 0. */
static void expect(const char *text, const char *wanted) {
    sqlite3_stmt *query = prepared(text);
    if (sqlite3_step(query) != SQLITE_ROW || strcmp((const char *)sqlite3_column_text(query, 0), wanted) || sqlite3_step(query) != SQLITE_DONE)
        fail("damaged");
    sqlite3_finalize(query);
}

static void read_rows(const char *text, int columns) {
    sqlite3_stmt *query = prepared(text);
    int state;
    while ((state = sqlite3_step(query)) == SQLITE_ROW)
        if (columns == 4) {
            Span span;
            if (sqlite3_column_bytes(query, 1) != 16)
                fail("damaged");
            memcpy(span.source, sqlite3_column_blob(query, 1), 16);
            span.lo = sqlite3_column_int64(query, 2);
            span.hi = sqlite3_column_int64(query, 3);
            put(before(span.source, span.lo), &span);
        } else if (sqlite3_column_type(query, 3) != SQLITE_BLOB || sqlite3_column_bytes(query, 3) < 2)
            fail("damaged");
    if (state != SQLITE_DONE)
        fail(sqlite3_errmsg(base));
    sqlite3_finalize(query);
}

static void open_base(const char *file) {
    if (sqlite3_open(file, &base) != SQLITE_OK)
        fail("the database cannot be opened");
    sql("PRAGMA locking_mode = EXCLUSIVE; PRAGMA journal_mode = WAL; PRAGMA synchronous = FULL; PRAGMA cache_size = 2000");
    sqlite3_stmt *tables = prepared("SELECT count(*) FROM sqlite_schema");
    sqlite3_step(tables);
    int is_new = sqlite3_column_int(tables, 0) == 0;
    sqlite3_finalize(tables);
    if (is_new) {
        sql("BEGIN; CREATE TABLE meta (k TEXT PRIMARY KEY, v INTEGER NOT NULL);"
            "CREATE TABLE held (schema_name BLOB NOT NULL, table_name BLOB NOT NULL, image BLOB NOT NULL, n INTEGER NOT NULL CHECK (n > 0), PRIMARY KEY (schema_name, table_name, image));"
            "CREATE TABLE spans (source BLOB NOT NULL, lo INTEGER NOT NULL, hi INTEGER NOT NULL, PRIMARY KEY (source, lo));"
            "CREATE TABLE follow (schema_name BLOB NOT NULL, table_name BLOB NOT NULL, PRIMARY KEY (schema_name, table_name));"
            "INSERT INTO meta VALUES ('layout', 2); COMMIT");
    } else {
        expect("PRAGMA integrity_check", "ok");
        expect("SELECT v FROM meta", "2");
        read_rows("SELECT rowid, source, lo, hi FROM spans ORDER BY rowid", 4);
        read_rows("SELECT rowid, schema_name, table_name, image, n FROM held ORDER BY rowid", 5);
    }
    find = prepared("SELECT n FROM held WHERE schema_name = ?1 AND table_name = ?2 AND image = ?3");
    insert = prepared("INSERT INTO held VALUES (?1, ?2, ?3, 1)");
    insert_eight = prepared("INSERT INTO held VALUES (?1, ?2, ?3, 1), (?1, ?2, ?4, 1), (?1, ?2, ?5, 1), (?1, ?2, ?6, 1),"
        " (?1, ?2, ?7, 1), (?1, ?2, ?8, 1), (?1, ?2, ?9, 1), (?1, ?2, ?10, 1)");
    update = prepared("UPDATE held SET n = ?4 WHERE schema_name = ?1 AND table_name = ?2 AND image = ?3");
    delete = prepared("DELETE FROM held WHERE schema_name = ?1 AND table_name = ?2 AND image = ?3"
#ifdef FEWEST
        " AND n = 1"
#endif
    );
    add_span = prepared("INSERT INTO spans VALUES (?1, ?2, ?3)");
    drop_span = prepared("DELETE FROM spans WHERE source = ?1 AND lo = ?2");
    move_end = prepared("UPDATE spans SET hi = ?3 WHERE source = ?1 AND lo = ?2");
    begin = prepared("BEGIN");
    commit = prepared("COMMIT");
}

/* A table map: the names, and how each column's values are read. */
typedef enum { NUMBER, FIXED, COUNTED } Form;

typedef struct {
    uint64_t id;
    unsigned char schema[255], table[255];
    int schema_size, table_size;
    size_t columns;
    struct {
        unsigned char form, width;
    } column[COLUMNS];
} Map;

static Map *maps;
static size_t map_count, map_room;

/* The last map of this number in the transaction. */
static Map *map_of(uint64_t id) {
    for (size_t at = map_count; at > 0; at--)
        if (maps[at - 1].id == id)
            return maps + at - 1;
    return NULL;
}

static Map *new_map(void) {
    if (map_count == map_room) {
        map_room = map_room ? 2 * map_room : 4;
        maps = grown(maps, map_room * sizeof *maps);
    }
    return maps + map_count++;
}

static int digits_size(int digits) { return digits / 9 * 4 + (digits % 9 + 1) / 2; }

/* How many bytes of metadata a type has. */
static size_t metadata_of(int type) {
    switch (type) {
    case 1: case 2: case 9: case 3: case 8: case 10: case 13:
        return 0;
    case 252: case 4: case 5: case 17: case 18: case 19:
        return 1;
    case 15: case 16: case 246: case 254:
        return 2;
    }
    fail("a column's type");
    return 0;
}

static void set_column(Map *map, size_t at, int type, Bytes meta) {
    Form form = FIXED;
    int width = 0, most;
    switch (type) {
    case 1: form = NUMBER, width = 1; break;
    case 2: form = NUMBER, width = 2; break;
    case 9: form = NUMBER, width = 3; break;
    case 3: form = NUMBER, width = 4; break;
    case 8: form = NUMBER, width = 8; break;
    case 10: width = 3; break;
    case 13: width = 1; break;
    case 15: form = COUNTED, width = number(meta, 2) < 256 ? 1 : 2; break;
    case 252:
        form = COUNTED, width = meta[0];
        if (width < 1 || width > 4)
            fail("metadata");
        break;
    case 16:
        if (meta[0] > 7 || 8 * meta[1] + meta[0] < 1 || 8 * meta[1] + meta[0] > 64)
            fail("metadata");
        width = (8 * meta[1] + meta[0] + 7) / 8;
        break;
    case 246:
        if (meta[0] < 1 || meta[0] > 65 || meta[1] > 30 || meta[1] > meta[0])
            fail("metadata");
        width = digits_size(meta[0] - meta[1]) + digits_size(meta[1]);
        break;
    case 4: case 5:
        width = type == 4 ? 4 : 8;
        if (meta[0] != width)
            fail("metadata");
        break;
    case 17: case 18: case 19:
        if (meta[0] > 6)
            fail("metadata");
        width = (type == 17 ? 4 : type == 18 ? 5 : 3) + (meta[0] + 1) / 2;
        break;
    case 254:
        most = ((meta[0] & 0x30) ^ 0x30) << 4 | meta[1];
        switch (meta[0] | 0x30) {
        case 254: form = COUNTED, width = most < 256 ? 1 : 2; break;
        case 247: case 248:
            form = NUMBER, width = most;
            if (most < 1 || most > ((meta[0] | 0x30) == 247 ? 2 : 8))
                fail("metadata");
            break;
        default: fail("a column's type");
        }
    }
    map->column[at].form = (unsigned char)form;
    map->column[at].width = (unsigned char)width;
}

static int take_name(Part *body, unsigned char *name) {
    int size = (int)take_number(body, 1);
    memcpy(name, take(body, (size_t)size), (size_t)size);
    take(body, 1);
    return size;
}

static void take_map(Part body) {
    static Map read;
    read.id = take_number(&body, 6);
    take(&body, 2);
    read.schema_size = take_name(&body, read.schema);
    read.table_size = take_name(&body, read.table);
    /* A map of the same table takes the place of the one before; changes name their table by its map. */
    Map *map = map_of(read.id);
    if (!map || map->schema_size != read.schema_size || map->table_size != read.table_size || memcmp(map->schema, read.schema, (size_t)read.schema_size) || memcmp(map->table, read.table, (size_t)read.table_size)) {
        map = new_map();
        *map = read;
    }
    uint64_t count = take_lenenc(&body);
    if (count < 1 || count > COLUMNS)
        fail("columns");
    map->columns = count;
    Bytes types = take(&body, count);
    size_t wanted = 0;
    for (size_t at = 0; at < count; at++)
        wanted += metadata_of(types[at]);
    if (take_lenenc(&body) != wanted)
        fail("metadata");
    Bytes meta = take(&body, wanted);
    for (size_t at = 0; at < count; at++) {
        set_column(map, at, types[at], meta);
        meta += metadata_of(types[at]);
    }
    take(&body, (count + 7) / 8);
}

/* The changes of a transaction: its images one after the other, and where each begins. */
typedef struct {
    int inserts;
    size_t map, image, size;
} Change;

static Change *changes;
static unsigned char *images;
static size_t change_count, change_room, image_size, image_room;

static unsigned char *room_for(size_t size) {
    if (image_room - image_size < size) {
        image_room = image_room * 2 > image_size + size ? image_room * 2 : image_size + size;
        images = grown(images, image_room);
    }
    return images + image_size;
}

/* Reads a row into an image: for each cell 0; 1, the width and the number; or 2, the length in four bytes and the bytes. */
static void take_row(Part *rows, const Map *map, int inserts) {
    Bytes nulls = take(rows, (map->columns + 7) / 8);
    size_t start = image_size;
    unsigned char *out = room_for(2);
    out[0] = (unsigned char)map->columns;
    out[1] = (unsigned char)(map->columns >> 8);
    image_size += 2;
    for (size_t at = 0; at < map->columns; at++) {
        size_t width = map->column[at].width;
        if (nulls[at / 8] >> at % 8 & 1) {
            *room_for(1) = 0;
            image_size++;
        } else if (map->column[at].form == NUMBER) {
            Bytes value = take(rows, width);
            out = room_for(2 + width);
            out[0] = 1;
            out[1] = (unsigned char)width;
            memcpy(out + 2, value, width);
            image_size += 2 + width;
        } else {
            size_t size = map->column[at].form == FIXED ? width : take_number(rows, width);
            Bytes value = take(rows, size);
            out = room_for(5 + size);
            out[0] = 2;
            for (int place = 0; place < 4; place++)
                out[1 + place] = (unsigned char)(size >> 8 * place);
            memcpy(out + 5, value, size);
            image_size += 5 + size;
        }
    }
    if (change_count == change_room) {
        change_room = change_room ? 2 * change_room : 16;
        changes = grown(changes, change_room * sizeof *changes);
    }
    changes[change_count++] = (Change){inserts, (size_t)(map - maps), start, image_size - start};
}

static void take_rows(Part body, int type) {
    Map *map = map_of(take_number(&body, 6));
    if (!map)
        fail("a table without a map");
    take(&body, 2);
    uint64_t extra = take_number(&body, 2);
    if (extra < 2)
        fail("extra data");
    take(&body, extra - 2);
    if (take_lenenc(&body) != map->columns)
        fail("columns");
    for (int bitmap = 0; bitmap < (type == UPDATE ? 2 : 1); bitmap++) {
        Bytes present = take(&body, (map->columns + 7) / 8);
        for (size_t at = 0; at < map->columns; at++)
            if (!(present[at / 8] >> at % 8 & 1))
                fail("a row without all columns");
    }
    while (body.at < body.end) {
        if (type == UPDATE)
            take_row(&body, map, 0);
        take_row(&body, map, type != DELETE);
    }
}

static void bind_row(sqlite3_stmt *statement, const Change *change) {
    const Map *map = maps + change->map;
    sqlite3_bind_blob(statement, 1, map->schema, map->schema_size, SQLITE_STATIC);
    sqlite3_bind_blob(statement, 2, map->table, map->table_size, SQLITE_STATIC);
    sqlite3_bind_blob(statement, 3, images + change->image, (int)change->size, SQLITE_STATIC);
}

static void apply_change(const Change *change) {
#ifdef FEWEST
    sqlite3_stmt *first = change->inserts ? insert : delete;
    bind_row(first, change);
    int ended = sqlite3_step(first);
    sqlite3_reset(first);
    if (ended == SQLITE_DONE && (change->inserts || sqlite3_changes(base)))
        return;
    if (ended != SQLITE_DONE && ended != SQLITE_CONSTRAINT)
        fail(sqlite3_errmsg(base));
#endif
    bind_row(find, change);
    int found = sqlite3_step(find);
    int64_t count = found == SQLITE_ROW ? sqlite3_column_int64(find, 0) : 0;
    if (found != SQLITE_ROW && found != SQLITE_DONE)
        fail(sqlite3_errmsg(base));
    sqlite3_reset(find);
    if (!change->inserts && !count)
        fail("no such row");
    sqlite3_stmt *statement = change->inserts ? (count ? update : insert) : count == 1 ? delete : update;
    bind_row(statement, change);
    if (statement == update)
        sqlite3_bind_int64(update, 4, change->inserts ? count + 1 : count - 1);
    run(statement);
}

#ifdef FEWEST
static int same_table(const Change *one, const Change *other) {
    const Map *a = maps + one->map, *b = maps + other->map;
    return a->schema_size == b->schema_size && a->table_size == b->table_size
        && !memcmp(a->schema, b->schema, a->schema_size) && !memcmp(a->table, b->table, a->table_size);
}

static int by_image(const void *one, const void *other) {
    const Change *a = one, *b = other;
    int order = memcmp(images + a->image, images + b->image, a->size < b->size ? a->size : b->size);
    return order ? order : a->size < b->size ? -1 : a->size > b->size;
}

/* Whether the changes only insert rows into one table, of which there are eight or more. */
static int is_load(void) {
    for (size_t at = 0; at < change_count; at++)
        if (!changes[at].inserts || !same_table(changes, changes + at))
            return 0;
    return change_count >= 8;
}

/* Inserts eight rows; whether none was there. */
static int insert_rows(const Change *eight) {
    bind_row(insert_eight, eight);
    for (int at = 1; at < 8; at++)
        sqlite3_bind_blob(insert_eight, 3 + at, images + eight[at].image, (int)eight[at].size, SQLITE_STATIC);
    int ended = sqlite3_step(insert_eight);
    sqlite3_reset(insert_eight);
    if (ended != SQLITE_DONE && ended != SQLITE_CONSTRAINT)
        fail(sqlite3_errmsg(base));
    return ended == SQLITE_DONE;
}
#endif

static void apply_changes(void) {
    size_t at = 0;
#ifdef FEWEST
    if (is_load()) {
        qsort(changes, change_count, sizeof *changes, by_image);
        while (change_count - at >= 8 && insert_rows(changes + at))
            at += 8;
    }
#endif
    for (; at < change_count; at++)
        apply_change(changes + at);
}

/* Binds the span's source and beginning to the statement. */
static void bind_span(sqlite3_stmt *statement, const Span *span) {
    sqlite3_bind_blob(statement, 1, span->source, 16, SQLITE_STATIC);
    sqlite3_bind_int64(statement, 2, span->lo);
}

static void drop(const Span *span) {
    bind_span(drop_span, span);
    run(drop_span);
}

/* Applies the transaction; whether it is new. */
static int apply(Bytes source, int64_t value) {
    if (contains(source, value))
        return 0;
    run(begin);
    apply_changes();
    Span span = {.lo = value, .hi = value + 1};
    memcpy(span.source, source, 16);
    size_t at = before(source, value);
    sqlite3_stmt *statement = add_span;
    if (at && !memcmp(spans[at - 1].source, source, 16) && spans[at - 1].hi == value) {
        span.lo = spans[at - 1].lo;
#ifdef FEWEST
        statement = move_end;
#else
        drop(spans + at - 1);
#endif
        cut(--at);
    }
    if (at < span_count && !memcmp(spans[at].source, source, 16) && spans[at].lo == value + 1) {
        span.hi = spans[at].hi;
        drop(spans + at);
        cut(at);
    }
    put(at, &span);
    bind_span(statement, &span);
    sqlite3_bind_int64(statement, 3, span.hi);
    run(statement);
    run(commit);
    return 1;
}

/* The state of the dump. */
static enum { BETWEEN, ANNOUNCED, INSIDE } state;
static int formatted;
static unsigned char source[16];
static int64_t value;
static uint64_t applied;

static void end_transaction(void) {
    if (state != INSIDE)
        fail("an end of no transaction");
    applied += (uint64_t)apply(source, value);
    state = BETWEEN;
}

static void take_format(Part body) {
    static const unsigned char types[] = {2, 4, 19, 30, 31, 32}, lengths[] = {13, 8, 8, 10, 10, 10};
    size_t size = (size_t)(body.end - body.at);
    if (size < 62 + 35 || number(body.at, 2) != 4 || body.at[56] != HEADER || body.end[-5] != 0)
        fail("a format description");
    for (size_t at = 0; at < sizeof types; at++)
        if (body.at[56 + types[at]] != lengths[at])
            fail("a header's length");
    formatted = 1;
    state = BETWEEN;
}

static void take_query(Part body) {
    take(&body, 8);
    uint64_t schema = take_number(&body, 1);
    take(&body, 2);
    uint64_t status = take_number(&body, 2);
    take(&body, status + schema + 1);
    size_t size = (size_t)(body.end - body.at);
    if (size == 5 && !memcmp(body.at, "BEGIN", 5)) {
        if (state != ANNOUNCED)
            fail("a BEGIN without a GTID");
        change_count = image_size = map_count = 0;
        state = INSIDE;
    } else if (size == 6 && !memcmp(body.at, "COMMIT", 6))
        end_transaction();
    else
        fail("a statement");
}

static void take_event(Part event) {
    Part body = event;
    Bytes header = take(&body, HEADER);
    int type = header[4];
    if (number(header + 9, 4) != (uint64_t)(event.end - event.at))
        fail("an event's size");
    if (!formatted && (type == GTID || type == QUERY || type == TABLE_MAP || type == XID || (type >= WRITE && type <= DELETE)))
        fail("no format description");
    switch (type) {
    case FORMAT: take_format(body); break;
    case ROTATE: take(&body, 8); state = BETWEEN; break;
    case STOP: state = BETWEEN; break;
    case GTID:
        take(&body, 1);
        memcpy(source, take(&body, 16), 16);
        value = (int64_t)take_number(&body, 8);
        if (value < 1 || value == INT64_MAX)
            fail("a GTID's number");
        state = ANNOUNCED;
        break;
    case QUERY: take_query(body); break;
    case XID:
        take(&body, 8);
        if (body.at != body.end)
            fail("bytes after an XID");
        end_transaction();
        break;
    case TABLE_MAP:
        if (state != INSIDE)
            fail("a table map outside a transaction");
        take_map(body);
        break;
    case WRITE: case UPDATE: case DELETE:
        if (state != INSIDE)
            fail("rows outside a transaction");
        take_rows(body, type);
        break;
    case 27: case 28: case 29: case 35: break;
    default:
        if (type == 34 || type == 38 || type == 39 || type == 40 || !(number(header + 17, 2) & 0x80))
            fail("an event's type");
    }
}

/* Takes a payload, the first of which are the login's; whether the source has reached the end of its log. */
static int take_payload(Bytes payload, size_t size, size_t index) {
    if (index < 3)
        return 0;
    if (size && payload[0] == 0) {
        take_event((Part){payload + 1, payload + size});
        return 0;
    }
    if (size < 5 || size >= 9 || payload[0] != 0xfe)
        fail("a payload that is no event");
    return 1;
}

/* The sequence id of the first packet of a payload. */
static unsigned char first_id(size_t index, unsigned char next) { return index == 0 ? 0 : index == 1 ? 2 : index <= 3 ? 1 : next; }

int main(int count, char **words) {
    static unsigned char piece[PIECE];
    if (count != 3)
        fail("usage: replay FILE STREAM");
    FILE *stream = fopen(words[2], "rb");
    if (!stream)
        fail("the stream cannot be opened");
    setvbuf(stream, NULL, _IONBF, 0);
    open_base(words[1]);
    unsigned char header[4], next = 0, *payload = NULL;
    size_t in_header = 0, left = 0, size = 0, room = 0, index = 0, packets = 0;
    uint64_t at = 0;
    int ended = 0, last = 0;
    for (size_t got; !ended && (got = fread(piece, 1, PIECE, stream)) > 0;)
        for (size_t used = 0; used < got && !ended;) {
            if (in_header < 4) {
                header[in_header++] = piece[used++];
                if (in_header < 4)
                    continue;
                left = number(header, 3);
                last = left < FULL;
                if (header[3] != (packets++ ? next : first_id(index, next)))
                    fail("a sequence id");
                next = (unsigned char)(header[3] + 1);
            }
            size_t part = got - used < left ? got - used : left;
            if (room - size < part) {
                room = 2 * room > size + part ? 2 * room : size + part;
                payload = grown(payload, room);
            }
            memcpy(payload + size, piece + used, part);
            size += part, used += part, left -= part;
            if (left)
                continue;
            in_header = 0;
            if (!last)
                continue;
            ended = take_payload(payload, size, index++);
            at += size + 4 * packets;
            size = packets = 0;
        }
    printf("1 %s at %llu applied %llu\n", ended ? "SourceEof" : "EndOfInput", (unsigned long long)at, (unsigned long long)applied);
    sqlite3_stmt *all[] = {find, insert, insert_eight, update, delete, add_span, drop_span, move_end, begin, commit};
    for (size_t place = 0; place < sizeof all / sizeof *all; place++)
        sqlite3_finalize(all[place]);
    return sqlite3_close(base) != SQLITE_OK;
}
