/* Runs a script of this program over SQLite, in the way in which one would keep an object graph in it: a table of objects,
 * one of fields and one of names. The replies are those of pmos, but for `watch`; no end line is written.
 *
 *     cc -O2 scripts/peer-sqlite.c -lsqlite3 -o peer-sqlite
 *     ./peer-sqlite FILE < SCRIPT
 *
 * A settle is a commit, in WAL mode with full synchronization. `! gc` is counted, and what nothing reaches is deleted at
 * the end of a script that asks for steps, by one query; `! flush` does nothing.
 */
#include <sqlite3.h>
#include <stdio.h>
#include <stdlib.h>
#include <string.h>

enum { CLIENTS = 8, REGISTERS = 1024, LINE = 20000, BYTES = 8192 };

static sqlite3 *db;
static unsigned registers[CLIENTS][REGISTERS];
static unsigned long long next_id;
static unsigned settled, begun;

static sqlite3_stmt *add_object, *object_bytes, *field_count, *put_bytes;
static sqlite3_stmt *get_field, *set_field, *clear_field;
static sqlite3_stmt *get_root, *set_root, *clear_root, *set_head;

static void give_up(const char *what) {
    fprintf(stderr, "%s: %s\n", what, sqlite3_errmsg(db));
    exit(1);
}

static void run(const char *text) {
    if (sqlite3_exec(db, text, NULL, NULL, NULL) != SQLITE_OK) give_up(text);
}

static sqlite3_stmt *prepare(const char *text) {
    sqlite3_stmt *statement;
    if (sqlite3_prepare_v3(db, text, -1, SQLITE_PREPARE_PERSISTENT, &statement, NULL) != SQLITE_OK) give_up(text);
    return statement;
}

/* Makes a step; answers whether there is a row. */
static int step(sqlite3_stmt *statement) {
    int came = sqlite3_step(statement);
    if (came != SQLITE_ROW && came != SQLITE_DONE) give_up("step");
    return came == SQLITE_ROW;
}

static void make(sqlite3_stmt *statement) {
    step(statement);
    sqlite3_reset(statement);
}

/* The first column of the first row as a number; 0 where there is none. */
static unsigned number_of(sqlite3_stmt *statement) {
    unsigned number = step(statement) ? (unsigned)sqlite3_column_int64(statement, 0) : 0;
    sqlite3_reset(statement);
    return number;
}

static int from_hex(const char *digits, unsigned char *bytes) {
    int count = 0;
    if (*digits == '-') return 0;
    for (; digits[0] && digits[1]; digits += 2) {
        unsigned byte;
        sscanf(digits, "%2x", &byte);
        bytes[count++] = (unsigned char)byte;
    }
    return count;
}

static void open_store(const char *path) {
    if (sqlite3_open(path, &db) != SQLITE_OK) give_up(path);
    run("pragma journal_mode = wal; pragma synchronous = full;"
        "create table if not exists object(id integer primary key, fields int, bytes blob);"
        "create table if not exists field(object int, place int, target int, primary key(object, place)) without rowid;"
        "create table if not exists root(name text primary key, id int) without rowid;"
        "create table if not exists head(next int, settled int);"
        "insert into head select 1, 0 where not exists(select 1 from head);");
    sqlite3_stmt *head = prepare("select next, settled from head");
    step(head);
    next_id = (unsigned long long)sqlite3_column_int64(head, 0);
    settled = (unsigned)sqlite3_column_int(head, 1);
    sqlite3_finalize(head);
    add_object = prepare("insert into object values(?, ?, ?)");
    object_bytes = prepare("select bytes from object where id = ?");
    field_count = prepare("select fields from object where id = ?");
    put_bytes = prepare("update object set bytes = ? where id = ?");
    get_field = prepare("select target from field where object = ? and place = ?");
    set_field = prepare("insert or replace into field values(?, ?, ?)");
    clear_field = prepare("delete from field where object = ? and place = ?");
    get_root = prepare("select id from root where name = ?");
    set_root = prepare("insert or replace into root values(?, ?)");
    clear_root = prepare("delete from root where name = ?");
    set_head = prepare("update head set next = ?, settled = ?");
    run("begin immediate");
}

static void reply(int client, const char *text) {
    printf("%d %s\n", client, text);
}

static void reply_number(int client, const char *word, unsigned number) {
    printf("%d %s %u\n", client, word, number);
}

static unsigned *at(int client, const char *word) {
    return &registers[client][atoi(word)];
}

static int has_field(unsigned id, int place) {
    sqlite3_bind_int64(field_count, 1, id);
    return place < (int)number_of(field_count);
}

static unsigned field(unsigned id, int place) {
    sqlite3_bind_int64(get_field, 1, id);
    sqlite3_bind_int(get_field, 2, place);
    return number_of(get_field);
}

static void store(unsigned id, int place, unsigned target) {
    sqlite3_bind_int64(set_field, 1, id);
    sqlite3_bind_int(set_field, 2, place);
    sqlite3_bind_int64(set_field, 3, target);
    make(set_field);
}

/* `new R N HEX` */
static void new_object(int client, char **words) {
    unsigned char bytes[BYTES];
    int count = from_hex(words[4], bytes);
    sqlite3_bind_int64(add_object, 1, (sqlite3_int64)next_id);
    sqlite3_bind_int(add_object, 2, atoi(words[3]));
    sqlite3_bind_blob(add_object, 3, bytes, count, SQLITE_TRANSIENT);
    make(add_object);
    *at(client, words[2]) = (unsigned)next_id++;
    reply_number(client, "ok", *at(client, words[2]));
}

/* `load R2 R K` */
static void load(int client, char **words) {
    unsigned id = *at(client, words[3]);
    if (!id) { reply(client, "no-handle"); return; }
    if (!has_field(id, atoi(words[4]))) { reply(client, "no-field"); return; }
    unsigned target = field(id, atoi(words[4]));
    *at(client, words[2]) = target;
    if (target) reply_number(client, "ok", target);
    else reply(client, "null");
}

/* `store R K R2`, `clear R K`, `swap R K R2 R3` */
static void change(int client, char **words) {
    unsigned id = *at(client, words[2]);
    int place = atoi(words[3]), is_clear = words[1][0] == 'c', is_swap = words[1][1] == 'w';
    if (!id || (!is_clear && !*at(client, words[4])) || (is_swap && !*at(client, words[5]))) { reply(client, "no-handle"); return; }
    if (!has_field(id, place)) { reply(client, "no-field"); return; }
    if (is_swap) {
        unsigned target = field(id, place);
        if (!target) { reply(client, "null"); return; }
        if (target != *at(client, words[4])) { reply_number(client, "held", target); return; }
    }
    if (is_clear) {
        sqlite3_bind_int64(clear_field, 1, id);
        sqlite3_bind_int(clear_field, 2, place);
        make(clear_field);
    } else {
        store(id, place, *at(client, words[is_swap ? 5 : 4]));
    }
    reply(client, "ok");
}

/* `data R`, `put R AT HEX` */
static void data(int client, char **words) {
    unsigned char bytes[BYTES], part[BYTES];
    unsigned id = *at(client, words[2]);
    if (!id) { reply(client, "no-handle"); return; }
    sqlite3_bind_int64(object_bytes, 1, id);
    step(object_bytes);
    int count = sqlite3_column_bytes(object_bytes, 0);
    if (count) memcpy(bytes, sqlite3_column_blob(object_bytes, 0), (size_t)count);
    sqlite3_reset(object_bytes);
    if (words[1][0] == 'd') {
        printf("%d ", client);
        if (!count) putchar('-');
        for (int i = 0; i < count; i++) printf("%02x", bytes[i]);
        putchar('\n');
        return;
    }
    int size = from_hex(words[4], part);
    long place = atol(words[3]);
    if (place + size > count) { reply(client, "out-of-range"); return; }
    memcpy(bytes + place, part, (size_t)size);
    sqlite3_bind_blob(put_bytes, 1, bytes, count, SQLITE_TRANSIENT);
    sqlite3_bind_int64(put_bytes, 2, id);
    make(put_bytes);
    reply(client, "ok");
}

/* `root NAME R`, `unroot NAME`, `find R NAME` */
static void name(int client, char **words) {
    if (!strcmp(words[1], "root")) {
        if (!*at(client, words[3])) { reply(client, "no-handle"); return; }
        sqlite3_bind_text(set_root, 1, words[2], -1, SQLITE_TRANSIENT);
        sqlite3_bind_int64(set_root, 2, *at(client, words[3]));
        make(set_root);
        reply(client, "ok");
    } else if (!strcmp(words[1], "unroot")) {
        sqlite3_bind_text(clear_root, 1, words[2], -1, SQLITE_TRANSIENT);
        make(clear_root);
        reply(client, sqlite3_changes(db) ? "ok" : "no-root");
    } else {
        sqlite3_bind_text(get_root, 1, words[3], -1, SQLITE_TRANSIENT);
        unsigned id = number_of(get_root);
        if (!id) { reply(client, "no-root"); return; }
        *at(client, words[2]) = id;
        reply_number(client, "ok", id);
    }
}

/* `id R`, `copy R2 R`, `drop R`, `close` */
static void keep(int client, char **words) {
    if (!strcmp(words[1], "close")) {
        memset(registers[client], 0, sizeof registers[client]);
        reply(client, "ok");
        return;
    }
    unsigned *held = at(client, words[!strcmp(words[1], "copy") ? 3 : 2]);
    if (!*held) { reply(client, "no-handle"); return; }
    if (!strcmp(words[1], "drop")) {
        *held = 0;
        reply(client, "ok");
        return;
    }
    if (!strcmp(words[1], "copy")) *at(client, words[2]) = *held;
    reply_number(client, "ok", *held);
}

/* `save`, `settle`, `unsave`, `watch` */
static void copy(int client, char **words) {
    if (!strcmp(words[1], "save")) {
        if (begun) { reply_number(client, "busy", begun); return; }
        begun = settled + 1;
        reply_number(client, "begun", begun);
    } else if (!strcmp(words[1], "unsave")) {
        if (!begun) { reply(client, "idle"); return; }
        reply_number(client, "dropped", begun);
        begun = 0;
    } else if (!strcmp(words[1], "settle")) {
        if (!begun) { reply(client, "idle"); return; }
        settled = begun;
        begun = 0;
        sqlite3_bind_int64(set_head, 1, (sqlite3_int64)next_id);
        sqlite3_bind_int(set_head, 2, (int)settled);
        make(set_head);
        run("commit");
        run("begin immediate");
        reply_number(client, "saved", settled);
    } else {
        reply(client, "watching 0");
    }
}

static void answer(char **words) {
    static const struct {
        const char *word;
        void (*call)(int, char **);
    } CALLS[] = {
        {"new", new_object}, {"load", load}, {"store", change}, {"clear", change}, {"swap", change}, {"data", data},
        {"put", data}, {"root", name}, {"unroot", name}, {"find", name}, {"id", keep}, {"copy", keep}, {"drop", keep},
        {"close", keep}, {"save", copy}, {"settle", copy}, {"unsave", copy}, {"watch", copy},
    };
    for (size_t i = 0; i < sizeof CALLS / sizeof *CALLS; i++) {
        if (!strcmp(words[1], CALLS[i].word)) {
            CALLS[i].call(words[0][0] - '0', words);
            return;
        }
    }
}

/* Deletes what no name and no register reaches. */
static void collect(void) {
    run("create temp table held(id integer primary key)");
    sqlite3_stmt *hold = prepare("insert or ignore into temp.held values(?)");
    for (int client = 0; client < CLIENTS; client++) {
        for (int i = 0; i < REGISTERS; i++) {
            if (!registers[client][i]) continue;
            sqlite3_bind_int64(hold, 1, registers[client][i]);
            make(hold);
        }
    }
    run("create temp table live as with recursive reached(id) as ("
        "select id from root union select id from temp.held union "
        "select target from field join reached on field.object = reached.id) select id from reached;"
        "create unique index temp.live_id on live(id);"
        "delete from object where id not in (select id from temp.live);"
        "delete from field where object not in (select id from temp.live);");
}

int main(int count, char **arguments) {
    static char line[LINE];
    int steps = 0;
    if (count != 2) { fprintf(stderr, "peer-sqlite FILE\n"); return 1; }
    open_store(arguments[1]);
    while (fgets(line, sizeof line, stdin)) {
        char *words[8];
        int found = 0;
        for (char *word = strtok(line, " \n"); word && found < 8; word = strtok(NULL, " \n")) words[found++] = word;
        if (found < 2 || words[0][0] == '#') continue;
        if (words[0][0] != '!') answer(words);
        else if (words[1][0] == 'g') steps += atoi(words[2]);
    }
    if (steps) collect();
    run("rollback");
    return 0;
}
