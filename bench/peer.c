/* bench/peer.c: a small register over C SQLite, written by hand, for bench/peers to time gridclear beside it.

   peer SECTIONS POINTS STAFF     a register in memory alone: plain arrays, no SQLite
   peer --db FILE JOURNAL         a register in FILE, which `gridclear init --db` made; JOURNAL is DELETE or WAL

   It answers the commands of standard input, one a line, of the kinds that bench/shift makes: request, order,
   instruct, repeat, report, grant, test, ground, unground, sign_on, sign_off, release, restore, show. It makes the
   checks of docs/RULES.md for these, in the same sequence. It prints the same replies, but for what a refusal
   names. A register in a file is read whole at the opening and then kept in the same arrays. Each accepted command
   but show is one transaction, with prepared statements and synchronous=FULL, over the tables of gridclear. A fence
   is searched in the network whenever a command needs it. What a program for a control room has beside that is
   missing: cancel, amend, transfer, switch orders, jumpers, the journal of commands, and all checks of the files.
   Nothing here is proved. Of JSON it reads flat objects without blanks: texts without escapes, whole numbers, true,
   false and lists of texts; of CSV rows without quotes. It trusts its files, and that a key's value is of its kind.
   Memory is never given back. */
#include <sqlite3.h>
#include <stdarg.h>
#include <stdbool.h>
#include <stdio.h>
#include <stdlib.h>
#include <string.h>

enum { NAME = 25, SECTIONS = 5000, POINTS = 10000, STAFF = 1024, MOST_POINTS = 64, MOST_STEPS = 256, MOST_RECORDS = 9999 };
enum phase { REQUESTED, ORDERED, GRANTED, RELEASED, RESTORING, CLOSED };
enum kind { HELD_OPEN, BLOCK, CONTROL, TAG, TESTED, GROUND, CREW };
enum action { DO_OPEN, DO_BLOCK, DO_CONTROL, DO_TAG, DO_UNTAG, DO_UNCONTROL, DO_UNBLOCK, DO_CLOSE, DO_LEAVE };
enum state { WAITING, INSTRUCTED, REPEATED, DONE };
enum role { OPERATOR, FIELD, CHARGE };
static const char *const phases[] = {"Requested", "Ordered", "Granted", "Released", "Restoring", "Closed", 0};
static const char *const kinds[] = {"HeldOpen", "Block", "Control", "Tag", "Tested", "Ground", "Crew", 0};
static const char *const actions[] = {"OPEN", "BLOCK", "CONTROL", "TAG", "UNTAG", "UNCONTROL", "UNBLOCK", "CLOSE", "LEAVE", 0};
static const char *const stored_actions[] = {"Open", "Block", "Control", "Tag", "Untag", "Uncontrol", "Unblock", "Close", "Leave", 0};
static const char *const states[] = {"Waiting", "Instructed", "Repeated", "Done", 0};
static const char *const roles[] = {"operator", "field", "charge", 0};
#define REFUSALS(X) X(NONE) X(UNKNOWN_CALLER) X(WRONG_ROLE) X(UNKNOWN_SECTION) X(TOO_MANY_CLEARANCES) X(UNKNOWN_CLEARANCE) \
  X(NOT_HOLDER) X(EARLIER) X(WRONG_PHASE) X(EMPTY_ORDER) X(LONG_ORDER) X(POINT_TWICE) X(SOURCE_INSIDE) X(NOT_ON_FENCE) \
  X(STEPS_WRONG) X(UNKNOWN_POINT) X(NO_STEP) X(OUT_OF_TURN) X(STEP_STATE) X(IN_HAND) X(HELD) X(REPEAT_DIFFERS) \
  X(WRONG_REPORTER) X(STEPS_LEFT) X(OUTSIDE_FENCE) X(NOT_TESTED) X(GROUNDED) X(NOT_GROUNDED) X(CREWS_ON) X(CREW_STATE) \
  X(BAD_TRANSFER) X(NOT_ATTESTED)
#define AS_NAME(name) name,
#define AS_TEXT(name) #name,
enum refusal { REFUSALS(AS_NAME) };
static const char *const refusals[] = {REFUSALS(AS_TEXT)};

struct text { const char *at; size_t size; };
struct record;
struct hold { enum kind kind; int place; struct record *by; };
struct bag { struct hold *holds; int count, room; };
struct step { enum action action; int point; enum state state; int reader; char text[40]; };
struct record {
  int requester, number, holder, work, round, steps, done, cut, cuts[MOST_POINTS];
  enum phase phase;
  long at;
  struct step *of_round[2];
  int in_round[2], room[2];
  struct bag own;                      /* its tests and grounds */
  char (*crews)[NAME];
  int crew_count;
};
/* Sections and points are sorted by name, so that places are in the order of names. */
struct section { char name[NAME]; bool source; struct bag holds; int first_neighbour; };
struct point { char name[NAME]; int ends[2]; bool lockable, remote, closed; struct record *hand; struct bag holds; };
struct employee { char name[NAME]; enum role role; struct record **records; int count, room; };
static struct section sections[SECTIONS + 1];
static struct point points[POINTS];
static struct employee staff[STAFF];
static int section_count, point_count, staff_count;
static int neighbours[2 * POINTS];     /* the points at each section, one section after the other */

static void die(const char *what) { fprintf(stderr, "peer: %s\n", what); exit(1); }

static void *grown(void *old, int count, int *room, size_t size) {
  if (count < *room) return old;
  *room = *room ? 2 * *room : 4;
  void *more = realloc(old, *room * size);
  if (!more) die("no memory");
  return more;
}

static bool same(struct text text, const char *name) { return strncmp(text.at, name, text.size) == 0 && !name[text.size]; }
static struct text text_of(const char *name) { return (struct text){name, strlen(name)}; }

static int word(const char *const *words, struct text text) {
  for (int at = 0; words[at]; at++) if (same(text, words[at])) return at;
  return -1;
}

/* Names are found by a table with open places, which is never over half full. */
struct table { int slots[1 << 15]; const char *names; size_t stride; };
static struct table section_table, point_table, staff_table;

static unsigned hash(struct text text) {
  unsigned sum = 2166136261u;
  for (size_t at = 0; at < text.size; at++) sum = (sum ^ (unsigned char)text.at[at]) * 16777619u;
  return sum ^ sum >> 15;
}

static int find(const struct table *table, struct text text) {
  for (unsigned slot = hash(text);; slot++) {
    int place = table->slots[slot & 0x7fff] - 1;
    if (place < 0 || same(text, table->names + place * table->stride)) return place;
  }
}

static void index_names(struct table *table, void *rows, int count, size_t stride) {
  table->names = rows, table->stride = stride;
  for (int place = 0; place < count; place++) {
    unsigned slot = hash(text_of(table->names + place * stride));
    while (table->slots[slot & 0x7fff]) slot++;
    table->slots[slot & 0x7fff] = place + 1;
  }
}

/* What changes in a file. */
static sqlite3 *db;
static bool storing;                   /* once the register is read */
enum { BEGIN, COMMIT, NEW_RECORD, CHANGE_RECORD, NEW_STEP, CHANGE_STEP, PUT, TAKE, HAND, STATEMENTS };
static sqlite3_stmt *statements[STATEMENTS];
static const char *const sql[] = {"BEGIN IMMEDIATE", "COMMIT",
  "INSERT INTO clearance VALUES (?1, ?2, ?3, ?4, ?5, ?6)",
  "UPDATE clearance SET phase = ?3, last_at = ?4 WHERE requester = ?1 AND number = ?2",
  "INSERT INTO step VALUES (?1, ?2, ?3, ?4, ?5, ?6, 'Waiting', NULL)",
  "UPDATE step SET state = ?5, reader = ?6 WHERE requester = ?1 AND number = ?2 AND round = ?3 AND ordinal = ?4",
  "INSERT INTO hold VALUES (?3, ?4, ?1, ?2)",
  "DELETE FROM hold WHERE kind = ?3 AND place = ?4 AND requester = ?1 AND number = ?2",
  "UPDATE network_point SET hand_requester = ?1, hand_number = ?2, position = ?4 WHERE name = ?3"};

/* Carries a statement out for a record (or none), with further values: t is a text or NULL, n a long. */
static void change(int which, const struct record *record, const char *types, ...) {
  sqlite3_stmt *statement = statements[which];
  va_list values;
  if (!storing) return;
  va_start(values, types);
  if (record) sqlite3_bind_text(statement, 1, staff[record->requester].name, -1, SQLITE_STATIC);
  if (record) sqlite3_bind_int64(statement, 2, record->number);
  for (int at = 3; *types; at++)
    if (*types++ == 'n') sqlite3_bind_int64(statement, at, va_arg(values, long));
    else sqlite3_bind_text(statement, at, va_arg(values, const char *), -1, SQLITE_STATIC);
  va_end(values);
  if (sqlite3_step(statement) != SQLITE_DONE) die(sqlite3_errmsg(db));
  sqlite3_reset(statement);
  sqlite3_clear_bindings(statement);
}

static void begin(void) { change(BEGIN, 0, ""); }

/* Holds. */
static struct bag *bag_at(enum kind kind, int place) { return kind >= TESTED ? &sections[place].holds : &points[place].holds; }
static const char *name_at(enum kind kind, int place) { return kind >= TESTED ? sections[place].name : points[place].name; }

static int hold_in(const struct bag *bag, enum kind kind, int place, const struct record *by) {
  for (int at = 0; at < bag->count; at++)
    if (bag->holds[at].kind == kind && bag->holds[at].place == place && bag->holds[at].by == by) return at;
  return -1;
}

static bool has(const struct record *record, enum kind kind, int place) {
  return hold_in(bag_at(kind, place), kind, place, record) >= 0;
}

static void add_to(struct bag *bag, struct hold hold) {
  bag->holds = grown(bag->holds, bag->count, &bag->room, sizeof hold);
  bag->holds[bag->count++] = hold;
}

static void put(struct record *record, enum kind kind, int place) {
  if (has(record, kind, place)) return;
  add_to(bag_at(kind, place), (struct hold){kind, place, record});
  if (kind >= TESTED) add_to(&record->own, (struct hold){kind, place, record});
  change(PUT, record, "tt", kinds[kind], name_at(kind, place));
}

static void take(struct record *record, enum kind kind, int place) {
  struct bag *bags[] = {bag_at(kind, place), &record->own};
  if (!has(record, kind, place)) return;
  for (int bag = 0; bag < (kind >= TESTED ? 2 : 1); bag++) {
    int at = hold_in(bags[bag], kind, place, record);
    bags[bag]->holds[at] = bags[bag]->holds[--bags[bag]->count];
  }
  change(TAKE, record, "tt", kinds[kind], name_at(kind, place));
}

static int crew_of(const struct record *record, struct text crew) {
  for (int at = 0; at < record->crew_count; at++) if (same(crew, record->crews[at])) return at;
  return -1;
}

static void add_crew(struct record *record, struct text crew) {
  char name[NAME] = "";
  memcpy(name, crew.at, crew.size);
  int at = record->crew_count++;
  if (!(record->crews = realloc(record->crews, record->crew_count * NAME))) die("no memory");
  for (; at && strcmp(record->crews[at - 1], name) > 0; at--) memcpy(record->crews[at], record->crews[at - 1], NAME);
  memcpy(record->crews[at], name, NAME);
  change(PUT, record, "tt", kinds[CREW], record->crews[at]);
}

/* A fence: the sections that can be reached from the work section without passing a cut. */
static int inside[SECTIONS], cut_by[POINTS], touched[POINTS], search;
static int fence[SECTIONS], fence_size;

static void search_fence(int work, const int *cuts, int count) {
  search++;
  for (int at = 0; at < count; at++) if (cuts[at] >= 0) cut_by[cuts[at]] = search;
  fence[0] = work, fence_size = 1, inside[work] = search;
  for (int at = 0; at < fence_size; at++) {
    int place = fence[at];
    for (int edge = sections[place].first_neighbour; edge < sections[place + 1].first_neighbour; edge++) {
      const struct point *point = &points[neighbours[edge]];
      int next = point->ends[point->ends[0] == place];
      if (cut_by[neighbours[edge]] == search || inside[next] == search) continue;
      inside[next] = search, fence[fence_size++] = next;
    }
  }
}

static bool outside_fence(const struct record *record, int section) {
  search_fence(record->work, record->cuts, record->cut);
  return section < 0 || inside[section] != search;
}

/* Commands. */
enum { K_AT = 1, K_BY = 2, K_CLEAR = 4, K_CLEARANCE = 8, K_CREW = 16, K_DEAD = 32, K_DO = 64, K_DONE = 128, K_NOTIFIED = 256,
  K_POINTS = 512, K_SECTION = 1024, K_STEP = 2048, K_STEPS = 4096, K_TEXT = 8192 };
static const char *const keys[] = {"at", "by", "clear", "clearance", "crew", "dead", "do", "done", "notified", "points",
  "section", "step", "steps", "text", 0};
enum { REQUEST, ORDER, INSTRUCT, REPEAT, REPORT, GRANT, TEST, GROUND_IT, UNGROUND, SIGN_ON, SIGN_OFF, RELEASE, RESTORE, SHOW };
static const char *const commands[] = {"request", "order", "instruct", "repeat", "report", "grant", "test", "ground",
  "unground", "sign_on", "sign_off", "release", "restore", "show", 0};
enum { STEPPING = 1 << ORDERED | 1 << RESTORING };
static const struct { enum role role; int phases, keys; } asked[] = {
  [REQUEST] = {CHARGE, 0, K_AT | K_SECTION},
  [ORDER] = {OPERATOR, 1 << REQUESTED, K_AT | K_CLEARANCE | K_POINTS | K_STEPS},
  [INSTRUCT] = {OPERATOR, STEPPING, K_AT | K_CLEARANCE | K_STEP},
  [REPEAT] = {FIELD, STEPPING, K_AT | K_CLEARANCE | K_STEP | K_TEXT},
  [REPORT] = {FIELD, STEPPING, K_AT | K_CLEARANCE | K_STEP | K_DONE},
  [GRANT] = {OPERATOR, 1 << ORDERED, K_AT | K_CLEARANCE},
  [TEST] = {CHARGE, 1 << GRANTED, K_AT | K_CLEARANCE | K_SECTION | K_DEAD},
  [GROUND_IT] = {CHARGE, 1 << GRANTED, K_AT | K_CLEARANCE | K_SECTION},
  [UNGROUND] = {CHARGE, 1 << GRANTED, K_AT | K_CLEARANCE | K_SECTION},
  [SIGN_ON] = {CHARGE, 1 << GRANTED, K_AT | K_CLEARANCE | K_CREW},
  [SIGN_OFF] = {CHARGE, 1 << GRANTED, K_AT | K_CLEARANCE | K_CREW},
  [RELEASE] = {CHARGE, 1 << GRANTED, K_AT | K_CLEARANCE | K_NOTIFIED | K_CLEAR},
  [RESTORE] = {OPERATOR, 1 << RELEASED, K_AT | K_CLEARANCE | K_STEPS},
  [SHOW] = {CHARGE, 0, K_CLEARANCE}};
struct list { struct text texts[512]; int count; };
static struct { struct text values[14]; long at, step; bool flags[14]; struct list points, steps; int found; } said;
#define VALUE(key) said.values[__builtin_ctz(key)]
#define FLAG(key) said.flags[__builtin_ctz(key)]

/* Reads a text without escapes; NULL where there is none. */
static const char *read_text(const char *at, struct text *text) {
  const char *end = *at == '"' ? strchr(at + 1, '"') : 0;
  if (!end || memchr(at + 1, '\\', end - at - 1)) return 0;
  *text = (struct text){at + 1, end - at - 1};
  return end + 1;
}

static const char *read_value(const char *at, int key) {
  if (*at == '"') return read_text(at, &said.values[key]);
  if (*at == 't' || *at == 'f') {
    said.flags[key] = *at == 't';
    return strncmp(at, "true", 4) == 0 ? at + 4 : strncmp(at, "false", 5) == 0 ? at + 5 : 0;
  }
  if (*at != '[') {
    char *end;
    long number = strtol(at, &end, 10);
    *(1 << key == K_AT ? &said.at : &said.step) = number;
    return end == at ? 0 : end;
  }
  struct list *list = 1 << key == K_POINTS ? &said.points : &said.steps;
  list->count = 0;
  for (at++; at && *at != ']'; at += at && *at == ',')
    if (list->count == 512 || !(at = read_text(at, &list->texts[list->count++]))) return 0;
  return at ? at + 1 : 0;
}

/* Whether the line is an object of known keys. */
static bool read_command(const char *at) {
  struct text key;
  said.found = 0;
  if (*at++ != '{') return false;
  while ((at = read_text(at, &key)) && *at++ == ':') {
    int known = word(keys, key);
    if (known < 0 || !(at = read_value(at, known))) return false;
    said.found |= 1 << known;
    if (*at == '}') return true;
    if (*at++ != ',') return false;
  }
  return false;
}

static void print_record(const struct record *record) { printf("%s/%d", staff[record->requester].name, record->number); }

static void print_card(const struct record *record) {
  fputs("\"card\":{\"clearance\":\"", stdout), print_record(record);
  printf("\",\"done\":%d,\"holder\":\"%s\",\"phase\":\"%s\",\"round\":%d,\"steps\":%d}", record->done, staff[record->holder].name,
    phases[record->phase], record->round, record->steps);
}

static int by_number(const void *one, const void *other) { return *(const int *)one - *(const int *)other; }

static int by_record(const struct record *one, const struct record *other) {
  int order = strcmp(staff[one->requester].name, staff[other->requester].name);
  return order ? order : one->number - other->number;
}

static int by_hold(const void *one, const void *other) {
  const struct hold *a = one, *b = other;
  return a->kind != b->kind ? (int)a->kind - (int)b->kind : a->place != b->place ? a->place - b->place : by_record(a->by, b->by);
}

static void print_view(const struct record *record) {
  static int near_points[POINTS];
  static struct bag near_holds;
  int near = 0;
  bool has_fence = record->phase != REQUESTED && record->phase != CLOSED;
  fence_size = near_holds.count = 0;
  if (has_fence) search_fence(record->work, record->cuts, record->cut);
  qsort(fence, fence_size, sizeof *fence, by_number);
  for (int at = 0; at < fence_size; at++) {
    const struct section *section = &sections[fence[at]];
    for (int hold = 0; hold < section->holds.count; hold++) add_to(&near_holds, section->holds.holds[hold]);
    for (int edge = section->first_neighbour; edge < section[1].first_neighbour; edge++)
      if (touched[neighbours[edge]] != search) touched[neighbours[edge]] = search, near_points[near++] = neighbours[edge];
  }
  qsort(near_points, near, sizeof *near_points, by_number);
  for (int at = 0; at < near; at++)
    for (int hold = 0; hold < points[near_points[at]].holds.count; hold++) add_to(&near_holds, points[near_points[at]].holds.holds[hold]);
  if (near_holds.count) qsort(near_holds.holds, near_holds.count, sizeof *near_holds.holds, by_hold);
  fputs("{\"reply\":\"shown\",\"view\":{", stdout), print_card(record), fputs(",\"crews\":[", stdout);
  for (int at = 0; at < record->crew_count; at++) printf("%s\"%s\"", at ? "," : "", record->crews[at]);
  fputs("],\"fence\":[", stdout);
  for (int at = 0; at < fence_size; at++) printf("%s\"%s\"", at ? "," : "", sections[fence[at]].name);
  fputs("],\"holds\":[", stdout);
  for (int at = 0; at < near_holds.count; at++) {
    const struct hold *hold = &near_holds.holds[at];
    printf("%s{\"by\":\"", at ? "," : ""), print_record(hold->by);
    printf("\",\"kind\":\"%s\",\"place\":\"%s\"}", kinds[hold->kind], name_at(hold->kind, hold->place));
  }
  fputs("],\"points\":[", stdout);
  for (int at = 0; at < near; at++) {
    const struct point *point = &points[near_points[at]];
    printf("%s{\"hand\":", at ? "," : "");
    if (point->hand) putchar('"'), print_record(point->hand), putchar('"');
    else fputs("null", stdout);
    printf(",\"point\":\"%s\",\"position\":\"%s\"}", point->name, point->closed ? "closed" : "open");
  }
  fputs("],\"steps\":[", stdout);
  for (int at = 0; at < record->steps; at++) {
    const struct step *step = &record->of_round[record->round - 1][at];
    const char *quote = step->reader < 0 ? "" : "\"";
    printf("%s{\"reader\":%s%s%s,\"state\":\"%s\",\"text\":\"%s\"}", at ? "," : "", quote,
      step->reader < 0 ? "null" : staff[step->reader].name, quote, states[step->state], step->text);
  }
  printf("],\"work\":\"%s\"}}\n", sections[record->work].name);
}

static struct record *new_record(int requester, int number, int holder, int work, enum phase phase, long at) {
  struct record *record = calloc(1, sizeof *record);
  struct employee *by = &staff[requester];
  if (!record) die("no memory");
  *record = (struct record){.requester = requester, .number = number, .holder = holder, .work = work, .phase = phase, .at = at};
  by->records = grown(by->records, by->count, &by->room, sizeof record);
  return by->records[by->count++] = record;
}

static struct record *find_record(struct text name) {
  const char *slash = memchr(name.at, '/', name.size);
  int requester = slash ? find(&staff_table, (struct text){name.at, slash - name.at}) : -1;
  int number = slash ? atoi(slash + 1) : 0;
  return requester < 0 || number < 1 || number > staff[requester].count ? 0 : staff[requester].records[number - 1];
}

/* The steps that are given, with the places of their points; false where an action is unknown. */
static struct step given[512];

static bool read_steps(void) {
  for (int at = 0; at < said.steps.count; at++) {
    struct text text = said.steps.texts[at];
    const char *blank = memchr(text.at, ' ', text.size);
    int action = blank ? word(actions, (struct text){text.at, blank - text.at}) : -1;
    if (action < 0 || text.size > 39) return false;
    struct text point = {blank + 1, text.at + text.size - blank - 1};
    given[at] = (struct step){.action = action, .point = find(&point_table, point), .state = WAITING, .reader = -1};
    memcpy(given[at].text, text.at, text.size);
  }
  return true;
}

/* Whether the given steps at a point are these, in this sequence. */
static bool steps_are(int point, const enum action *wanted, int count, bool or_leave) {
  int found = 0;
  for (int at = 0; at < said.steps.count; at++) {
    if (given[at].point != point) continue;
    bool left = or_leave && found == count - 1 && given[at].action == DO_LEAVE;
    if (found == count || (given[at].action != wanted[found] && !left)) return false;
    found++;
  }
  return found == count;
}

static enum refusal any_elsewhere(const int *places, int count) {
  for (int at = 0; at < said.steps.count; at++) {
    bool there = false;
    for (int place = 0; place < count; place++) there |= places[place] == given[at].point;
    if (!there) return STEPS_WRONG;
  }
  return NONE;
}

static enum refusal order_fault(struct record *record, int *places) {
  int count = said.points.count;
  if (!count) return EMPTY_ORDER;
  if (count > MOST_POINTS || said.steps.count > MOST_STEPS) return LONG_ORDER;
  for (int at = 0; at < count; at++) {
    struct text point = said.points.texts[at];
    for (int before = 0; before < at; before++)
      if (said.points.texts[before].size == point.size && !memcmp(said.points.texts[before].at, point.at, point.size)) return POINT_TWICE;
    places[at] = find(&point_table, point);
  }
  search_fence(record->work, places, count);
  for (int at = 0; at < fence_size; at++) if (sections[fence[at]].source) return SOURCE_INSIDE;
  for (int at = 0; at < count; at++) {
    const int *ends = places[at] < 0 ? 0 : points[places[at]].ends;
    if (!ends || (inside[ends[0]] == search) == (inside[ends[1]] == search)) return NOT_ON_FENCE;
  }
  for (int at = 0; at < count; at++) {
    const struct point *point = &points[places[at]];
    enum action wanted[4] = {DO_OPEN};
    int wants = 1;
    if (point->lockable) wanted[wants++] = DO_BLOCK;
    if (point->remote) wanted[wants++] = DO_CONTROL;
    wanted[wants++] = DO_TAG;
    if (!steps_are(places[at], wanted, wants, false)) return STEPS_WRONG;
  }
  return any_elsewhere(places, count);
}

static enum refusal restore_fault(struct record *record) {
  int held[MOST_POINTS], count = 0;
  if (!said.steps.count) return EMPTY_ORDER;
  if (said.steps.count > MOST_STEPS) return LONG_ORDER;
  for (int at = 0; at < record->in_round[0]; at++) {
    int point = record->of_round[0][at].point;
    bool known = !has(record, HELD_OPEN, point);
    for (int before = 0; before < count; before++) known |= held[before] == point;
    if (!known) held[count++] = point;
  }
  for (int at = 0; at < count; at++) {
    enum action wanted[4];
    int wants = 0;
    if (has(record, TAG, held[at])) wanted[wants++] = DO_UNTAG;
    if (has(record, CONTROL, held[at])) wanted[wants++] = DO_UNCONTROL;
    if (has(record, BLOCK, held[at])) wanted[wants++] = DO_UNBLOCK;
    wanted[wants++] = DO_CLOSE;
    if (!steps_are(held[at], wanted, wants, true)) return STEPS_WRONG;
  }
  return any_elsewhere(held, count);
}

static void begin_round(struct record *record, int round, const struct step *steps, int count) {
  struct step *copy = malloc((count + 1) * sizeof *copy);
  if (!copy) die("no memory");
  record->of_round[round - 1] = memcpy(copy, steps, count * sizeof *copy);
  record->in_round[round - 1] = count;
  record->round = round, record->steps = count, record->done = 0;
}

static void write_round(const struct record *record) {
  for (int at = 0; at < record->steps; at++) {
    const struct step *step = &record->of_round[record->round - 1][at];
    change(NEW_STEP, record, "nntt", (long)record->round, at + 1L, stored_actions[step->action], points[step->point].name);
  }
}

/* Whether a hold hinders a CLOSE. */
static bool is_held(const struct record *record, const struct point *point) {
  for (int at = 0; at < point->holds.count; at++)
    if (point->holds.holds[at].by != record || point->holds.holds[at].kind != HELD_OPEN) return true;
  return false;
}

static void do_step(struct record *record, const struct step *step) {
  struct point *point = &points[step->point];
  switch (step->action) {
  case DO_OPEN: case DO_BLOCK: case DO_CONTROL: case DO_TAG: put(record, (enum kind)step->action, step->point); break;
  case DO_UNTAG: take(record, TAG, step->point); break;
  case DO_UNCONTROL: take(record, CONTROL, step->point); break;
  case DO_UNBLOCK: take(record, BLOCK, step->point); break;
  case DO_CLOSE: case DO_LEAVE: take(record, HELD_OPEN, step->point); break;
  }
  if (step->action == DO_OPEN || step->action == DO_CLOSE) point->closed = step->action == DO_CLOSE;
}

/* The three commands at a step: its checks, then its changes. */
static enum refusal at_step(int command, int caller, struct record *record) {
  if (said.step < 1 || said.step > record->steps) return NO_STEP;
  struct step *step = &record->of_round[record->round - 1][said.step - 1];
  struct point *point = &points[step->point];
  if (command == INSTRUCT) {
    if (said.step - 1 > record->done) return OUT_OF_TURN;
    if (step->state != WAITING) return STEP_STATE;
    if (point->hand && point->hand != record) return IN_HAND;
    if (step->action == DO_CLOSE && is_held(record, point)) return HELD;
  } else if (command == REPEAT) {
    if (step->state != INSTRUCTED && step->state != REPEATED) return STEP_STATE;
    if (!same(VALUE(K_TEXT), step->text)) return REPEAT_DIFFERS;
  } else {
    if (step->state != REPEATED) return STEP_STATE;
    if (step->reader != caller) return WRONG_REPORTER;
  }
  begin();
  if (command == INSTRUCT) step->state = INSTRUCTED, point->hand = record;
  else if (command == REPEAT) step->state = REPEATED, step->reader = caller;
  else {
    point->hand = 0;
    if (FLAG(K_DONE)) step->state = DONE, record->done++, do_step(record, step);
    else step->state = WAITING, step->reader = -1;
    if (record->phase == RESTORING && record->done == record->steps) record->phase = CLOSED;
  }
  change(CHANGE_STEP, record, "nntt", (long)record->round, said.step, states[step->state],
    step->reader < 0 ? 0 : staff[step->reader].name);
  if (command != REPEAT) change(HAND, point->hand, "tn", point->name, (long)point->closed);
  return NONE;
}

/* The commands of the holder of a granted clearance. */
static enum refusal at_work(int command, struct record *record, int section) {
  switch (command) {
  case TEST:
    if (outside_fence(record, section)) return OUTSIDE_FENCE;
    begin(), (FLAG(K_DEAD) ? put : take)(record, TESTED, section);
    break;
  case GROUND_IT:
    if (outside_fence(record, section)) return OUTSIDE_FENCE;
    if (!has(record, TESTED, section)) return NOT_TESTED;
    if (has(record, GROUND, section)) return GROUNDED;
    begin(), put(record, GROUND, section);
    break;
  case UNGROUND:
    if (outside_fence(record, section)) return OUTSIDE_FENCE;
    if (!has(record, GROUND, section)) return NOT_GROUNDED;
    if (section == record->work && record->crew_count) return CREWS_ON;
    begin(), take(record, GROUND, section), take(record, TESTED, section);
    break;
  case SIGN_ON:
    if (!has(record, TESTED, record->work)) return NOT_TESTED;
    if (!has(record, GROUND, record->work)) return NOT_GROUNDED;
    if (crew_of(record, VALUE(K_CREW)) >= 0) return CREW_STATE;
    begin(), add_crew(record, VALUE(K_CREW));
    break;
  case SIGN_OFF: {
    int crew = crew_of(record, VALUE(K_CREW));
    if (crew < 0) return CREW_STATE;
    begin(), change(TAKE, record, "tt", kinds[CREW], record->crews[crew]);
    memmove(record->crews[crew], record->crews[crew + 1], (--record->crew_count - crew) * NAME);
    break;
  }
  default:
    if (record->crew_count) return CREWS_ON;
    for (int at = 0; at < record->own.count; at++) if (record->own.holds[at].kind == GROUND) return GROUNDED;
    if (!FLAG(K_NOTIFIED) || !FLAG(K_CLEAR)) return NOT_ATTESTED;
    begin(), record->phase = RELEASED;
    while (record->own.count) take(record, TESTED, record->own.holds[0].place);
  }
  return NONE;
}

static enum refusal request(int caller, int section, struct record **made) {
  if (staff[caller].role != CHARGE) return WRONG_ROLE;
  if (section < 0) return UNKNOWN_SECTION;
  if (staff[caller].count == MOST_RECORDS) return TOO_MANY_CLEARANCES;
  struct record *record = *made = new_record(caller, staff[caller].count + 1, caller, section, REQUESTED, said.at);
  begin();
  change(NEW_RECORD, record, "tttn", staff[caller].name, sections[section].name, phases[REQUESTED], said.at);
  return NONE;
}

static enum refusal decide(int command, struct record **shown) {
  int caller = find(&staff_table, VALUE(K_BY)), places[MOST_POINTS] = {0};
  int section = said.found & K_SECTION ? find(&section_table, VALUE(K_SECTION)) : -1;
  enum refusal refusal;
  if (caller < 0) return UNKNOWN_CALLER;
  if (command == REQUEST) return request(caller, section, shown);
  if (command != SHOW && staff[caller].role != asked[command].role) return WRONG_ROLE;
  struct record *record = *shown = find_record(VALUE(K_CLEARANCE));
  if (!record) return UNKNOWN_CLEARANCE;
  if (command == SHOW) return NONE;
  if (asked[command].role == CHARGE && record->holder != caller) return NOT_HOLDER;
  if (said.at < record->at) return EARLIER;
  if (!(asked[command].phases & 1 << record->phase)) return WRONG_PHASE;
  switch (command) {
  case ORDER:
    if ((refusal = order_fault(record, places))) return refusal;
    record->cut = said.points.count, memcpy(record->cuts, places, record->cut * sizeof *places);
    begin(), record->phase = ORDERED, begin_round(record, 1, given, said.steps.count), write_round(record);
    break;
  case RESTORE:
    if ((refusal = restore_fault(record))) return refusal;
    begin(), record->phase = RESTORING, begin_round(record, 2, given, said.steps.count), write_round(record);
    break;
  case GRANT:
    if (record->done < record->steps) return STEPS_LEFT;
    begin(), record->phase = GRANTED;
    break;
  case INSTRUCT: case REPEAT: case REPORT:
    if ((refusal = at_step(command, caller, record))) return refusal;
    break;
  default:
    if ((refusal = at_work(command, record, section))) return refusal;
  }
  record->at = said.at;
  change(CHANGE_RECORD, record, "tn", phases[record->phase], said.at);
  return NONE;
}

static void answer(const char *line) {
  int command = read_command(line) && said.found & K_DO ? word(commands, VALUE(K_DO)) : -1;
  if (command < 0 || said.found != (asked[command].keys | K_BY | K_DO) || (said.found & K_STEPS && !read_steps())
      || (said.found & K_CREW && VALUE(K_CREW).size >= NAME)) {
    fputs("{\"fault\":\"NotCommand\"}\n", stdout);
    return;
  }
  struct record *record = 0;
  enum refusal refusal = decide(command, &record);
  if (refusal) printf("{\"number\":%d,\"refusal\":\"%s\",\"reply\":\"refused\"}\n", refusal, refusals[refusal]);
  else if (command == SHOW) print_view(record);
  else change(COMMIT, 0, ""), putchar('{'), print_card(record), fputs(",\"reply\":\"accepted\"}\n", stdout);
}

/* The opening: rows of three files, or of the tables. */
static void set_name(char *name, const char *text) { if (strlen(text) >= NAME) die("a long name"); strcpy(name, text); }

static int find_or_die(const struct table *table, const char *name) {
  int place = find(table, text_of(name));
  if (place < 0) die("an unknown name");
  return place;
}

static char point_ends[POINTS][2][NAME];

static void add_section(const char **row) {
  if (section_count == SECTIONS) die("many sections");
  set_name(sections[section_count].name, row[0]), sections[section_count++].source = *row[1] == 'y' || *row[1] == '1';
}

static void add_point(const char **row) {
  if (point_count == POINTS) die("many points");
  struct point *point = &points[point_count];
  set_name(point->name, row[0]), set_name(point_ends[point_count][0], row[1]), set_name(point_ends[point_count][1], row[2]);
  point->ends[0] = point_count++;      /* until the ends are looked up, its own place among them */
  point->lockable = *row[3] == 'y' || *row[3] == '1', point->remote = *row[4] == 'y' || *row[4] == '1';
  point->closed = *row[5] == 'c' || *row[5] == '1';
}

static void add_employee(const char **row) {
  struct text role = text_of(row[1]);
  char small[NAME] = "";
  if (staff_count == STAFF || role.size >= NAME) die("a large staff");
  for (size_t at = 0; at < role.size; at++) small[at] = row[1][at] | 0x20;
  set_name(staff[staff_count].name, row[0]), staff[staff_count++].role = word(roles, text_of(small));
}

static int by_name(const void *one, const void *other) { return strcmp(one, other); }

static void link_network(void) {
  static int next[SECTIONS + 1];
  qsort(sections, section_count, sizeof *sections, by_name), qsort(points, point_count, sizeof *points, by_name);
  index_names(&section_table, sections, section_count, sizeof *sections);
  index_names(&point_table, points, point_count, sizeof *points);
  index_names(&staff_table, staff, staff_count, sizeof *staff);
  for (int at = 0; at < point_count; at++) {
    int row = points[at].ends[0];
    for (int end = 0; end < 2; end++)
      sections[(points[at].ends[end] = find_or_die(&section_table, point_ends[row][end])) + 1].first_neighbour++;
  }
  for (int at = 0; at < section_count; at++) next[at + 1] = sections[at + 1].first_neighbour += sections[at].first_neighbour;
  for (int at = 0; at < point_count; at++)
    for (int end = 0; end < 2; end++) neighbours[next[points[at].ends[end]]++] = at;
}

static void read_csv(const char *path, int fields, void (*add)(const char **)) {
  char line[256], *end;
  FILE *file = fopen(path, "r");
  if (!file || !fgets(line, sizeof line, file)) die(path);
  while (fgets(line, sizeof line, file)) {
    const char *row[8] = {line};
    line[strcspn(line, "\r\n")] = 0;
    for (int field = 1; field < fields; field++) {
      if (!(end = strchr(row[field - 1], ','))) die(path);
      *end = 0, row[field] = end + 1;
    }
    add(row);
  }
  fclose(file);
}

static void read_table(const char *query, int columns, void (*add)(const char **)) {
  sqlite3_stmt *rows;
  if (sqlite3_prepare_v2(db, query, -1, &rows, 0)) die(sqlite3_errmsg(db));
  while (sqlite3_step(rows) == SQLITE_ROW) {
    const char *row[8] = {0};
    for (int column = 0; column < columns; column++) row[column] = (const char *)sqlite3_column_text(rows, column);
    add(row);
  }
  sqlite3_finalize(rows);
}

static struct record *record_of(const char *requester, const char *number) {
  struct employee *by = &staff[find_or_die(&staff_table, requester)];
  return atoi(number) > by->count ? (die("a record is missing"), (struct record *)0) : by->records[atoi(number) - 1];
}

static void add_record(const char **row) {
  new_record(find_or_die(&staff_table, row[0]), atoi(row[1]), find_or_die(&staff_table, row[2]),
    find_or_die(&section_table, row[3]), word(phases, text_of(row[4])), atol(row[5]));
}

static void add_step(const char **row) {
  struct record *record = record_of(row[0], row[1]);
  int round = atoi(row[2]) - 1, ordinal = atoi(row[3]);
  if (ordinal == 1) record->round = round + 1, record->done = 0;
  record->of_round[round] = grown(record->of_round[round], ordinal - 1, &record->room[round], sizeof(struct step));
  struct step *step = &record->of_round[round][ordinal - 1];
  *step = (struct step){word(stored_actions, text_of(row[4])), find_or_die(&point_table, row[5]), word(states, text_of(row[6])),
    row[7] ? find_or_die(&staff_table, row[7]) : -1, ""};
  snprintf(step->text, sizeof step->text, "%s %s", actions[step->action], row[5]);
  record->in_round[round] = record->steps = ordinal, record->done += step->state == DONE;
  if (round == 0 && step->action == DO_OPEN) record->cuts[record->cut++] = step->point;
}

static void add_hold(const char **row) {
  struct record *record = record_of(row[2], row[3]);
  enum kind kind = word(kinds, text_of(row[0]));
  if (kind == CREW) { add_crew(record, text_of(row[1])); return; }
  put(record, kind, find_or_die(kind >= TESTED ? &section_table : &point_table, row[1]));
}

static void add_hand(const char **row) { points[find_or_die(&point_table, row[0])].hand = record_of(row[1], row[2]); }

static void open_register(const char *path, const char *journal) {
  char pragma[64];
  if (sqlite3_open_v2(path, &db, SQLITE_OPEN_READWRITE, 0)) die("no register");
  snprintf(pragma, sizeof pragma, "PRAGMA journal_mode=%s", journal);
  if (sqlite3_exec(db, pragma, 0, 0, 0) || sqlite3_exec(db, "PRAGMA synchronous=FULL", 0, 0, 0)) die(sqlite3_errmsg(db));
  read_table("SELECT name, source FROM section", 2, add_section);
  read_table("SELECT name, from_end, to_end, lockable, remote, position FROM network_point", 6, add_point);
  read_table("SELECT name, role FROM staff", 2, add_employee);
  link_network();
  read_table("SELECT * FROM clearance ORDER BY requester, number", 6, add_record);
  read_table("SELECT * FROM step ORDER BY requester, number, round, ordinal", 8, add_step);
  read_table("SELECT * FROM hold", 4, add_hold);
  read_table("SELECT name, hand_requester, hand_number FROM network_point WHERE hand_requester NOT NULL", 3, add_hand);
  for (int at = 0; at < STATEMENTS; at++)
    if (sqlite3_prepare_v3(db, sql[at], -1, SQLITE_PREPARE_PERSISTENT, &statements[at], 0)) die(sqlite3_errmsg(db));
  storing = true;
}

int main(int count, char **words) {
  char *line = 0;
  size_t room = 0;
  if (count != 4) die("SECTIONS POINTS STAFF, or --db FILE JOURNAL");
  if (strcmp(words[1], "--db") == 0) open_register(words[2], words[3]);
  else read_csv(words[1], 2, add_section), read_csv(words[2], 6, add_point), read_csv(words[3], 3, add_employee), link_network();
  setvbuf(stdout, 0, _IOFBF, 1 << 16);
  while (getline(&line, &room, stdin) > 0) if (*line != '\n') answer(line);
  fflush(stdout);
  for (int at = 0; at < STATEMENTS; at++) sqlite3_finalize(statements[at]);
  return sqlite3_close(db) ? 1 : 0;
}
