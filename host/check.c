/*
 * The inspector's command, as ../check starts it once all is built: whether treatment records can come from the rules under a plan table.
 * NOT PROVED: it looks at the two files apart, hands them to the proved program `aprcheck` or, where they are too long for it or go by
 * rule 1, to the proved function asbru_check, and says in words what the answer means. USAGE below is its manual.
 *
 *   check APRCHECK ARGUMENT..    APRCHECK is the command that runs the program
 */
#define _POSIX_C_SOURCE 200809L
#include <dirent.h>
#include <fcntl.h>
#include <signal.h>
#include <stdarg.h>
#include <string.h>
#include <sys/stat.h>
#include <sys/wait.h>
#include <unistd.h>

#include "asbru_text.h"
#include "files.h"

static const char USAGE[] =
    "usage: check [--rule 1|2] TABLE RECORD\n"
    "       check [--rule 1|2] --all [--csv] TABLE FOLDER\n"
    "       check --help\n";

static const char HELP[] =
    "\n"
    "Settles whether a treatment record (a file with the mark APR) can come from the rules under a plan table (mark APT), be\n"
    "the table of version 1, whose plans wait for a number of children, or of version 2, whose plans wait for a formula.\n"
    "It prints a line as the program aprcheck does, and then one line in words:\n"
    "\n"
    "  accepted PLANS STEPS        for every step some picks lead to the states shown\n"
    "  refused NUMBER STEP PLAN    NUMBER says why: docs/RULES.md, paragraph 10.NUMBER. STEP and PLAN say where, 0 where\n"
    "                              the paragraph names none; of NUMBER 22 a node of a formula stands in PLAN's place\n"
    "\n"
    "--all judges every file of a folder, a line for each, and ends with a line that counts them. Names that begin with a\n"
    "dot are passed over, which standard error tells, and so is the table itself. --csv writes the same for a spreadsheet,\n"
    "with the count on standard error. Bytes of a name that do not print are shown as \\xNN.\n"
    "\n"
    "--rule 1 is for records that were kept before rule 2 came; without it, or with --rule 2, a record goes by rule 2. They\n"
    "differ in one thing: where a plan retries what is aborted, and a child that it waits for is Aborted, rule 1 counts\n"
    "that child as lost, and the plan aborts before any retry; rule 2 does not. Which rule a record was kept by is not in\n"
    "the record: ask whoever kept it. A record that one rule refuses is not tried by the other. The words name the rule.\n"
    "\n"
    "The program goes by rule 2 and takes 65,536 bytes, table and record together. By rule 1, and where there are more bytes,\n"
    "the library's function asbru_check judges. The words say which of the two it was.\n"
    "\n"
    "Exit status: 0 accepted, 1 refused, 2 not judged. A file that cannot be read, or is no table or record at all, is not\n"
    "judged: standard error then names it and says what is wrong with it. Only regular files are read. Of a folder: 2 if a\n"
    "file was not judged, there was none or the table is refused; else 1 if one was refused, else 0.\n";

enum { ACCEPTED, REFUSED, NOT_JUDGED, VERDICTS };
static const char *const VERDICT[] = {"accepted", "refused", "not judged"};

/* What `aprcheck` takes: document 01's limit, with its number 16. */
enum { PROGRAM_TAKES = 65536, PATH_ROOM = 8192 };

typedef struct {
    const char *name;
    uint8_t *bytes;
    size_t length;
} File;

/* What records are judged by: the command that runs the program, and the number of the rule. */
typedef struct {
    char *program;
    uint32_t rule;
} Means;

/* What came of one pair. Accepted: plan has the number of plans, step that of steps. Refused: number, step and plan. */
typedef struct {
    int verdict;
    unsigned number, step, plan;
    int by_library;
    char words[600];
} Result;

static const Result NOTHING = {NOT_JUDGED, 0, 0, 0, 0, ""};

/* Adds to the words of a result. */
static void say(Result *result, const char *format, ...) {
    size_t used = strlen(result->words);
    va_list values;
    va_start(values, format);
    vsnprintf(result->words + used, sizeof result->words - used, format, values);
    va_end(values);
}

/* Prints a name so that no byte of it can be taken for a line of ours. */
static void print_name(FILE *to, const char *name) {
    for (; *name; name++) {
        unsigned char byte = (unsigned char)*name;
        fprintf(to, byte < ' ' || byte == 127 ? "\\x%02x" : "%c", byte);
    }
}

static const char *plural(size_t count) {
    return count == 1 ? "" : "s";
}

static unsigned u16_at(const uint8_t *bytes, size_t at) {
    return bytes[at] + 256u * bytes[at + 1];
}

static unsigned version_of(const File *file) {
    return u16_at(file->bytes, 3);
}

static unsigned plans_of(const File *file) {
    return u16_at(file->bytes, 5);
}

/* How many nodes a table counts: none in version 1, nor where it ends before the count. */
static unsigned nodes_of(const File *table) {
    size_t at = ASBRU_HEADER + ASBRU_ENTRY * (size_t)plans_of(table);
    return version_of(table) == ASBRU_FORMAT_2 && table->length >= at + 2 ? u16_at(table->bytes, at) : 0;
}

/* ---- Looking at the files apart ---- */

static int has_mark(const File *file, const char *mark) {
    return file->length >= 3 && memcmp(file->bytes, mark, 3) == 0;
}

/* Whether a file begins as what it should be; if not, what it is instead. */
static int begins(const File *file, const char *mark, const char *what, const char *other, const char *other_what, Result *result) {
    if (file->length == 0) {
        say(result, "the file is empty, and %s is wanted", what);
    } else if (has_mark(file, other)) {
        say(result, "this is %s (mark %s), and %s (mark %s) is wanted", other_what, other, what, mark);
    } else if (!has_mark(file, mark)) {
        say(result, "this is no %s: it does not begin with the mark %s", strchr(what, ' ') + 1, mark);
    } else if (file->length < ASBRU_HEADER) {
        say(result, "the file has %zu byte%s, and the header of %s alone has 8", file->length, plural(file->length), what);
    } else {
        return 1;
    }
    return 0;
}

static int begins_as_table(const File *file, Result *result) {
    return begins(file, "APT", "a plan table", "APR", "a treatment record", result);
}

static int begins_as_record(const File *file, Result *result) {
    return begins(file, "APR", "a treatment record", "APT", "a plan table", result);
}

/*
 * Whether a table has the length that its own counts of plans and, in version 2, of nodes ask for. The program finds the table's end in its
 * input by them, so only then are the two files the table and the record that it judges. A header that the program refuses itself is left
 * to it: it then takes all of its input for the table, and answers 3 or 4 whatever follows.
 */
static int has_its_length(const File *table, Result *result) {
    unsigned version = version_of(table), n = plans_of(table), nodes = nodes_of(table);
    if (version < ASBRU_FORMAT || version > ASBRU_FORMAT_2 || n < 1 || n > ASBRU_MOST_PLANS || table->bytes[7] != 0) return 1;
    size_t end_of_plans = ASBRU_HEADER + ASBRU_ENTRY * (size_t)n;
    size_t due = version == ASBRU_FORMAT ? end_of_plans : asbru_node_at(n, nodes);
    if (table->length == due) return 1;
    say(result, "the table has %zu bytes, and its count of plans, %u, ", table->length, n);
    if (version == ASBRU_FORMAT_2 && table->length < end_of_plans + 2) {
        say(result, "with the count of nodes behind them, as it is of version 2, ");
    } else if (version == ASBRU_FORMAT_2) {
        say(result, "with that of nodes, %u, ", nodes);
    }
    int more = table->length > due;
    size_t off = more ? table->length - due : due - table->length;
    say(result, "asks for %zu: %zu byte%s too %s", due, off, plural(off), more ? "many" : "few");
    return 0;
}

/* ---- Judging ---- */

/* Reads the program's line, which must be one of its two lines from the first byte to the last. */
static int read_line(const char *line, Result *result) {
    char again[80];
    result->verdict = ACCEPTED;
    if (sscanf(line, "accepted %u %u", &result->plan, &result->step) == 2) {
        result->number = ASBRU_DONE;
        snprintf(again, sizeof again, "accepted %u %u\n", result->plan, result->step);
    } else if (sscanf(line, "refused %u %u %u", &result->number, &result->step, &result->plan) == 3) {
        result->verdict = REFUSED;
        snprintf(again, sizeof again, "refused %u %u %u\n", result->number, result->step, result->plan);
    } else {
        return 0;
    }
    return strcmp(line, again) == 0;
}

static int write_all(int to, const File *file) {
    for (size_t done = 0; done < file->length;) {
        ssize_t put = write(to, file->bytes + done, file->length - done);
        if (put <= 0) return 0;
        done += (size_t)put;
    }
    return 1;
}

/* What the program prints for a table and a record, as text, and whether it was given all of both and ended well. */
static int run_program(char *program, const File *table, const File *record, char *line, size_t room) {
    int in[2], out[2];
    if (pipe(in) != 0 || pipe(out) != 0) return 0;
    pid_t child = fork();
    if (child < 0) return 0;
    if (child == 0) {
        char *words[] = {program, NULL};
        dup2(in[0], STDIN_FILENO);
        dup2(out[1], STDOUT_FILENO);
        close(in[0]), close(in[1]), close(out[0]), close(out[1]);
        execv(program, words);
        _exit(127);
    }
    close(in[0]);
    close(out[1]);
    /* the program reads all of its input before it writes its line */
    int given = write_all(in[1], table) && write_all(in[1], record);
    close(in[1]);
    size_t length = 0;
    ssize_t got;
    while ((got = read(out[0], line + length, room - 1 - length)) > 0) length += (size_t)got;
    close(out[0]);
    line[length] = 0;
    int status;
    return waitpid(child, &status, 0) == child && status == 0 && given && got == 0;
}

/*
 * Whether an answer of the program can be about these files: what it counts is so, and what it names is there. Its numbers here are 1 to
 * 15, and 22 of a table of version 2, which names a node: it is handed no more bytes than it takes (16), and names its rule itself (17).
 */
static int is_about(const File *table, const File *record, const Result *result) {
    size_t n = plans_of(table), steps = n ? (record->length - ASBRU_HEADER) / asbru_step_size(n) : 0;
    if (result->verdict == ACCEPTED) return result->plan == n && result->step == steps;
    int of_formula = result->number == ASBRU_REFUSED_FORMULA && version_of(table) == ASBRU_FORMAT_2;
    int names_step = result->number == ASBRU_REFUSED_WORD || result->number == ASBRU_REFUSED_UNEXPLAINED;
    return (of_formula || (result->number >= ASBRU_REFUSED_TABLE_SHORT && result->number <= ASBRU_REFUSED_UNEXPLAINED)) &&
           (result->plan == 0 || result->plan < (of_formula ? nodes_of(table) : n)) &&
           (names_step ? result->step >= 1 && result->step <= steps : result->step == 0);
}

static void judge_by_program(char *program, const File *table, const File *record, Result *result) {
    char line[80];
    if (run_program(program, table, record, line, sizeof line) && read_line(line, result) && is_about(table, record, result)) return;
    result->verdict = NOT_JUDGED;
    say(result, "the program aprcheck printed no verdict");
}

static void judge_by_library(uint32_t rule, const File *table, const File *record, Result *result) {
    uint64_t answer = asbru_check(rule, table->bytes, table->length, record->bytes, record->length);
    result->by_library = 1;
    result->number = asbru_number(answer);
    result->step = asbru_step_of(answer);
    result->verdict = result->number == ASBRU_DONE ? ACCEPTED : REFUSED;
    result->plan = result->verdict == ACCEPTED ? plans_of(table) : asbru_plan(answer);
}

/* ---- Saying what the answer means ---- */

static const uint8_t *entry_of(const File *table, size_t plan) {
    return table->bytes + ASBRU_HEADER + ASBRU_ENTRY * plan;
}

/* What is wrong with the word of a plan of this body in a record: the first reason of number 12 that is there. */
static void explain_word(Result *result, uint32_t word, unsigned body) {
    static const char *const NAME[] = {"filter", "setup"};
    for (unsigned c = ASBRU_FILTER; c <= ASBRU_SETUP; c++) {
        if ((word & ASBRU_SATISFIED(c)) && !(word & ASBRU_SATISFIABLE(c))) {
            say(result, "its %s is said to be satisfied, but not to be satisfiable", NAME[c]);
            return;
        }
    }
    if (word & (ASBRU_IF_SATISFIED | ASBRU_IF_SATISFIABLE) && body != ASBRU_IF_THEN_ELSE) {
        say(result, "bit 20 or 21 is set, which are for an if-then-else, and its body is %s", asbru_body_text(body));
    } else if (word & ASBRU_IF_SATISFIED && !(word & ASBRU_IF_SATISFIABLE)) {
        say(result, "the condition of its if-then-else is said to be satisfied, but not to be satisfiable");
    } else {
        say(result, word & ASBRU_PICK_BITS ? "a pick is set, and a record has none" : "a bit is set that has no meaning");
    }
}

/* What differs between the header of a record and that of its table. */
static void explain_header(Result *result, const File *table, const File *record) {
    if (version_of(record) != ASBRU_FORMAT) {
        say(result, "the record's version is %u, and %d is wanted, whatever the table's", version_of(record), ASBRU_FORMAT);
    } else if (plans_of(record) != plans_of(table)) {
        say(result, "the record is of %u plans, and the table has %u", plans_of(record), plans_of(table));
    } else {
        say(result, "byte 7 of the record's header is %u, and 0 is wanted", record->bytes[7]);
    }
}

static void explain_length(Result *result, const File *table, const File *record) {
    size_t size = asbru_step_size(plans_of(table)), body = record->length - ASBRU_HEADER;
    if (body % size != 0) {
        say(result, "behind %zu whole step%s of %zu bytes the record has %zu byte%s more", body / size, plural(body / size), size,
            body % size, plural(body % size));
    } else {
        say(result, "the record has %zu steps, and %d are the most", body / size, ASBRU_MOST_STEPS);
    }
}

/* The state that a byte stands for, or that it is none. */
static void say_state(Result *result, unsigned state) {
    say(result, "%s", asbru_state_text(state));
    if (state > ASBRU_REJECTED) say(result, " (byte %u)", state);
}

/* How many children a plan of a table has, of all or of those with a flag. */
static unsigned children_with(const File *table, unsigned plan, unsigned flag) {
    unsigned count = 0;
    for (unsigned p = plan + 1; p < plans_of(table); p++) {
        const uint8_t *entry = entry_of(table, p);
        count += u16_at(entry, 0) == plan && (entry[3] & flag) == flag;
    }
    return count;
}

static unsigned children_of(const File *table, unsigned plan) {
    return children_with(table, plan, 0);
}

static const uint8_t *node_of(const File *table, size_t node) {
    return table->bytes + asbru_node_at(plans_of(table), node);
}

/* How many operands a node has: its a, or its a and b. */
static unsigned operands_of(const uint8_t *node) {
    return node[0] == ASBRU_NOT ? 1 : node[0] == ASBRU_AND || node[0] == ASBRU_OR || node[0] == ASBRU_XOR ? 2 : 0;
}

/* How often a node asks another one. */
static unsigned asks(const uint8_t *node, unsigned other) {
    unsigned count = 0;
    for (unsigned k = 1; k <= operands_of(node); k++) count += node[k] == other;
    return count;
}

static int begins_with(const File *table, unsigned plan, unsigned node) {
    const uint8_t *entry = entry_of(table, plan);
    return entry[2] != ASBRU_LEAF && entry[7] == node;
}

/* How often a node is used. */
static unsigned uses_of(const File *table, unsigned node) {
    unsigned count = 0;
    for (unsigned p = 0; p < plans_of(table); p++) count += (unsigned)begins_with(table, p, node);
    for (unsigned i = 0; i < nodes_of(table); i++) count += asks(node_of(table, i), node);
    return count;
}

/* The plan in whose formula a node stands: each is used once, by a plan or by a node of lower number. */
static unsigned owner_of(const File *table, unsigned node) {
    for (unsigned i = node; i-- > 0;) {
        if (asks(node_of(table, i), node)) node = i;
    }
    unsigned plan = 0;
    while (plan + 1 < plans_of(table) && !begins_with(table, plan, node)) plan++;
    return plan;
}

/* The lowest plan whose formula's first node is not there, or the number of plans. */
static unsigned stray_plan(const File *table) {
    unsigned plan = 0;
    while (plan < plans_of(table) && (entry_of(table, plan)[2] == ASBRU_LEAF || entry_of(table, plan)[7] < nodes_of(table))) plan++;
    return plan;
}

/* What is wrong with an operand of node i, if something is. */
static int explain_operand(Result *result, const File *table, unsigned i, unsigned operand) {
    if (operand <= i) {
        say(result, "it asks node %u, whose number is not above its own", operand);
    } else if (operand >= nodes_of(table)) {
        say(result, "it asks node %u, which is not there: the table has %u node%s", operand, nodes_of(table), plural(nodes_of(table)));
    } else {
        return 0;
    }
    return 1;
}

/* What is wrong with a node: the first reason of number 22 that is there. */
static void explain_node(Result *result, const File *table, unsigned i) {
    const uint8_t *node = node_of(table, i);
    unsigned operands = operands_of(node), uses = uses_of(table, i), owner = owner_of(table, i);
    say(result, "node %u, bytes %02X %02X %02X %02X: ", i, node[0], node[1], node[2], node[3]);
    if (node[0] > ASBRU_AT_LEAST) {
        say(result, "its kind is %u, and %d is the last", node[0], ASBRU_AT_LEAST);
    } else if (node[3] != 0) {
        say(result, "its last byte is %u, and 0 is wanted", node[3]);
    } else if (operands < 2 && node[2] != 0) {
        say(result, "its b is %u, and 0 is wanted of kind %u, %s", node[2], node[0], asbru_node_text(node[0]));
    } else if ((operands > 0 && explain_operand(result, table, i, node[1])) ||
               (operands > 1 && explain_operand(result, table, i, node[2]))) {
        return;
    } else if (uses == 0) {
        say(result, "nothing uses it: it is neither the first of a formula nor asked by a node");
    } else if (uses > 1) {
        say(result, "it is used %u times, and once is right", uses);
    } else {
        say(result, "it asks for the child of rank %u, counted from 0, and plan %u, in whose formula it stands, has %u", node[1], owner,
            children_of(table, owner));
    }
}

/* What is wrong with the formulas. Of the whole table, and not of a node, are the count of nodes and the formulas' first nodes. */
static void explain_formulas(Result *result, const File *table) {
    unsigned nodes = nodes_of(table), plan = stray_plan(table);
    if (nodes > ASBRU_MOST_NODES) {
        say(result, "it counts %u nodes, and %d are the most", nodes, ASBRU_MOST_NODES);
    } else if (plan < plans_of(table)) {
        say(result, "the formula of plan %u begins with node %u, which is not there: the table has %u node%s", plan,
            entry_of(table, plan)[7], nodes, plural(nodes));
    } else {
        explain_node(result, table, result->plan);
    }
}

/* What a plan waits for in vain: more named children than it has, by its wait number or by a node of its formula. */
static void explain_wait(Result *result, const File *table) {
    unsigned plan = result->plan, named = children_with(table, plan, ASBRU_NAMED), node = 0;
    while (node < nodes_of(table) &&
           !(node_of(table, node)[0] == ASBRU_AT_LEAST && node_of(table, node)[1] > named && owner_of(table, node) == plan)) {
        node++;
    }
    if (node < nodes_of(table)) {
        say(result, ": node %u of its formula asks for %u named children", node, node_of(table, node)[1]);
    } else {
        say(result, ": its wait number asks for %u named children", entry_of(table, plan)[7]);
    }
    say(result, ", and it has %u", named);
}

/* What is wrong with the entry of a plan; of a body that has exactly two children, whether that is so, and whether it retries. */
static void explain_entry(Result *result, const File *table) {
    const uint8_t *entry = entry_of(table, result->plan);
    say(result, "plan %u, entry", result->plan);
    for (size_t k = 0; k < ASBRU_ENTRY; k++) say(result, " %02X", entry[k]);
    int for_two = result->number == ASBRU_REFUSED_UNFIT && entry[2] >= ASBRU_ON_ABORT;
    unsigned children = children_of(table, result->plan);
    if (result->number == ASBRU_REFUSED_WAIT) {
        explain_wait(result, table);
    } else if (for_two && children != 2) {
        say(result, ": its body is %s, which has exactly 2 children, and it has %u", asbru_body_text(entry[2]), children);
    } else if (for_two && entry[3] & ASBRU_RETRY_ABORTED) {
        say(result, ": its body is %s, which does not retry, and retry-aborted is set", asbru_body_text(entry[2]));
    } else {
        say(result, ": %s", asbru_number_text(result->number));
    }
}

/* What is wrong with the table. */
static void explain_table(Result *result, const File *table) {
    say(result, "the table is refused, and no record is looked at: ");
    if (result->number == ASBRU_REFUSED_TABLE_VERSION) {
        say(result, "its version is %u, and %d or %d is wanted", version_of(table), ASBRU_FORMAT, ASBRU_FORMAT_2);
    } else if (result->number == ASBRU_REFUSED_FORMULA) {
        explain_formulas(result, table);
    } else if (result->number >= ASBRU_REFUSED_PARENT) {
        explain_entry(result, table);
    } else {
        say(result, "%s", asbru_number_text(result->number));
    }
}

/* Where the account of a step breaks: the picks are to explain the plan together with all before it. */
static void explain_states(Result *result, const uint8_t *step, size_t n) {
    size_t p = result->plan;
    say(result, "step %u: no picks explain plan %zu, which is shown ", result->step, p);
    say_state(result, step[ASBRU_WORD * n + p]);
    say(result, "; before the step it was ");
    say_state(result, result->step > 1 ? step[p - n] : (unsigned)ASBRU_INACTIVE);
    if (p == 1) say(result, "; plan 0 is taken as shown");
    if (p > 1) say(result, "; plans 0 to %zu are taken as shown", p - 1);
}

static void explain_refusal(Result *result, const File *table, const File *record) {
    size_t n = plans_of(table);
    const uint8_t *step = record->bytes + ASBRU_HEADER + asbru_step_size(n) * (result->step - (size_t)1);
    switch (result->number) {
    case ASBRU_REFUSED_WORD:
        say(result, "step %u: the word of plan %u is wrong: ", result->step, result->plan);
        explain_word(result, asbru_get_word(step, result->plan), entry_of(table, result->plan)[2]);
        break;
    case ASBRU_REFUSED_RECORD_HEADER: explain_header(result, table, record); break;
    case ASBRU_REFUSED_RECORD_LENGTH: explain_length(result, table, record); break;
    case ASBRU_REFUSED_UNEXPLAINED: explain_states(result, step, n); break;
    default: explain_table(result, table);
    }
}

/* Which of the two judged, and why it was not the program. */
static const char *judge_of(uint32_t rule, const Result *result) {
    if (!result->by_library) return "aprcheck";
    return rule == ASBRU_RULE_2 ? "asbru_check, being over the program's 65,536 bytes" : "asbru_check, as aprcheck goes by rule 2";
}

static void explain(Result *result, uint32_t rule, const File *table, const File *record) {
    if (result->verdict == ACCEPTED && result->step == 0) {
        say(result, "the record is of good form and has no steps");
    } else if (result->verdict == ACCEPTED) {
        say(result, "for each of the %u step%s some picks lead to the states shown", result->step, plural(result->step));
    } else {
        explain_refusal(result, table, record);
    }
    say(result, " [RULES 10.%u; rule %u; judged by %s]", result->number, (unsigned)rule, judge_of(rule, result));
}

/* All of one pair, the table having been looked at. */
static Result judge(const Means *means, const File *table, const File *record) {
    Result result = NOTHING;
    if (!begins_as_record(record, &result)) return result;
    if (means->rule == ASBRU_RULE_2 && table->length + record->length <= PROGRAM_TAKES) {
        judge_by_program(means->program, table, record, &result);
    } else {
        judge_by_library(means->rule, table, record, &result);
    }
    if (result.verdict != NOT_JUDGED) explain(&result, means->rule, table, record);
    return result;
}

/* ---- Printing ---- */

static void print_line(const Result *result) {
    if (result->verdict == ACCEPTED) {
        printf("accepted %u %u", result->plan, result->step);
    } else {
        printf("refused %u %u %u", result->number, result->step, result->plan);
    }
}

static void print_record(const char *name, const Result *result) {
    print_name(stdout, name);
    printf(": ");
    if (result->verdict == NOT_JUDGED) {
        printf("%s", VERDICT[NOT_JUDGED]);
    } else {
        print_line(result);
    }
    printf(": %s\n", result->words);
}

/* A text as one field of a spreadsheet's line: it begins with no sign that makes a formula. */
static void print_field(const char *text) {
    printf(strchr("=+-@", *text) && *text ? "\"./" : "\"");
    for (const char *rest = text; *rest; rest++) {
        char letter[] = {*rest, 0};
        print_name(stdout, *rest == '"' ? "\"\"" : letter);
    }
    putchar('"');
}

static void print_row(const char *name, const Result *result) {
    print_field(name);
    printf(",%s,", VERDICT[result->verdict]);
    if (result->verdict == ACCEPTED) {
        printf("0,,,%u,%u,", result->plan, result->step);
    } else if (result->verdict == REFUSED) {
        printf("%u,%u,%u,,,", result->number, result->step, result->plan);
    } else {
        printf(",,,,,");
    }
    print_field(result->words);
    putchar('\n');
}

/* ---- The two ways to call it ---- */

static void complain(const char *name, const char *what) {
    fputs("check: ", stderr);
    print_name(stderr, name);
    fprintf(stderr, ": %s; nothing is judged\n", what);
}

/* Reads a regular file; NULL in its bytes where that cannot be done, and words that say why. */
static void load(File *file, Result *result) {
    struct stat about;
    file->bytes = NULL;
    if (stat(file->name, &about) != 0) {
        say(result, "%s", strerror(errno));
    } else if (S_ISDIR(about.st_mode)) {
        say(result, "this is a folder, and a file is wanted (check --all judges a folder)");
    } else if (!S_ISREG(about.st_mode)) {
        say(result, "this is no regular file");
    } else {
        file->bytes = read_file(file->name, &file->length);
        if (!file->bytes) say(result, "%s", strerror(errno));
    }
}

/* Reads and looks at the table; its words say what is wrong with it. */
static int is_good_table(File *table, Result *result) {
    load(table, result);
    return table->bytes && begins_as_table(table, result) && has_its_length(table, result);
}

static int check_pair(const Means *means, const char *table_name, const char *record_name) {
    File table = {table_name, NULL, 0}, record = {record_name, NULL, 0};
    Result of_table = NOTHING, result = NOTHING;
    int good_table = is_good_table(&table, &of_table);
    load(&record, &result);
    if (table.bytes && record.bytes && has_mark(&table, "APR") && has_mark(&record, "APT")) {
        fputs("check: the two files are swapped: the table comes first\n", stderr);
    }
    if (!good_table) complain(table_name, of_table.words);
    if (record.bytes && good_table) {
        result = judge(means, &table, &record);
    } else if (record.bytes) {
        begins_as_record(&record, &result);
    }
    if (result.verdict == NOT_JUDGED) {
        if (result.words[0]) complain(record_name, result.words);
        if (!table.bytes || !record.bytes) fputs(USAGE, stderr);
        return NOT_JUDGED;
    }
    print_line(&result);
    printf("\n%s [", result.words);
    print_name(stdout, record_name);
    printf(" under ");
    print_name(stdout, table_name);
    printf("]\n");
    return result.verdict;
}

static int is_same_file(const char *one, const char *other) {
    struct stat a, b;
    return stat(one, &a) == 0 && stat(other, &b) == 0 && a.st_dev == b.st_dev && a.st_ino == b.st_ino;
}

/* How many names with a dot in front a folder has, beside itself and the folder above. */
static unsigned hidden_names;

static int is_shown(const struct dirent *entry) {
    const char *name = entry->d_name;
    if (name[0] == '.' && strcmp(name, ".") != 0 && strcmp(name, "..") != 0) hidden_names++;
    return name[0] != '.';
}

/* Judges one file of a folder. */
static Result judge_file(const Means *means, const File *table, const char *path) {
    Result result = NOTHING;
    File record = {path, NULL, 0};
    load(&record, &result);
    if (record.bytes) result = judge(means, table, &record);
    free(record.bytes);
    return result;
}

/* Whether the table passes, which no rule has a say in: an empty record is then the first thing wrong. */
static int passes(const File *table, Result *result) {
    File none = {"", NULL, 0};
    judge_by_library(ASBRU_RULE_2, table, &none, result);
    if (result->number == ASBRU_REFUSED_RECORD_HEADER) return 1;
    explain_table(result, table);
    return 0;
}

/* Judges what stands in a folder, in the order of the names, each line being told at once. */
static void check_files(const Means *means, const File *table, const char *folder, struct dirent **entries, int count, int csv,
                        unsigned counts[VERDICTS]) {
    for (int k = 0; k < count; k++) {
        char path[PATH_ROOM];
        int length = snprintf(path, sizeof path, "%s/%s", folder, entries[k]->d_name);
        if (is_same_file(path, table->name)) continue;
        Result result = NOTHING;
        if (length < PATH_ROOM) {
            result = judge_file(means, table, path);
        } else {
            say(&result, "the name is too long");
        }
        counts[result.verdict]++;
        (csv ? print_row : print_record)(entries[k]->d_name, &result);
        fflush(stdout);
    }
}

static int check_folder(const Means *means, const char *table_name, const char *folder, int csv) {
    File table = {table_name, NULL, 0};
    Result of_table = NOTHING;
    if (!is_good_table(&table, &of_table) || !passes(&table, &of_table)) {
        complain(table_name, of_table.words);
        return NOT_JUDGED;
    }
    struct dirent **entries;
    hidden_names = 0;
    int entry_count = scandir(folder, &entries, is_shown, alphasort);
    if (entry_count < 0) {
        complain(folder, strerror(errno));
        return NOT_JUDGED;
    }
    unsigned counts[VERDICTS] = {0};
    if (csv) puts("file,verdict,number,step,plan,plans,steps,in words");
    check_files(means, &table, folder, entries, entry_count, csv, counts);
    if (hidden_names > 0) fprintf(stderr, "check: %u name%s with a dot in front passed over\n", hidden_names, plural(hidden_names));
    fprintf(csv ? stderr : stdout, "%u accepted, %u refused, %u not judged\n", counts[ACCEPTED], counts[REFUSED], counts[NOT_JUDGED]);
    if (counts[ACCEPTED] + counts[REFUSED] + counts[NOT_JUDGED] == 0) complain(folder, "there is no file in this folder");
    if (counts[NOT_JUDGED] > 0 || counts[ACCEPTED] + counts[REFUSED] == 0) return NOT_JUDGED;
    return counts[REFUSED] > 0 ? REFUSED : ACCEPTED;
}

/* ---- Reading the arguments ---- */

/* What is asked for; the rule is 0 where none is named. The names are those of the table and of the record or folder. */
typedef struct {
    int all, csv;
    uint32_t rule;
    int name_count;
    const char *names[2];
} Call;

/* Says what is wrong with the call; a word of it, if one is to be shown, stands between two texts. */
static int misused(const char *before, const char *word, const char *after) {
    fprintf(stderr, "check: %s", before);
    print_name(stderr, word);
    fprintf(stderr, "%s\n%s", after, USAGE);
    return 0;
}

/* Takes the number of the rule. No other way to write it counts: what is judged by the wrong rule gets a wrong verdict. */
static int take_rule(Call *call, const char *number) {
    if (call->rule) return misused("--rule is given twice: there are rules 1 and 2, and a record goes by one of them", "", "");
    if (!*number) return misused("--rule wants a number: there are rules 1 and 2", "", "");
    call->rule = strcmp(number, "1") == 0 ? ASBRU_RULE_1 : strcmp(number, "2") == 0 ? ASBRU_RULE_2 : 0;
    return call->rule || misused("--rule '", number, "': there are rules 1 and 2, and no other");
}

static int take_option(int *option, const char *word) {
    if (*option) return misused("", word, " is given twice");
    return *option = 1;
}

/* Takes a word that is no rule's number: an option, or a name. */
static int take_word(Call *call, const char *word) {
    if (strcmp(word, "--all") == 0) return take_option(&call->all, word);
    if (strcmp(word, "--csv") == 0) return take_option(&call->csv, word);
    if (word[0] == '-') return misused("", word, " is no option here (a file of that name is ./ and the name)");
    if (call->name_count < 2) call->names[call->name_count] = word;
    return ++call->name_count;
}

/* Whether the arguments are a call; if not, that is told. Options stand anywhere: no name begins with a dash. */
static int read_call(Call *call, int count, char **arguments) {
    for (int k = 0; k < count; k++) {
        int is_rule = strcmp(arguments[k], "--rule") == 0;
        k += is_rule;
        if (!(is_rule ? take_rule(call, k < count ? arguments[k] : "") : take_word(call, arguments[k]))) return 0;
    }
    if (call->csv && !call->all) return misused("--csv is no option here: it goes with --all", "", "");
    return call->name_count == 2 || misused(call->all ? "a table and a folder are wanted" : "a table and a record are wanted", "", "");
}

/* Follows the arguments; the status is the verdict. */
static int follow(int count, char **arguments, char *program) {
    if (count == 1 && (strcmp(arguments[0], "--help") == 0 || strcmp(arguments[0], "-h") == 0)) {
        printf("%s%s", USAGE, HELP);
        return ACCEPTED;
    }
    Call call = {0, 0, 0, 0, {"", ""}};
    if (!read_call(&call, count, arguments)) return NOT_JUDGED;
    Means means = {program, call.rule ? call.rule : ASBRU_RULE_2};
    return call.all ? check_folder(&means, call.names[0], call.names[1], call.csv) : check_pair(&means, call.names[0], call.names[1]);
}

/* A standard stream that is closed would be taken by the next file that is opened. */
static int has_streams(void) {
    if (fcntl(STDOUT_FILENO, F_GETFD) < 0) return 0;
    if (fcntl(STDIN_FILENO, F_GETFD) < 0 && open("/dev/null", O_RDONLY) != STDIN_FILENO) return 0;
    return fcntl(STDERR_FILENO, F_GETFD) >= 0 || open("/dev/null", O_WRONLY) == STDERR_FILENO;
}

int main(int argc, char **argv) {
    if (argc < 2) return NOT_JUDGED;
    signal(SIGPIPE, SIG_IGN);
    int status = has_streams() ? follow(argc - 2, argv + 2, argv[1]) : NOT_JUDGED;
    if (fflush(stdout) == 0 && !ferror(stdout)) return status;
    fputs("check: standard output cannot be written: what was judged is not told\n", stderr);
    return NOT_JUDGED;
}
