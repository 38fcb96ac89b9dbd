/*
 * A host of the library as a service is one. It loads the example circuits and schedules, makes listings, notes in a first pass on
 * one thread what every call replies and writes, and then repeats these calls from several threads at once, on stacks
 * of the size that the header states. It also evaluates plans and schedules and drops each value as soon as it may. The first
 * difference ends it with a message that names the input.
 *
 * Use: host [-n calls] [-t threads] [-r] [folder of the examples]
 * With -r a growth of the memory is only reported (valgrind's own memory grows).
 */
#define _DEFAULT_SOURCE
#include "gowashiru.h"

#include <dirent.h>
#include <errno.h>
#include <fcntl.h>
#include <inttypes.h>
#include <pthread.h>
#include <signal.h>
#include <stdarg.h>
#include <stdatomic.h>
#include <stdbool.h>
#include <stdio.h>
#include <stdlib.h>
#include <string.h>
#include <sys/mman.h>
#include <sys/wait.h>
#include <time.h>
#include <unistd.h>

enum {
    STACK = GOWASHIRU_STACK_BYTES,
    ENOUGH = GOWASHIRU_ENOUGH_BYTES,
    GUARD = 64,           /* bytes before and after each lent buffer */
    MOST_GROWTH = 256,    /* KiB */
    LONGEST_CIRCUIT = 4372,
    SCHEDULE_LINES = 1792,
    MOST_INPUTS = 2048,
    MOST_JOBS = 8192,
    MOST_THREADS = 64,
    FAULT_STACK = 32768,
    SHOWN = 72,           /* bytes of a reply in a message */
    OVERLAP_SECONDS = 20,
    MOST_LIVE = 1194,     /* ciphertexts: each of the 598 lines that are left names at most two */
    FEW_LINES = 64,       /* a schedule of no more is asked about every value after every line */
    SLOTS = 4,            /* of a vector in an evaluation */
    DROPPED = 0xdd        /* the bytes of a vector that was dropped */
};

enum service { PLAN, CHECK, ERASE, LEAST, QUOTE, FROM_RISING, TO_RISING, MAY_DROP, LIVE_AFTER, LIVE_PEAK, LIVE };

static const char *const service_names[] = {"plan",      "check",    "erase",      "least level", "quote", "from rising",
                                            "to rising", "may drop", "live after", "live peak",   "live"};

struct input {
    char name[128];
    const uint8_t *bytes;
    size_t length;
};

/* What a call replies. The length of a quote is its bytes; lines and price are 0 in every other reply. */
struct answer {
    uint32_t number, file, place, length, lines, price;
};

/* One call, and what the first pass got from it. */
struct job {
    enum service service;
    const struct input *file, *schedule; /* schedule: only of a check */
    uint32_t value, line;                /* what is asked about, of may drop and live after */
    size_t room;                         /* length of the lent buffer */
    bool lends_null;
    struct answer reply;
    uint8_t *result;
};

struct worker {
    pthread_t thread;
    uint32_t number;
    unsigned long calls;
    uint8_t *block;
    uint8_t fault_stack[FAULT_STACK];
};

static struct input inputs[MOST_INPUTS];
static size_t input_count;
static struct job jobs[MOST_JOBS];
static size_t job_count;
static size_t whole_count; /* the first so many jobs are of files that are not damaged */
static uint8_t first_block[ENOUGH + 2 * GUARD];
static uint32_t thread_count = 4;
static pthread_barrier_t gate;
static atomic_flag failing = ATOMIC_FLAG_INIT;
static _Thread_local const struct job *volatile running; /* for the fault message */

/* ---- Messages ---- */

/* Only the first thread that fails speaks; the others stand still until the process ends. */
static _Noreturn void end_with(const char *about, const char *format, va_list values)
{
    while (atomic_flag_test_and_set(&failing))
        pause();
    fflush(stdout);
    fprintf(stderr, "host: FAILED: %s", about);
    vfprintf(stderr, format, values);
    fputc('\n', stderr);
    _Exit(1);
}

static _Noreturn void die(const char *format, ...)
{
    va_list values;
    va_start(values, format);
    end_with("", format, values);
}

static bool writes(const struct job *job)
{
    static const bool writing[] = {[PLAN] = true, [ERASE] = true, [FROM_RISING] = true, [TO_RISING] = true, [LIVE] = true};
    return writing[job->service];
}

static _Noreturn void fail(const struct job *job, const char *format, ...)
{
    char about[400];
    const char *service = service_names[job->service], *file = job->file->name;
    if (job->service == CHECK)
        snprintf(about, sizeof about, "%s of %s with %s: ", service, file, job->schedule->name);
    else if (job->service == MAY_DROP || job->service == LIVE_AFTER)
        snprintf(about, sizeof about, "%s of %s, value %" PRIu32 ", line %" PRIu32 ": ", service, file, job->value, job->line);
    else if (!writes(job))
        snprintf(about, sizeof about, "%s of %s: ", service, file);
    else
        snprintf(about, sizeof about, "%s of %s, buffer %s%zu: ", service, file, job->lends_null ? "NULL, " : "",
                 job->room);
    va_list values;
    va_start(values, format);
    end_with(about, format, values);
}

/* The numbers of a reply in the order of the struct. */
static void show(struct answer reply, char text[SHOWN])
{
    snprintf(text, SHOWN, "%" PRIu32 " %" PRIu32 " %" PRIu32 " %" PRIu32 " %" PRIu32 " %" PRIu32, reply.number, reply.file,
             reply.place, reply.length, reply.lines, reply.price);
}

static _Noreturn void fail_reply(const struct job *job, struct answer got, struct answer due)
{
    char got_text[SHOWN], due_text[SHOWN];
    show(got, got_text);
    show(due, due_text);
    fail(job, "reply %s, due %s", got_text, due_text);
}

static void say(const char *text)
{
    ssize_t written = write(STDERR_FILENO, text, strlen(text));
    (void)written;
}

/* A fault must name its input too: a stack that is too small shows as one, and so does a read past an input's end. */
static void on_fault(int signal_number)
{
    (void)signal_number;
    while (atomic_flag_test_and_set(&failing))
        pause();
    say("host: FAILED: fault");
    if (running) {
        say(" in ");
        say(service_names[running->service]);
        say(" of ");
        say(running->file->name);
        say(running->schedule ? " with " : "");
        say(running->schedule ? running->schedule->name : "");
    }
    say("\n");
    _exit(1);
}

static void watch_faults(uint8_t *stack)
{
    static const int signals[] = {SIGSEGV, SIGBUS, SIGILL, SIGFPE, SIGABRT};
    stack_t other = {.ss_sp = stack, .ss_size = FAULT_STACK};
    struct sigaction action = {.sa_handler = on_fault, .sa_flags = SA_ONSTACK};
    if (sigaltstack(&other, NULL))
        die("no stack for the fault message");
    for (size_t i = 0; i < sizeof signals / sizeof signals[0]; i++)
        if (sigaction(signals[i], &action, NULL))
            die("no fault message");
}

/* ---- Inputs ---- */

/* The last byte ends a page that cannot be written, and the next page is shut: a read past the end faults. */
static const uint8_t *at_edge(const void *bytes, size_t length)
{
    size_t page = (size_t)sysconf(_SC_PAGESIZE);
    size_t held = (length + page - 1) / page * page;
    uint8_t *start = mmap(NULL, held + page, PROT_READ | PROT_WRITE, MAP_PRIVATE | MAP_ANONYMOUS, -1, 0);
    if (start == MAP_FAILED)
        die("no memory for an input");
    if (length)
        memcpy(start + held - length, bytes, length);
    if ((held && mprotect(start, held, PROT_READ)) || mprotect(start + held, page, PROT_NONE))
        die("an input cannot be closed to writing");
    return start + held - length;
}

static const struct input *add_input(const char *name, const void *bytes, size_t length)
{
    if (input_count == MOST_INPUTS)
        die("more than %d inputs", MOST_INPUTS);
    struct input *input = &inputs[input_count++];
    snprintf(input->name, sizeof input->name, "%s", name);
    input->bytes = bytes ? at_edge(bytes, length) : NULL;
    input->length = length;
    return input;
}

static size_t read_file(const char *folder, const char *name, uint8_t *bytes, size_t room)
{
    char path[4096];
    snprintf(path, sizeof path, "%s/%s", folder, name);
    FILE *file = fopen(path, "rb");
    if (!file)
        die("%s: %s", path, strerror(errno));
    size_t length = fread(bytes, 1, room, file);
    if (ferror(file) || length == room)
        die("%s cannot be read or is too long", path);
    fclose(file);
    return length;
}

static const struct input *load(const char *folder, const char *name)
{
    static uint8_t bytes[ENOUGH];
    return add_input(name, bytes, read_file(folder, name, bytes, sizeof bytes));
}

/* ---- One call ---- */

static struct answer of_reply(struct gowashiru_reply reply)
{
    return (struct answer){reply.number, reply.file, reply.place, reply.length, 0, 0};
}

static struct answer of_quote(struct gowashiru_quote_reply quote)
{
    return (struct answer){quote.number, quote.file, quote.place, quote.bytes, quote.lines, quote.price};
}

static struct answer call(const struct job *job, uint8_t *out)
{
    const struct input *file = job->file;
    switch (job->service) {
    case PLAN:
        return of_reply(gowashiru_plan(file->bytes, file->length, out, job->room));
    case CHECK:
        return of_reply(gowashiru_check(file->bytes, file->length, job->schedule->bytes, job->schedule->length));
    case ERASE:
        return of_reply(gowashiru_erase(file->bytes, file->length, out, job->room));
    case QUOTE:
        return of_quote(gowashiru_quote(file->bytes, file->length));
    case FROM_RISING:
        return of_reply(gowashiru_from_rising(file->bytes, file->length, out, job->room));
    case TO_RISING:
        return of_reply(gowashiru_to_rising(file->bytes, file->length, out, job->room));
    case MAY_DROP:
        return of_reply(gowashiru_may_drop(file->bytes, file->length, job->value, job->line));
    case LIVE_AFTER:
        return of_reply(gowashiru_live_after(file->bytes, file->length, job->line));
    case LIVE_PEAK:
        return of_reply(gowashiru_live_peak(file->bytes, file->length));
    case LIVE:
        return of_reply(gowashiru_live(file->bytes, file->length, out, job->room));
    default:
        return of_reply(gowashiru_least_level(file->bytes, file->length));
    }
}

static bool all_are(const uint8_t *bytes, size_t count, uint8_t fill)
{
    return count == 0 || (bytes[0] == fill && memcmp(bytes, bytes + 1, count - 1) == 0);
}

/* Calls on a buffer full of one byte, and sees that the guards and all bytes past the result still hold that byte. */
static struct answer run(const struct job *job, uint8_t *block, uint8_t fill)
{
    uint8_t *out = block + GUARD;
    memset(block, fill, job->room + 2 * GUARD);
    running = job;
    struct answer reply = call(job, job->lends_null ? NULL : out);
    running = NULL;
    size_t written = writes(job) ? reply.length : 0;
    if (written > job->room)
        fail(job, "length %zu is past the buffer", written);
    if (!all_are(block, GUARD, fill))
        fail(job, "a byte before the buffer was written");
    if (!all_are(out + job->room, GUARD, fill))
        fail(job, "a byte after the buffer was written");
    if (!all_are(out + written, job->room - written, fill))
        fail(job, "a byte of the buffer was written that is not of the result");
    return reply;
}

static bool same_reply(struct answer a, struct answer b)
{
    return a.number == b.number && a.file == b.file && a.place == b.place && a.length == b.length && a.lines == b.lines &&
           a.price == b.price;
}

/* Runs a job again and compares with the first pass. */
static void repeat(const struct job *job, uint8_t *block, uint8_t fill)
{
    struct answer reply = run(job, block, fill);
    if (!same_reply(reply, job->reply))
        fail_reply(job, reply, job->reply);
    if (job->result && memcmp(block + GUARD, job->result, reply.length))
        fail(job, "bytes differ from those of the first pass");
}

/* ---- First pass ---- */

/* What the header says of the length of a reply that is no refusal, and of a count what a schedule can have. */
static bool is_lawful_length(enum service service, uint32_t length)
{
    switch (service) {
    case CHECK:
        return length == 0;
    case LEAST:
        return length >= 1 && length <= 60;
    case MAY_DROP:
        return length <= 1;
    case LIVE_AFTER:
    case LIVE_PEAK:
        return length <= MOST_LIVE;
    case LIVE:
        return length % GOWASHIRU_LIVE_VALUE_BYTES == 0 && length <= GOWASHIRU_LIVE_BYTES;
    default:
        return length >= 1;
    }
}

/* What the header says of every reply of a service. */
static bool is_lawful(const struct job *job, struct answer reply)
{
    static const uint32_t refusals[] = {
        [PLAN] = 0x287e, /* 1 to 6, 11, 13 */
        [CHECK] = 0x1fbe, /* 1 to 5, 7 to 12 */
        [ERASE] = 0x283e, /* 1 to 5, 11, 13 */
        [LEAST] = 0x087e, /* 1 to 6, 11 */
        [QUOTE] = 0x087e, /* 1 to 6, 11 */
        [FROM_RISING] = 0x6fbe, /* 1 to 5, 7 to 11, 13, 14 */
        [TO_RISING] = 0x2fbe, /* 1 to 5, 7 to 11, 13 */
        [MAY_DROP] = 0x083e, /* 1 to 5, 11 */
        [LIVE_AFTER] = 0x083e, /* 1 to 5, 11 */
        [LIVE_PEAK] = 0x083e, /* 1 to 5, 11 */
        [LIVE] = 0x283e, /* 1 to 5, 11, 13 */
    };
    /* A plan has a header, so a quote has a line; its price may be 0. */
    bool is_quoted = job->service == QUOTE && reply.number == 0;
    if (is_quoted ? reply.lines == 0 : reply.lines || reply.price)
        return false;
    if (reply.number == 0)
        return reply.file == 0 && reply.place == 0 && is_lawful_length(job->service, reply.length);
    if (reply.number > 14 || !(refusals[job->service] >> reply.number & 1) || reply.length)
        return false;
    bool asks = job->service == MAY_DROP || job->service == LIVE_AFTER;
    if (reply.number == 13 || (reply.number == 4 && reply.place == 0 && asks))
        return reply.file == 0 && reply.place == 0;
    return reply.place >= 1 && (reply.file == 1 || (reply.file == 2 && job->service == CHECK && reply.number != 12));
}

static struct job *add_job(struct job job)
{
    char text[SHOWN];
    if (job_count == MOST_JOBS)
        die("more than %d calls to repeat", MOST_JOBS);
    job.reply = run(&job, first_block, 0xa5);
    show(job.reply, text);
    if (!is_lawful(&job, job.reply))
        fail(&job, "reply %s is none that the header allows", text);
    if (writes(&job) && job.reply.length) {
        job.result = malloc(job.reply.length);
        if (!job.result)
            die("no memory for a result");
        memcpy(job.result, first_block + GUARD, job.reply.length);
    }
    jobs[job_count] = job;
    return &jobs[job_count++];
}

static void expect(const struct job *job, uint32_t number, uint32_t file, uint32_t place)
{
    struct answer due = {number, file, place, 0, 0, 0};
    if (number == 0) {
        due.length = job->reply.length;
        due.lines = job->reply.lines;
        due.price = job->reply.price;
    }
    if (!same_reply(job->reply, due))
        fail_reply(job, job->reply, due);
}

static void expect_length(const struct job *job, uint32_t length)
{
    struct answer due = {0, 0, 0, length, 0, 0};
    if (!same_reply(job->reply, due))
        fail_reply(job, job->reply, due);
}

static struct job *add_plan(const struct input *circuit, size_t room)
{
    return add_job((struct job){.service = PLAN, .file = circuit, .room = room});
}

static struct job *add_check(const struct input *circuit, const struct input *schedule)
{
    return add_job((struct job){.service = CHECK, .file = circuit, .schedule = schedule});
}

static struct job *add_erase(const struct input *schedule, size_t room)
{
    return add_job((struct job){.service = ERASE, .file = schedule, .room = room});
}

static struct job *add_least(const struct input *circuit)
{
    return add_job((struct job){.service = LEAST, .file = circuit});
}

static struct job *add_quote(const struct input *circuit)
{
    return add_job((struct job){.service = QUOTE, .file = circuit});
}

static struct job *add_from_rising(const struct input *listing, size_t room)
{
    return add_job((struct job){.service = FROM_RISING, .file = listing, .room = room});
}

static struct job *add_to_rising(const struct input *schedule, size_t room)
{
    return add_job((struct job){.service = TO_RISING, .file = schedule, .room = room});
}

static struct job *add_may_drop(const struct input *schedule, uint32_t value, uint32_t line)
{
    return add_job((struct job){.service = MAY_DROP, .file = schedule, .value = value, .line = line});
}

static struct job *add_live_after(const struct input *schedule, uint32_t line)
{
    return add_job((struct job){.service = LIVE_AFTER, .file = schedule, .line = line});
}

static struct job *add_live_peak(const struct input *schedule)
{
    return add_job((struct job){.service = LIVE_PEAK, .file = schedule});
}

static struct job *add_live(const struct input *schedule, size_t room)
{
    return add_job((struct job){.service = LIVE, .file = schedule, .room = room});
}

/* The same call with other buffers: just enough, every shorter length, none. The soak repeats only the ends. */
static void try_rooms(const struct job *done)
{
    struct job job = *done;
    if (!writes(done) || done->reply.number)
        return;
    job.room = done->reply.length;
    struct job *enough = add_job(job);
    if (!same_reply(enough->reply, done->reply))
        fail_reply(enough, enough->reply, done->reply);
    if (done->reply.length == 0)
        return;
    if (memcmp(enough->result, done->result, done->reply.length))
        fail(enough, "bytes differ from those in a longer buffer");
    job.result = NULL;
    job.reply = (struct answer){.number = 13};
    for (job.room = 0; job.room < done->reply.length; job.room++)
        repeat(&job, first_block, (uint8_t)job.room);
    job.room = done->reply.length - 1;
    expect(add_job(job), 13, 0, 0);
    job.room = 0;
    expect(add_job(job), 13, 0, 0);
    job.lends_null = true;
    expect(add_job(job), 13, 0, 0);
}

/* ---- Lines of a file that the library has read or written ---- */

/* Its word, its numbers, 0 where it has none, and in a plan its level. */
struct line {
    char word[8];
    long numbers[3];
    long level;
};

static bool is_word(const struct line *line, const char *word)
{
    return strcmp(line->word, word) == 0;
}

/* Fills in the lines after the header and the header's L, and gives the number of lines. */
static long read_lines(const struct job *job, const uint8_t *bytes, size_t length, struct line *lines, long *top)
{
    static char text[ENOUGH + 1];
    char *rest = text;
    long count = 0;
    memcpy(text, bytes, length);
    text[length] = 0;
    if (sscanf(strsep(&rest, "\n"), "%*s\t%*d\t%*d\t%ld", top) != 1)
        fail(job, "has no header");
    for (; rest && *rest; count++) {
        if (count == SCHEDULE_LINES)
            fail(job, "has more than %d lines", SCHEDULE_LINES);
        struct line *line = &lines[count];
        *line = (struct line){.level = 0};
        sscanf(strsep(&rest, "\n"), "%7s\t%ld\t%ld\t%ld", line->word, &line->numbers[0], &line->numbers[1], &line->numbers[2]);
    }
    if (!rest)
        fail(job, "does not end in a line feed");
    return count;
}

/* ---- Quotes, held to the plan that is written ---- */

/* The lines of a plan whose price is known. */
static struct line priced[SCHEDULE_LINES];
static long priced_count;

static const struct line *line_of(const struct job *plan, long value)
{
    if (value < 0 || value >= priced_count)
        fail(plan, "line %ld has no line %ld before it", priced_count, value);
    return &priced[value];
}

/* What a word costs at each level, by the header, which is held to the library by this. A product is taken to be of two ciphertexts. */
static long price_per_level(const struct line *line)
{
    static const struct {
        const char *word;
        long price;
    } prices[] = {
        {"mul", GOWASHIRU_PRICE_MUL}, {"rot", GOWASHIRU_PRICE_ROT}, {"rs", GOWASHIRU_PRICE_RS},
        {"us", GOWASHIRU_PRICE_US},   {"enc", GOWASHIRU_PRICE_ENC}, {"add", GOWASHIRU_PRICE_ADD},
        {"neg", GOWASHIRU_PRICE_NEG}, {"ms", GOWASHIRU_PRICE_MS},   {"in", 0},
        {"const", 0},                 {"out", 0},
    };
    for (size_t i = 0; i < sizeof prices / sizeof prices[0]; i++)
        if (is_word(line, prices[i].word))
            return prices[i].price;
    die("a plan has the word %s", line->word);
}

/* What the line costs, from its operands; its level is filled in. */
static long price_line(const struct job *plan, struct line *line, long top)
{
    long price = price_per_level(line), sum = 0;
    if (is_word(line, "in") || is_word(line, "const")) {
        line->level = is_word(line, "in") ? top : 0;
        return 0;
    }
    const struct line *operand = line_of(plan, line->numbers[0]);
    line->level = is_word(line, "enc") ? line->numbers[2] : operand->level;
    if (is_word(line, "rs") || is_word(line, "ms")) {
        for (long given_up = 0; given_up < line->numbers[1]; given_up++)
            sum += price * line->level--;
        return sum;
    }
    if (is_word(line, "mul") && (is_word(operand, "enc") || is_word(line_of(plan, line->numbers[1]), "enc")))
        price = GOWASHIRU_PRICE_MUL_WITH_CONSTANT;
    return price * line->level;
}

/* What counting over a written plan gives. */
static struct answer count_over(const struct job *plan)
{
    long top, price = 0, count = read_lines(plan, plan->result, plan->reply.length, priced, &top);
    for (priced_count = 0; priced_count < count; priced_count++)
        price += price_line(plan, &priced[priced_count], top);
    return (struct answer){.length = plan->reply.length, .lines = (uint32_t)priced_count + 1, .price = (uint32_t)price};
}

/* A quote is the plan's refusal, or what counting over the plan gives; the plan takes a buffer of so many bytes, and none that is shorter. */
static void hold_to_plan(const struct job *quote, const struct job *plan)
{
    struct job again = *plan;
    if (plan->reply.number) {
        expect(quote, plan->reply.number, plan->reply.file, plan->reply.place);
        return;
    }
    struct answer due = count_over(plan);
    if (!same_reply(quote->reply, due))
        fail_reply(quote, quote->reply, due);
    again.room = quote->reply.length;
    repeat(&again, first_block, 0x5a);
    again.room--;
    again.result = NULL;
    again.reply = (struct answer){.number = 13};
    repeat(&again, first_block, 0x5a);
}

static struct job *plan_and_quote(const struct input *circuit, size_t room)
{
    struct job *plan = add_plan(circuit, room);
    hold_to_plan(add_quote(circuit), plan);
    return plan;
}

/* ---- Live ciphertexts: the table of a schedule held to a scan of its lines, and evaluations that drop by it ---- */

/* The schedule that is looked at. */
static struct line schedule_lines[SCHEDULE_LINES];
static long schedule_count;

static unsigned long evaluation_count, evaluated_lines, answer_count;
static uint32_t most_held;

static long number_at(const uint8_t *bytes)
{
    return bytes[0] + 256L * bytes[1];
}

/* The last line that names the value, by the table that the library wrote. */
static long entry_of(const struct job *live, long value)
{
    return number_at(live->result + value * GOWASHIRU_LIVE_VALUE_BYTES);
}

static long count_after(const struct job *live, long line)
{
    return number_at(live->result + line * GOWASHIRU_LIVE_VALUE_BYTES + 2);
}

static int operand_count(const struct line *line)
{
    if (is_word(line, "in") || is_word(line, "const"))
        return 0;
    return is_word(line, "add") || is_word(line, "mul") ? 2 : 1;
}

static bool is_ciphertext(const struct line *line)
{
    return !is_word(line, "const") && !is_word(line, "enc") && !is_word(line, "out");
}

static bool names(const struct line *line, long value)
{
    for (int i = 0; i < operand_count(line); i++)
        if (line->numbers[i] == value)
            return true;
    return false;
}

/* The last line after this one that names the value; -1 where none does. */
static long last_naming(long value, long after)
{
    for (long line = schedule_count - 1; line > after; line--)
        if (names(&schedule_lines[line], value))
            return line;
    return -1;
}

/* Every entry is what a scan gives, and every count the number of ciphertexts so far that the scan finds named later. */
static void hold_to_scan(const struct job *live)
{
    static long last[SCHEDULE_LINES];
    for (long value = 0; value < schedule_count; value++) {
        last[value] = last_naming(value, value);
        long due = last[value] < 0 ? value : last[value], count = 0;
        if (entry_of(live, value) != due)
            fail(live, "entry %ld of value %ld, due %ld", entry_of(live, value), value, due);
        for (long earlier = 0; earlier <= value; earlier++)
            count += last[earlier] > value && is_ciphertext(&schedule_lines[earlier]);
        if (count_after(live, value) != count)
            fail(live, "count %ld after line %ld, due %ld", count_after(live, value), value, count);
    }
}

/* Asks this once; the soak does not repeat it. */
static void ask(struct job job, struct answer due)
{
    job.reply = due;
    repeat(&job, first_block, 0x5a);
    answer_count++;
}

/* Where the schedule has the line: the answer is yes where the line is not before the value's own and a scan finds no later line that names it. */
static void ask_may_drop(const struct input *schedule, long value, long line)
{
    if (line < 0)
        return;
    ask((struct job){.service = MAY_DROP, .file = schedule, .value = (uint32_t)value, .line = (uint32_t)line},
        (struct answer){.length = line >= value && last_naming(value, line) < 0});
}

/* One by one: of a long schedule some values and lines, and of each of these values the lines around its own and around its entry. */
static void ask_each(const struct job *live)
{
    long step = schedule_count > FEW_LINES ? FEW_LINES - 3 : 1;
    for (long value = 0; value < schedule_count; value += step) {
        ask((struct job){.service = LIVE_AFTER, .file = live->file, .line = (uint32_t)value},
            (struct answer){.length = (uint32_t)count_after(live, value)});
        for (long line = 0; line < schedule_count; line += step)
            ask_may_drop(live->file, value, line);
        ask_may_drop(live->file, value, value - 1);
        ask_may_drop(live->file, value, value);
        ask_may_drop(live->file, value, entry_of(live, value) - 1);
        ask_may_drop(live->file, value, entry_of(live, value));
    }
}

/* About a line, about a value and about both of this number: the same reply. */
static void ask_about(const struct input *schedule, uint32_t number, struct answer due)
{
    ask((struct job){.service = LIVE_AFTER, .file = schedule, .line = number}, due);
    ask((struct job){.service = MAY_DROP, .file = schedule, .line = number}, due);
    ask((struct job){.service = MAY_DROP, .file = schedule, .value = number}, due);
    ask((struct job){.service = MAY_DROP, .file = schedule, .value = number, .line = number}, due);
}

/* Numbers that the schedule lacks, among them those that 16 bits would take for small ones. */
static void ask_for_lacking(const struct input *schedule)
{
    uint32_t past = (uint32_t)schedule_count;
    const uint32_t lacking[] = {past, past + 1, 65536, past + 65536, UINT32_MAX};
    for (size_t i = 0; i < sizeof lacking / sizeof lacking[0]; i++)
        ask_about(schedule, lacking[i], (struct answer){.number = 4});
    expect(add_live_after(schedule, past), 4, 0, 0);
    expect(add_may_drop(schedule, past, UINT32_MAX), 4, 0, 0);
}

/* A vector, in place of a ciphertext. Numbers are taken modulo a prime, so that they stay small and none gets lost. */
struct vector {
    uint64_t slots[SLOTS];
};

static const uint64_t prime = 2147483647;

/* What a line holds in the plain machine, whose numbers enc, rs, ms and us pass on. `handed_in` is the number of an input. */
static struct vector held_by(const struct line *line, uint64_t handed_in, const struct vector *first, const struct vector *second)
{
    struct vector held;
    for (size_t slot = 0; slot < SLOTS; slot++) {
        uint64_t *number = &held.slots[slot];
        if (is_word(line, "in"))
            *number = (7919 * handed_in + 104729 * slot + 3) % prime;
        else if (is_word(line, "const"))
            *number = (7907 * (uint64_t)line->numbers[0] + 104723 * slot + 2) % prime;
        else if (is_word(line, "neg"))
            *number = (prime - first->slots[slot]) % prime;
        else if (is_word(line, "rot"))
            *number = first->slots[(slot + (size_t)(line->numbers[1] + 32768 * SLOTS)) % SLOTS];
        else if (is_word(line, "add"))
            *number = (first->slots[slot] + second->slots[slot]) % prime;
        else if (is_word(line, "mul"))
            *number = first->slots[slot] * second->slots[slot] % prime;
        else
            *number = first->slots[slot];
    }
    return held;
}

/* The results of the file that a schedule is compared with, from an evaluation that drops nothing. */
static struct vector results[SCHEDULE_LINES];
static long result_count;

static void evaluate_keeping(const struct job *live, const struct input *file)
{
    static struct line all[SCHEDULE_LINES];
    static struct vector kept[SCHEDULE_LINES];
    long top, inputs_done = 0, count = read_lines(live, file->bytes, file->length, all, &top);
    result_count = 0;
    for (long line = 0; line < count; line++) {
        int operands = operand_count(&all[line]);
        const struct vector *first = operands > 0 ? &kept[all[line].numbers[0]] : NULL;
        const struct vector *second = operands > 1 ? &kept[all[line].numbers[1]] : NULL;
        kept[line] = held_by(&all[line], (uint64_t)inputs_done, first, second);
        inputs_done += is_word(&all[line], "in");
        if (is_word(&all[line], "out"))
            results[result_count++] = kept[line];
    }
}

/* What an evaluation that drops holds; NULL where nothing was made yet, and where it was dropped. */
static struct vector *held[SCHEDULE_LINES];

static void drop(long value)
{
    memset(held[value], DROPPED, sizeof *held[value]);
    free(held[value]);
    held[value] = NULL;
}

static long ciphertexts_held(void)
{
    long count = 0;
    for (long value = 0; value < schedule_count; value++)
        count += held[value] && is_ciphertext(&schedule_lines[value]);
    return count;
}

/* An operand that was dropped would be named here. */
static void do_line(const struct job *live, long number, uint64_t handed_in)
{
    const struct line *line = &schedule_lines[number];
    const struct vector *operands[2] = {NULL, NULL};
    for (int i = 0; i < operand_count(line); i++) {
        operands[i] = held[line->numbers[i]];
        if (!operands[i])
            fail(live, "line %ld names value %ld, which was dropped", number, line->numbers[i]);
    }
    held[number] = malloc(sizeof *held[number]);
    if (!held[number])
        die("no memory for a vector");
    *held[number] = held_by(line, handed_in, operands[0], operands[1]);
}

/* Only what the line has named, and the line itself, can have come to its entry. */
static void drop_after(const struct job *live, long number)
{
    const struct line *line = &schedule_lines[number];
    for (int i = 0; i < operand_count(line); i++)
        if (held[line->numbers[i]] && entry_of(live, line->numbers[i]) <= number)
            drop(line->numbers[i]);
    if (entry_of(live, number) <= number)
        drop(number);
}

/* Every line is done with what is still held, gives the results of the evaluation that drops nothing, and leaves as many ciphertexts as
 * the table says: at most the peak, and at the end none. */
static void evaluate_dropping(const struct job *live, long peak)
{
    long most = 0, inputs_done = 0, results_seen = 0;
    for (long line = 0; line < schedule_count; line++) {
        do_line(live, line, (uint64_t)inputs_done);
        inputs_done += is_word(&schedule_lines[line], "in");
        if (ciphertexts_held() > peak + 1)
            fail(live, "line %ld is done with more than one ciphertext above the peak", line);
        if (is_word(&schedule_lines[line], "out") &&
            (results_seen == result_count || memcmp(held[line], &results[results_seen++], sizeof *held[line])))
            fail(live, "line %ld has another result than the evaluation that drops nothing", line);
        drop_after(live, line);
        if (ciphertexts_held() != count_after(live, line))
            fail(live, "%ld ciphertexts are held after line %ld, due %ld", ciphertexts_held(), line, count_after(live, line));
        most = ciphertexts_held() > most ? ciphertexts_held() : most;
    }
    if (most != peak || results_seen != result_count)
        fail(live, "most held %ld, peak %ld; %ld results, due %ld", most, peak, results_seen, result_count);
    for (long value = 0; value < schedule_count; value++)
        if (held[value])
            fail(live, "value %ld is held at the end", value);
    evaluation_count++;
    evaluated_lines += (unsigned long)schedule_count;
    most_held = (uint32_t)most > most_held ? (uint32_t)most : most_held;
}

/* A file that is refused is refused by all four alike, before a number that it lacks. */
static void expect_alike(const struct job *live)
{
    const struct answer due = live->reply;
    expect(add_live_peak(live->file), due.number, due.file, due.place);
    expect(add_live_after(live->file, 0), due.number, due.file, due.place);
    expect(add_may_drop(live->file, UINT32_MAX, UINT32_MAX), due.number, due.file, due.place);
    ask_about(live->file, 0, due);
    ask_about(live->file, UINT32_MAX, due);
}

/* All four calls on a schedule, and its evaluation, whose results are those of the other file: itself, or the circuit that it was made from. */
static const struct job *try_live(const struct input *schedule, const struct input *other)
{
    const struct job *live = add_live(schedule, ENOUGH);
    long top;
    if (live->reply.number) {
        expect_alike(live);
        return live;
    }
    schedule_count = read_lines(live, schedule->bytes, schedule->length, schedule_lines, &top);
    expect_length(live, (uint32_t)schedule_count * GOWASHIRU_LIVE_VALUE_BYTES);
    hold_to_scan(live);
    ask_each(live);
    ask_for_lacking(schedule);
    if (schedule_count > 0) {
        expect_length(add_may_drop(schedule, 0, (uint32_t)schedule_count - 1), 1);
        expect_length(add_live_after(schedule, (uint32_t)schedule_count - 1), 0);
    }
    if (schedule_count <= FEW_LINES)
        try_rooms(live);
    evaluate_keeping(live, other);
    evaluate_dropping(live, add_live_peak(schedule)->reply.length);
    return live;
}

/* ---- Replies beside the examples ---- */

/* As the examples write it: a line for each value, and the largest count. */
static int live_as_text(const struct job *live, char *text, size_t room)
{
    long most = 0;
    size_t length = 0;
    for (long value = 0; value < (long)live->reply.length / GOWASHIRU_LIVE_VALUE_BYTES; value++) {
        length += (size_t)snprintf(text + length, room - length, "%ld\t%ld\t%ld\n", value, entry_of(live, value), count_after(live, value));
        most = count_after(live, value) > most ? count_after(live, value) : most;
    }
    return (int)length + snprintf(text + length, room - length, "peak\t%ld\n", most);
}

/* The reply as the examples write it. */
static size_t as_text(const struct job *job, uint8_t *text, size_t room)
{
    struct answer reply = job->reply;
    char *line = (char *)text;
    int length;
    if (reply.number && job->service == CHECK)
        length = snprintf(line, room, "refused\t%" PRIu32 "\t%" PRIu32 "\t%" PRIu32 "\n", reply.number, reply.file,
                          reply.place);
    else if (reply.number)
        length = snprintf(line, room, "refused\t%" PRIu32 "\t%" PRIu32 "\n", reply.number, reply.place);
    else if (job->service == CHECK)
        length = snprintf(line, room, "passed\n");
    else if (job->service == LEAST)
        length = snprintf(line, room, "level\t%" PRIu32 "\n", reply.length);
    else if (job->service == QUOTE)
        length = snprintf(line, room, "lines\t%" PRIu32 "\nbytes\t%" PRIu32 "\nprice\t%" PRIu32 "\n", reply.lines,
                          reply.length, reply.price);
    else if (job->service == LIVE)
        length = live_as_text(job, line, room);
    else {
        memcpy(text, job->result, reply.length);
        length = (int)reply.length;
    }
    return (size_t)length;
}

/* Compares with the expected reply that stands beside the example: its name with another ending. */
static void compare(const struct job *job, const char *folder, const char *example, const char *ending)
{
    static uint8_t due[ENOUGH], got[ENOUGH];
    char name[300];
    int stem = (int)(strrchr(example, '.') - example);
    snprintf(name, sizeof name, "%.*s%s", stem, example, ending);
    size_t due_length = read_file(folder, name, due, sizeof due);
    size_t got_length = as_text(job, got, sizeof got);
    size_t at = 0;
    while (at < due_length && at < got_length && due[at] == got[at])
        at++;
    if (at < due_length || at < got_length)
        fail(job, "differs from %s at byte %zu", name, at);
}

static void expect_bytes(const struct job *job, const struct input *due)
{
    expect(job, 0, 0, 0);
    if (job->reply.length != due->length || memcmp(job->result, due->bytes, due->length))
        fail(job, "is not %s", due->name);
}

/* What a call wrote, as an input. */
static const struct input *add_result(const char *of, const struct job *job)
{
    char name[160];
    snprintf(name, sizeof name, "%s of %s", of, job->file->name);
    return add_input(name, job->result, job->reply.length);
}

/* A schedule that keeps the rules goes out as a listing, and the listing gives the schedule back. */
static const struct job *go_out_and_back(const struct input *schedule)
{
    const struct job *out = add_to_rising(schedule, ENOUGH);
    if (out->reply.number)
        return out;
    const struct job *back = add_from_rising(add_result("listing", out), ENOUGH);
    expect_bytes(back, schedule);
    try_rooms(out);
    try_rooms(back);
    return out;
}

/* A plan that was written must pass against its circuit, erase to it, go out as a listing and back, and give the circuit's results when its
 * values are dropped early. Its table of live ciphertexts. */
static const struct job *close_circle(const struct job *plan)
{
    const struct input *schedule = add_result("plan", plan);
    expect(add_check(plan->file, schedule), 0, 0, 0);
    expect_bytes(add_erase(schedule, ENOUGH), plan->file);
    expect(go_out_and_back(schedule), 0, 0, 0);
    return try_live(schedule, plan->file);
}

/* ---- Examples ---- */

static bool ends_with(const char *name, const char *ending)
{
    size_t length = strlen(name), tail = strlen(ending);
    return length > tail && strcmp(name + length - tail, ending) == 0;
}

static const struct input *find(const char *name)
{
    for (size_t i = 0; i < input_count; i++)
        if (strcmp(inputs[i].name, name) == 0)
            return &inputs[i];
    die("no input %s", name);
}

static void try_circuit(const char *folder, const char *name)
{
    const struct input *circuit = load(folder, name);
    const struct job *plan = add_plan(circuit, ENOUGH), *quote = add_quote(circuit);
    compare(plan, folder, name, ".plan");
    compare(add_least(circuit), folder, name, ".least");
    compare(quote, folder, name, ".quote");
    hold_to_plan(quote, plan);
    try_rooms(plan);
    if (plan->reply.number == 0)
        compare(close_circle(plan), folder, name, ".plan.live");
}

static void try_schedule(const char *folder, const char *name)
{
    char circuit[300];
    snprintf(circuit, sizeof circuit, "%.*s.circuit", (int)strcspn(name, "."), name);
    const struct input *schedule = load(folder, name);
    compare(add_check(find(circuit), schedule), folder, name, ".check");
    const struct job *erased = add_erase(schedule, ENOUGH);
    compare(erased, folder, name, ".erasure");
    try_rooms(erased);
    go_out_and_back(schedule);
    compare(try_live(schedule, schedule), folder, name, ".live");
}

static int try_all(const char *folder, const char *ending, void (*try_one)(const char *, const char *))
{
    struct dirent **entries;
    int tried = 0, count = scandir(folder, &entries, NULL, alphasort);
    if (count < 0)
        die("%s: %s", folder, strerror(errno));
    for (int i = 0; i < count; i++) {
        if (ends_with(entries[i]->d_name, ending)) {
            try_one(folder, entries[i]->d_name);
            tried++;
        }
        free(entries[i]);
    }
    free(entries);
    if (!tried)
        die("%s holds no %s", folder, ending);
    return tried;
}

/* ---- Inputs made here ---- */

static char draft[ENOUGH];
static size_t drafted;

static void put(const char *format, ...)
{
    va_list values;
    va_start(values, format);
    int length = vsnprintf(draft + drafted, sizeof draft - drafted, format, values);
    va_end(values);
    if (length < 0 || (size_t)length >= sizeof draft - drafted)
        die("an input made here is too long");
    drafted += (size_t)length;
}

static const struct input *take(const char *name)
{
    const struct input *input = add_input(name, draft, drafted);
    drafted = 0;
    return input;
}

/* Circuits of 256 lines, one that plans and one that has too few levels everywhere, and one of 257. */
static void try_long_circuits(void)
{
    static const char *const lines[] = {"add\t%d\t0\n", "mul\t%d\t%d\n", "rot\t%d\t-32767\n", "neg\t%d\n"};
    put("circuit\t60\t20\t60\nin\n");
    for (int value = 1; value < 255; value++)
        put(lines[value % 4], value - 1, value - 1);
    put("out\t254\n");
    const struct input *longest = take("256 lines.circuit");
    const struct job *plan = plan_and_quote(longest, ENOUGH);
    expect(plan, 0, 0, 0);
    expect(add_least(longest), 0, 0, 0);
    try_rooms(plan);
    close_circle(plan);

    put("%.*sin\n", (int)longest->length, (const char *)longest->bytes);
    const struct input *over = take("257 lines.circuit");
    expect(plan_and_quote(over, ENOUGH), 3, 1, 258);
    expect(add_least(over), 3, 1, 258);

    put("circuit\t60\t60\t60\nin\n");
    for (int value = 1; value < 256; value++)
        put("mul\t%d\t%d\n", value - 1, value - 1);
    const struct input *deep = take("255 squarings.circuit");
    if (plan_and_quote(deep, ENOUGH)->reply.number != 6 || add_least(deep)->reply.number != 6)
        die("plan or least level of %s: not refused with 6", deep->name);
}

static void try_quote(const struct input *circuit, struct answer due)
{
    const struct job *plan = add_plan(circuit, ENOUGH), *quote = add_quote(circuit);
    if (!same_reply(quote->reply, due))
        fail_reply(quote, quote->reply, due);
    hold_to_plan(quote, plan);
}

/* Quotes worked by hand: a header alone, and a plan whose rs and ms lines give up several levels. */
static void try_quotes(void)
{
    put("circuit\t60\t20\t2\n");
    try_quote(take("header alone.circuit"), (struct answer){.lines = 1, .length = 17, .price = 0});
    /* enc 16, mul with it 32, two rs of 48 + 42, mul 240, rs 36 + 30, enc 8, add 4, ms 8 + 7 + 6 + 5, mul 160 */
    put("circuit\t10\t20\t8\nin\nconst\t7\nmul\t1\t0\nmul\t2\t2\nadd\t3\t1\nmul\t4\t0\n");
    try_quote(take("several levels.circuit"), (struct answer){.lines = 13, .length = 111, .price = 732});
}

/* A small circuit with this constant number, or its plan. */
static const struct input *with_constant(const char *number, bool is_plan)
{
    char name[64];
    put(is_plan ? "schedule\t60\t20\t2\nin\nconst\t%s\nenc\t1\t20\t2\nmul\t0\t2\nout\t3\n"
                : "circuit\t60\t20\t2\nin\nconst\t%s\nmul\t0\t1\nout\t2\n",
        number);
    snprintf(name, sizeof name, "constant %s.%s", number, is_plan ? "schedule" : "circuit");
    return take(name);
}

/* Constant numbers from end to end, and 256 of the longest: copied by plan, passed by check and given back by erase. */
static void try_constants(void)
{
    static const char *const numbers[] = {"0", "65535", "65536", "65543", "4294967294", "4294967295"};
    for (size_t i = 0; i < sizeof numbers / sizeof numbers[0]; i++) {
        const struct input *circuit = with_constant(numbers[i], false), *due = with_constant(numbers[i], true);
        const struct job *plan = plan_and_quote(circuit, ENOUGH);
        expect_bytes(plan, due);
        expect(add_least(circuit), 0, 0, 0);
        try_rooms(plan);
        close_circle(plan);
    }
    /* The same modulo two to the 16, and yet another constant. */
    expect(add_check(find("constant 65535.circuit"), find("constant 4294967295.schedule")), 12, 1, 3);
    expect(add_check(find("constant 4294967295.circuit"), find("constant 65535.schedule")), 12, 1, 3);

    /* No circuit that can be read is longer. */
    put("circuit\t60\t60\t60\t60\n");
    for (int value = 0; value < 256; value++)
        put("const\t4294967295\n");
    const struct input *longest = take("256 constants.circuit");
    if (longest->length != LONGEST_CIRCUIT)
        die("%s has %zu bytes, not %d", longest->name, longest->length, LONGEST_CIRCUIT);
    const struct job *plan = plan_and_quote(longest, ENOUGH);
    expect(plan, 0, 0, 0);
    try_rooms(plan);
    close_circle(plan);
}

/* Constant numbers that are too large, or too long for a field: refused by every call, and `run` sees that nothing was written. */
static void try_large_constants(void)
{
    static const char *const numbers[] = {"4294967296", "4294967303", "99999999999", "100000000000"};
    const struct input *good = find("constant 65535.circuit");
    for (size_t i = 0; i < sizeof numbers / sizeof numbers[0]; i++) {
        const struct input *circuit = with_constant(numbers[i], false), *schedule = with_constant(numbers[i], true);
        uint32_t due = strlen(numbers[i]) > 11 ? 1 : 11;
        expect(plan_and_quote(circuit, ENOUGH), due, 1, 3);
        expect(add_least(circuit), due, 1, 3);
        expect(add_check(circuit, schedule), due, 1, 3);
        expect(add_check(good, schedule), due, 2, 3);
        expect(add_erase(schedule, ENOUGH), due, 1, 3);
        expect(add_to_rising(schedule, ENOUGH), due, 1, 3);
        expect(try_live(schedule, schedule), due, 1, 3);
    }
}

/* Schedules of 1,792 lines and one more, and one that keeps 257 lines. */
static void try_long_schedules(void)
{
    put("circuit\t60\t20\t60\nin\n");
    for (int value = 1; value < 256; value++)
        put("neg\t%d\n", value - 1);
    const struct input *circuit = take("255 negs.circuit");

    put("schedule\t60\t20\t60\nin\n");
    for (int value = 1; value < 1792; value++)
        put(value % 7 ? "us\t%d\t1\n" : "neg\t%d\n", value - 1);
    const struct input *longest = take("1792 lines.schedule");
    expect(add_check(circuit, longest), 0, 0, 0);
    const struct job *erased = add_erase(longest, ENOUGH);
    expect_bytes(erased, circuit);
    try_rooms(erased);
    expect(go_out_and_back(longest), 0, 0, 0);
    try_rooms(try_live(longest, circuit));

    put("%.*sus\t0\t1\n", (int)longest->length, (const char *)longest->bytes);
    const struct input *over = take("1793 lines.schedule");
    expect(add_check(circuit, over), 3, 2, 1794);
    expect(add_erase(over, ENOUGH), 3, 1, 1794);
    expect(add_to_rising(over, ENOUGH), 3, 1, 1794);
    expect(try_live(over, over), 3, 1, 1794);

    put("schedule%.*sneg\t0\n", (int)circuit->length - 7, (const char *)circuit->bytes + 7);
    const struct input *kept = take("257 kept lines.schedule");
    expect(add_check(circuit, kept), 12, 1, 258);
    expect(add_erase(kept, ENOUGH), 3, 1, 258);
    expect(add_to_rising(kept, ENOUGH), 3, 1, 258);
    expect(try_live(kept, kept), 0, 0, 0);
}

/* A converted listing passes against its own erasure, and its schedule goes out and back. */
static void try_converted(const struct job *converted)
{
    expect(converted, 0, 0, 0);
    try_rooms(converted);
    const struct input *schedule = add_result("schedule", converted);
    const struct job *erased = add_erase(schedule, ENOUGH);
    expect(erased, 0, 0, 0);
    const struct input *circuit = add_result("erasure", erased);
    expect(add_check(circuit, schedule), 0, 0, 0);
    expect(go_out_and_back(schedule), 0, 0, 0);
    expect(try_live(schedule, circuit), 0, 0, 0);
}

/* A listing of so many inputs and of downscales of the first, and a last line. */
static const struct input *with_downscales(int inputs_made, int downscales, const char *last)
{
    char name[64];
    put("rising\t60\t20\t2\n");
    for (int i = 0; i < inputs_made + downscales; i++)
        put(i < inputs_made ? "in\n" : "ds\t0\n");
    put("%s", last);
    snprintf(name, sizeof name, "%d in and %d ds.rising", inputs_made, downscales);
    return take(name);
}

/* Document 000's own schedules with its downscale, which are examples; listings at the limits on lines, before and after the conversion. */
static void try_listings(void)
{
    put("rising\t60\t20\t2\nin\nin\nmul\t0\t0\nmul\t1\t1\nadd\t2\t3\nmul\t4\t4\nrs\t5\t1\nds\t4\nmul\t6\t7\nout\t8\n");
    const struct job *proactive = add_from_rising(take("proactive.rising"), ENOUGH);
    expect_bytes(proactive, find("cubed_sum.proactive.schedule"));
    try_converted(proactive);
    put("rising\t60\t20\t2\nin\nin\nmul\t0\t0\nmul\t1\t1\nadd\t2\t3\nds\t4\nmul\t5\t5\nmul\t6\t5\nout\t7\n");
    const struct job *early = add_from_rising(take("early.rising"), ENOUGH);
    expect_bytes(early, find("cubed_sum.early.schedule"));
    try_converted(early);

    try_converted(add_from_rising(with_downscales(100, 846, ""), ENOUGH));
    expect(add_from_rising(with_downscales(100, 847, ""), ENOUGH), 3, 1, 948);
    expect(add_from_rising(with_downscales(101, 846, ""), ENOUGH), 3, 1, 948);
    expect(add_from_rising(with_downscales(100, 847, "us\t0\t101\n"), ENOUGH), 9, 1, 949);
    expect(add_from_rising(with_downscales(256, 1, "in\n"), ENOUGH), 3, 1, 259);
    expect(add_from_rising(with_downscales(1, 1792, ""), ENOUGH), 3, 1, 1794);
    expect(add_from_rising(with_downscales(1, 0, "us\t0\t60\nds\t1\n"), ENOUGH), 14, 1, 4);
    expect(add_from_rising(with_downscales(1, 1, "ds\t1\n"), ENOUGH), 9, 1, 4);
    expect(add_from_rising(with_downscales(1, 1, "const\t4294967295\nenc\t2\t20\t2\n"), ENOUGH), 11, 1, 5);
    expect(add_from_rising(with_downscales(1, 0, "ds\t99999999999\n"), ENOUGH), 4, 1, 3);
}

/* A file of this header word, F, W and L, an H where it is not NULL, and these lines. */
static const struct input *with_headroom(const char *word, const char *numbers, const char *headroom, const char *lines)
{
    char name[64];
    put("%s\t%s%s%s\n%s", word, numbers, headroom ? "\t" : "", headroom ? headroom : "", lines);
    snprintf(name, sizeof name, "H %s.%s", headroom ? headroom : "none", word);
    return take(name);
}

/* Document 01's worked circuit leaves 20 bits of reserve at its last product: its plan has an H up to 20 in its header and the lines of the
 * plan without, and 21 asks for a level more. With F = 1 no level is left. */
static void try_headroom_of_plans(void)
{
    static const char circuit_lines[] = "in\nconst\t7\nmul\t0\t1\nmul\t2\t1\nmul\t3\t3\nout\t4\n";
    static const char plan_lines[] = "in\nconst\t7\nenc\t1\t20\t2\nmul\t0\t2\nenc\t1\t20\t2\nmul\t3\t4\nus\t5\t20\nrs\t6\t1\n"
                                     "us\t5\t20\nrs\t8\t1\nmul\t7\t9\nout\t10\n";
    static const char *const fitting[] = {NULL, "1", "5", "20"};
    for (size_t i = 0; i < sizeof fitting / sizeof fitting[0]; i++) {
        const struct input *circuit = with_headroom("circuit", "60\t20\t2", fitting[i], circuit_lines);
        const struct job *plan = plan_and_quote(circuit, ENOUGH);
        expect_bytes(plan, with_headroom("schedule", "60\t20\t2", fitting[i], plan_lines));
        expect_length(add_least(circuit), 2);
        try_rooms(plan);
        close_circle(plan);
    }
    const struct input *over = with_headroom("circuit", "60\t20\t2", "21", circuit_lines);
    expect(plan_and_quote(over, ENOUGH), 6, 1, 6);
    expect_length(add_least(over), 3);
    expect_length(add_least(with_headroom("circuit", "1\t30\t1", NULL, "in\n")), 30);
    expect_length(add_least(with_headroom("circuit", "1\t30\t1", "30", "in\n")), 60);
    expect(add_least(with_headroom("circuit", "1\t30\t1", "31", "in\n")), 6, 1, 2);
}

/* The circuit with this top level in its header, the third number there. */
static const struct input *with_level(const struct input *circuit, int level)
{
    char name[64];
    const char *text = (const char *)circuit->bytes, *end = text + circuit->length, *third = text;
    for (int tabs = 0; tabs < 3; third++)
        tabs += *third == '\t';
    const char *rest = third + strspn(third, "0123456789");
    put("%.*s%d%.*s", (int)(third - text), text, level, (int)(end - rest), rest);
    snprintf(name, sizeof name, "L %d of %.40s", level, circuit->name);
    return take(name);
}

/* What fits at one top level fits at every higher one up to 60: planning says 6 below the least level, and from there on never. */
static void try_levels(const char *name)
{
    const struct input *circuit = find(name);
    int least = (int)add_least(circuit)->reply.length;
    if (least == 0)
        die("%s fits at no level", name);
    for (int level = 1; level <= 60; level++) {
        const struct job *plan = add_plan(with_level(circuit, level), ENOUGH);
        if (plan->reply.number != (level < least ? 6 : 0))
            fail(plan, "number %" PRIu32 ", and the least level is %d", plan->reply.number, least);
        if (level >= least)
            expect_length(add_least(plan->file), (uint32_t)least);
    }
    expect(add_plan(with_level(circuit, 61), ENOUGH), 2, 1, 1);
}

/* A scale with which H just fills the modulus, and one bit more: at an input, an encoded constant and an upscale. */
static void try_headroom_of_scales(void)
{
    static const struct {
        const char *fits, *breaks, *circuit, *schedule;
        uint32_t place;
    } rules[] = {
        {"40", "41", "in\n", "in\n", 2},
        {"20", "21", "const\t7\n", "const\t7\nenc\t0\t40\t1\n", 3},
        {"20", "21", "in\n", "in\nus\t0\t20\n", 3},
    };
    for (size_t i = 0; i < sizeof rules / sizeof rules[0]; i++) {
        const struct input *schedule = with_headroom("schedule", "60\t20\t1", rules[i].fits, rules[i].schedule);
        const struct input *circuit = with_headroom("circuit", "60\t20\t1", rules[i].fits, rules[i].circuit);
        expect(add_check(circuit, schedule), 0, 0, 0);
        expect_bytes(add_erase(schedule, ENOUGH), circuit);
        expect(go_out_and_back(schedule), 0, 0, 0);
        schedule = with_headroom("schedule", "60\t20\t1", rules[i].breaks, rules[i].schedule);
        circuit = with_headroom("circuit", "60\t20\t1", rules[i].breaks, rules[i].circuit);
        expect(add_check(circuit, schedule), 9, 2, rules[i].place);
        expect_bytes(add_erase(schedule, ENOUGH), circuit);
        expect(add_to_rising(schedule, ENOUGH), 9, 1, rules[i].place);
    }
}

/* H in one file alone, and another H, before every rule. */
static void try_another_headroom(void)
{
    static const char *const pairs[][2] = {{"5", NULL}, {NULL, "5"}, {"5", "6"}, {"60", "6"}, {NULL, "60"}};
    for (size_t i = 0; i < sizeof pairs / sizeof pairs[0]; i++)
        expect(add_check(with_headroom("circuit", "60\t20\t1", pairs[i][0], "in\n"),
                         with_headroom("schedule", "60\t20\t1", pairs[i][1], "in\n")),
               12, 1, 1);
}

/* A downscale at level 2 of F = 60 and W = 20 leaves 40 bits; an H is kept each way. */
static void try_headroom_of_listings(void)
{
    static const char lines[] = "in\nds\t0\nconst\t7\nenc\t2\t20\t1\nadd\t1\t3\n";
    static const char converted_lines[] = "in\nus\t0\t60\nrs\t1\t1\nconst\t7\nenc\t3\t20\t1\nadd\t2\t4\n";
    static const char *const fitting[] = {NULL, "1", "40"};
    for (size_t i = 0; i < sizeof fitting / sizeof fitting[0]; i++) {
        const struct job *converted = add_from_rising(with_headroom("rising", "60\t20\t2", fitting[i], lines), ENOUGH);
        expect_bytes(converted, with_headroom("schedule", "60\t20\t2", fitting[i], converted_lines));
        try_converted(converted);
    }
    expect(add_from_rising(with_headroom("rising", "60\t20\t2", "41", lines), ENOUGH), 9, 1, 3);
    expect(add_from_rising(with_headroom("rising", "60\t20\t2", "40", "in\nus\t0\t60\nds\t1\n"), ENOUGH), 14, 1, 4);
    expect(add_from_rising(with_headroom("rising", "60\t20\t1", "41", "in\n"), ENOUGH), 9, 1, 2);
}

/* Headers whose fourth number is outside its range, or is none, or has a fifth behind it: refused by every call. */
static void try_damaged_headroom(void)
{
    static const struct {
        const char *headroom;
        uint32_t due;
    } faults[] = {
        {"0", 2}, {"61", 2}, {"65537", 2}, {"4294967301", 2}, {"99999999999", 2}, {"", 1}, {"05", 1}, {"-5", 1}, {"+5", 1}, {"x", 1},
        {"100000000000", 1}, {"5\t5", 1}, {"5\t", 1}, {"61\tx", 1},
    };
    const struct input *good = with_headroom("circuit", "60\t20\t2", "5", "in\n");
    for (size_t i = 0; i < sizeof faults / sizeof faults[0]; i++) {
        uint32_t due = faults[i].due;
        const struct input *circuit = with_headroom("circuit", "60\t20\t2", faults[i].headroom, "in\n");
        const struct input *schedule = with_headroom("schedule", "60\t20\t2", faults[i].headroom, "in\n");
        expect(plan_and_quote(circuit, ENOUGH), due, 1, 1);
        expect(add_least(circuit), due, 1, 1);
        expect(add_check(circuit, schedule), due, 1, 1);
        expect(add_check(good, schedule), due, 2, 1);
        expect(add_erase(schedule, ENOUGH), due, 1, 1);
        expect(add_to_rising(schedule, ENOUGH), due, 1, 1);
        expect(try_live(schedule, schedule), due, 1, 1);
        expect(add_from_rising(with_headroom("rising", "60\t20\t2", faults[i].headroom, "in\n"), ENOUGH), due, 1, 1);
    }
}

static void expect_peak(const struct input *schedule, uint32_t peak)
{
    expect(try_live(schedule, schedule), 0, 0, 0);
    expect_length(add_live_peak(schedule), peak);
}

/* A header alone; full schedules whose values are never named, all named by the last lines, each by the next, and one by all. */
static void try_live_limits(void)
{
    put("schedule\t60\t20\t2\n");
    expect_peak(take("header alone.schedule"), 0);

    put("schedule\t60\t20\t2\n");
    for (int value = 0; value < SCHEDULE_LINES; value++)
        put("in\n");
    expect_peak(take("1792 inputs.schedule"), 0);

    put("schedule\t60\t20\t2\n");
    for (int value = 0; value < MOST_LIVE; value++)
        put("in\n");
    for (int value = 0; value < MOST_LIVE; value += 2)
        put("add\t%d\t%d\n", value, value + 1);
    put("out\t%d\n", SCHEDULE_LINES - 2);
    expect_peak(take("most live.schedule"), MOST_LIVE);

    put("schedule\t60\t20\t2\nin\n");
    for (int value = 1; value < SCHEDULE_LINES; value++)
        put(value == SCHEDULE_LINES - 1 ? "out\t0\n" : "rot\t0\t%d\n", value);
    expect_peak(take("one for all.schedule"), 1);

    put("schedule\t60\t20\t2\nconst\t4294967295\n");
    for (int value = 1; value < SCHEDULE_LINES; value++)
        put("enc\t0\t3600\t2\n");
    expect_peak(take("1791 enc.schedule"), 0);
}

static uint32_t random_below(uint32_t *seed, uint32_t most)
{
    *seed = *seed * 1664525u + 1013904223u;
    return (*seed >> 8) % most;
}

/* An earlier value of this kind: c a ciphertext, k a constant, e an encoded one. The first three values are one of each. */
static unsigned pick(const char *kinds, unsigned before, char kind, uint32_t *seed)
{
    unsigned value = random_below(seed, before);
    while (kinds[value] != kind)
        value = value == 0 ? before - 1 : value - 1;
    return value;
}

/* A line of any word, with operands of the right kinds; levels and scales are as they come. Its kind. */
static char put_random_line(const char *kinds, unsigned value, uint32_t *seed)
{
    unsigned one = pick(kinds, value, 'c', seed), other = pick(kinds, value, random_below(seed, 3) ? 'c' : 'e', seed);
    bool turned = random_below(seed, 2);
    switch (random_below(seed, 13)) {
    case 0:
        put("in\n");
        return 'c';
    case 1:
        put("const\t%u\n", random_below(seed, 65536) * 65537u);
        return 'k';
    case 2:
        put("enc\t%u\t%u\t1\n", pick(kinds, value, 'k', seed), 1 + random_below(seed, 3600));
        return 'e';
    case 3:
        put("out\t%u\n", one);
        return 'o';
    case 4:
        put("neg\t%u\n", one);
        return 'c';
    case 5:
        put("rot\t%u\t%d\n", one, (int)random_below(seed, 65535) - 32767);
        return 'c';
    case 6:
    case 7:
        put("%s\t%u\t%u\n", random_below(seed, 2) ? "rs" : "ms", one, 1 + random_below(seed, 60));
        return 'c';
    case 8:
        put("us\t%u\t%u\n", one, 1 + random_below(seed, 3600));
        return 'c';
    default:
        put("%s\t%u\t%u\n", random_below(seed, 2) ? "add" : "mul", turned ? other : one, turned ? one : other);
        return 'c';
    }
}

/* Schedules of all words, which read and mostly break the rules: short ones of each length, and full ones. */
static void try_random_schedules(void)
{
    char name[64], kinds[SCHEDULE_LINES];
    for (unsigned number = 0; number < 40; number++) {
        uint32_t seed = number;
        unsigned length = number < 36 ? 4 + number : SCHEDULE_LINES;
        put("schedule\t60\t20\t2\nin\nconst\t7\nenc\t1\t20\t2\n");
        memcpy(kinds, "cke", 3);
        for (unsigned value = 3; value < length; value++)
            kinds[value] = put_random_line(kinds, value, &seed);
        snprintf(name, sizeof name, "random %u.schedule", number);
        const struct input *schedule = take(name);
        expect(try_live(schedule, schedule), 0, 0, 0);
    }
}

/* An example cut after each byte, and with one bit of each byte turned: short calls, most of them refused. */
static void try_damaged(const char *name, void (*try_one)(const struct input *))
{
    uint8_t bytes[512];
    char label[200];
    const struct input *good = find(name);
    if (good->length > sizeof bytes)
        die("%s is too long to be damaged here", name);
    for (size_t at = 0; at < 2 * good->length; at++) {
        size_t place = at / 2;
        memcpy(bytes, good->bytes, good->length);
        bytes[place] ^= (uint8_t)(at % 2);
        snprintf(label, sizeof label, "%s %s byte %zu", name, at % 2 ? "with a bit turned in" : "cut before", place);
        try_one(add_input(label, bytes, at % 2 ? good->length : place));
    }
}

static void try_damaged_circuit(const struct input *damaged)
{
    plan_and_quote(damaged, 1024);
    add_least(damaged);
}

static void try_damaged_schedule(const struct input *damaged)
{
    add_check(find("listing.circuit"), damaged);
    add_erase(damaged, 1024);
    add_to_rising(damaged, 1024);
    try_live(damaged, damaged);
}

static void try_damaged_listing(const struct input *damaged)
{
    add_from_rising(damaged, 1024);
}

/* NULL with length 0 for each pointer; a missing file is an empty one, refused with 1 at its line 1. */
static void try_null(void)
{
    const struct input *none = add_input("NULL", NULL, 0);
    const struct input *circuit = find("listing.circuit"), *schedule = find("listing.by_hand.schedule");
    struct job nothing = {.service = PLAN, .file = none, .lends_null = true};
    expect(plan_and_quote(none, ENOUGH), 1, 1, 1);
    expect(add_plan(none, 0), 1, 1, 1);
    expect(add_job(nothing), 1, 1, 1);
    expect(add_check(none, schedule), 1, 1, 1);
    expect(add_check(circuit, none), 1, 2, 1);
    expect(add_check(none, none), 1, 1, 1);
    nothing.service = ERASE;
    expect(add_erase(none, ENOUGH), 1, 1, 1);
    expect(add_erase(none, 0), 1, 1, 1);
    expect(add_job(nothing), 1, 1, 1);
    expect(add_least(none), 1, 1, 1);
    for (nothing.service = FROM_RISING; nothing.service <= TO_RISING; nothing.service++)
        expect(add_job(nothing), 1, 1, 1);
    expect(add_from_rising(none, ENOUGH), 1, 1, 1);
    expect(add_to_rising(none, ENOUGH), 1, 1, 1);
    nothing.service = LIVE;
    expect(add_job(nothing), 1, 1, 1);
    expect(try_live(none, none), 1, 1, 1);
}

/* ---- Input and output in the same buffer: outside the contract, so only looked at ---- */

/* Runs in a child, which ends here; its exit code tells what was seen. */
static _Noreturn void overlap_in_child(const struct job *job)
{
    static const int signals[] = {SIGSEGV, SIGBUS, SIGILL, SIGFPE, SIGABRT};
    for (size_t i = 0; i < sizeof signals / sizeof signals[0]; i++)
        signal(signals[i], SIG_DFL);
    alarm(OVERLAP_SECONDS);
    uint8_t *both = first_block + GUARD;
    memcpy(both, job->file->bytes, job->file->length);
    struct input moved = {.bytes = both, .length = job->file->length};
    struct job copy = *job;
    copy.file = &moved;
    struct answer reply = call(&copy, both);
    bool same = same_reply(reply, job->reply) && (reply.length == 0 || memcmp(both, job->result, reply.length) == 0);
    _exit(same ? 0 : 1);
}

static int overlap(const struct job *job)
{
    int status;
    fflush(stdout);
    pid_t child = fork();
    if (child < 0)
        die("no child: %s", strerror(errno));
    if (child == 0)
        overlap_in_child(job);
    if (waitpid(child, &status, 0) != child)
        die("no word of the child: %s", strerror(errno));
    if (WIFSIGNALED(status) && WTERMSIG(status) == SIGALRM)
        fail(job, "had not ended after %d s with input and output in the same buffer", OVERLAP_SECONDS);
    return WIFSIGNALED(status) ? 2 : WEXITSTATUS(status);
}

static void try_overlap(enum service service)
{
    unsigned seen[3] = {0, 0, 0};
    for (size_t i = 0; i < job_count; i++)
        if (jobs[i].service == service && jobs[i].room == ENOUGH && jobs[i].file->bytes)
            seen[overlap(&jobs[i])]++;
    printf("same buffer in and out (outside the contract), %s: %u as with two buffers, %u otherwise, %u faults\n",
           service_names[service], seen[0], seen[1], seen[2]);
}

/* ---- Soak ---- */

/* Without stdio, so that reading the figure takes no memory of its own. */
static long resident_kib(void)
{
    static char status[8192];
    int file = open("/proc/self/status", O_RDONLY);
    ssize_t length = file < 0 ? -1 : read(file, status, sizeof status - 1);
    if (length < 0)
        die("/proc/self/status: %s", strerror(errno));
    close(file);
    status[length] = 0;
    const char *line = strstr(status, "VmRSS:");
    if (!line)
        die("/proc/self/status has no VmRSS");
    return strtol(line + 6, NULL, 10);
}

/* Warm-up: every job once. Soak: in a fixed disorder, so that other calls meet all the time; every other one is of a
 * file that is not damaged, since the others are refused soon. */
static void *work(void *argument)
{
    struct worker *me = argument;
    uint32_t pick = me->number;
    watch_faults(me->fault_stack);
    for (size_t i = 0; i < job_count; i++)
        repeat(&jobs[(i + me->number * job_count / thread_count) % job_count], me->block, (uint8_t)i);
    pthread_barrier_wait(&gate);
    pthread_barrier_wait(&gate);
    for (unsigned long done = 0; done < me->calls; done++) {
        pick = pick * 1664525u + 1013904223u;
        repeat(&jobs[(pick >> 8) % (done % 2 ? job_count : whole_count)], me->block, (uint8_t)done);
    }
    pthread_barrier_wait(&gate);
    pthread_barrier_wait(&gate);
    return NULL;
}

static double seconds(void)
{
    struct timespec now;
    clock_gettime(CLOCK_MONOTONIC, &now);
    return (double)now.tv_sec + (double)now.tv_nsec / 1e9;
}

static void start(struct worker *workers, unsigned long calls)
{
    pthread_attr_t attributes;
    if (pthread_attr_init(&attributes) || pthread_attr_setstacksize(&attributes, STACK))
        die("no thread with a stack of %d bytes", STACK);
    if (pthread_barrier_init(&gate, NULL, thread_count + 1))
        die("no barrier");
    for (uint32_t i = 0; i < thread_count; i++) {
        workers[i].number = i;
        workers[i].calls = calls / thread_count + (i < calls % thread_count);
        workers[i].block = malloc(ENOUGH + 2 * GUARD);
        if (!workers[i].block || pthread_create(&workers[i].thread, &attributes, work, &workers[i]))
            die("no thread %" PRIu32, i);
    }
    pthread_attr_destroy(&attributes);
}

/* Memory is read while the threads stand at the gate, before and after the counted calls. */
static void soak(unsigned long calls, bool only_report)
{
    static struct worker workers[MOST_THREADS];
    resident_kib();
    start(workers, calls);
    pthread_barrier_wait(&gate);
    long before = resident_kib();
    double began = seconds();
    pthread_barrier_wait(&gate);
    pthread_barrier_wait(&gate);
    double took = seconds() - began;
    long after = resident_kib();
    pthread_barrier_wait(&gate);
    for (uint32_t i = 0; i < thread_count; i++) {
        pthread_join(workers[i].thread, NULL);
        free(workers[i].block);
    }
    printf("soak: %lu calls on %" PRIu32 " threads with stacks of %d KiB: %.1f s, %.0f calls a second\n", calls,
           thread_count, STACK / 1024, took, (double)calls / took);
    printf("memory: VmRSS %ld KiB after the warm-up, %ld KiB at the end\n", before, after);
    if (after - before > MOST_GROWTH && !only_report)
        die("memory grew by %ld KiB, more than %d", after - before, MOST_GROWTH);
}

static unsigned long number_from(const char *text, unsigned long most)
{
    char *end;
    errno = 0;
    unsigned long number = strtoul(text, &end, 10);
    if (errno || *end || end == text || text[0] == '-' || number < 1 || number > most)
        die("'%s' is not a number from 1 to %lu", text, most);
    return number;
}

/* Notes what every call replies and writes, and holds it to what is due. */
static void first_pass(const char *folder)
{
    int circuits = try_all(folder, ".circuit", try_circuit);
    int schedules = try_all(folder, ".schedule", try_schedule);
    try_quotes();
    try_long_circuits();
    try_long_schedules();
    try_listings();
    try_constants();
    try_large_constants();
    try_headroom_of_plans();
    try_levels("detune.circuit");
    try_levels("wavetables.circuit");
    try_headroom_of_scales();
    try_another_headroom();
    try_headroom_of_listings();
    try_damaged_headroom();
    try_live_limits();
    try_random_schedules();
    try_null();
    whole_count = job_count;
    try_damaged("listing.circuit", try_damaged_circuit);
    try_damaged("listing.by_hand.schedule", try_damaged_schedule);
    try_damaged("proactive.rising", try_damaged_listing);
    try_damaged("H 20.circuit", try_damaged_circuit);
    try_damaged("H 20.schedule", try_damaged_schedule);
    try_damaged("H 40.rising", try_damaged_listing);
    printf("first pass: %d circuits, %d schedules, %zu inputs in all, %zu calls to repeat\n", circuits, schedules,
           input_count, job_count);
    printf("dropping: %lu evaluations, %lu lines, at most %" PRIu32 " ciphertexts held after a line; %lu answers held to a scan\n",
           evaluation_count, evaluated_lines, most_held, answer_count);
}

int main(int count, char **words)
{
    static uint8_t fault_stack[FAULT_STACK];
    unsigned long calls = 1000000;
    bool only_report = false;
    for (int option; (option = getopt(count, words, "n:t:r")) != -1;) {
        if (option == 'n')
            calls = number_from(optarg, 4000000000u);
        else if (option == 't')
            thread_count = (uint32_t)number_from(optarg, MOST_THREADS);
        else if (option == 'r')
            only_report = true;
        else
            die("use: host [-n calls] [-t threads] [-r] [folder of the examples]");
    }
    const char *folder = optind < count ? words[optind] : "../../examples";
    watch_faults(fault_stack);
    first_pass(folder);
    try_overlap(PLAN);
    try_overlap(ERASE);
    try_overlap(FROM_RISING);
    try_overlap(TO_RISING);
    try_overlap(LIVE);
    fflush(stdout);
    soak(calls, only_report);
    puts("passed");
    return 0;
}
