/* The command: which service is meant, and what it can be asked. */
#include "../include/gowashiru.h"
#include "arguments.h"
#include "files.h"
#include "services.h"

#include <stdio.h>
#include <string.h>

struct command {
    const char *name;
    const struct wanted *wanted;
    enum status (*run)(const struct arguments *arguments);
    const char *help;
};

static const struct wanted one_file = {.least = 0, .most = 1};
static const struct wanted two_files = {.least = 2, .most = 2, .needs = "two files, CIRCUIT and SCHEDULE"};
static const struct wanted file_and_line = {
    .least = 1, .most = 1, .number_count = 1, .number_names = {"LINE"}, .needs = "a file and a number, SCHEDULE and LINE"};
static const struct wanted file_value_and_line = {
    .least = 1, .most = 1, .number_count = 2, .number_names = {"VALUE", "LINE"}, .needs = "a file and two numbers, SCHEDULE, VALUE and LINE"};

static const struct command commands[] = {
    {"plan", &one_file, run_plan,
     "usage: gowashiru plan [-o FILE] [CIRCUIT]\n\n"
     "Prints the schedule of a circuit. Each ciphertext line of the circuit, out too, has in it the most reserve that the\n"
     "line has in any schedule at this header.\n"
     "Refused with 6 when no schedule of any length fits at the header's L and H.\n"},
    {"check", &two_files, run_check,
     "usage: gowashiru check [-o FILE] CIRCUIT SCHEDULE\n\n"
     "Prints `passed` if each line of the schedule keeps the rules and the schedule erases to the circuit.\n"
     "One of the two may be -, standard input.\n"},
    {"erase", &one_file, run_erase,
     "usage: gowashiru erase [-o FILE] [SCHEDULE]\n\n"
     "Prints the circuit of a schedule, without its enc, rs, ms and us lines. The rules need not hold.\n"},
    {"least-level", &one_file, run_least_level,
     "usage: gowashiru least-level [-o FILE] [CIRCUIT]\n\n"
     "Prints the least top level L at which the circuit has a schedule. The header's own L is only tested for its range.\n"
     "Its H, where it has one, holds at each level that is tried. The circuit fits at every higher level up to 60, too.\n"},
    {"quote", &one_file, run_quote,
     "usage: gowashiru quote [-o FILE] [CIRCUIT]\n\n"
     "Prints the lines, the bytes and the price of a circuit's schedule without writing it. Lines, the header's among them,\n"
     "and bytes are those that `gowashiru plan` prints. Refused as plan is.\n"
     "The price is the sum over the lines. For each level that its operand has before the line, a line costs:\n\n"
     "  mul of two ciphertexts 40, rot 32, rs 6, mul with a constant 4, us 4, enc 2, add 1, neg 1, ms 1\n\n"
     "An enc costs so for each level of its own E, and an rs or ms by C as much as C of them in a row, each a level lower.\n"
     "In, const and out cost nothing.\n"},
    {"from-rising", &one_file, run_from_rising,
     "usage: gowashiru from-rising [-o FILE] [LISTING]\n\n"
     "Prints the schedule of a listing in the rising-level dialect, where levels count up from 0 and `ds A` brings a\n"
     "ciphertext to scale W, one level on. Each `ds` becomes a `us` and an `rs`. The listing has to keep the rules.\n"},
    {"to-rising", &one_file, run_to_rising,
     "usage: gowashiru to-rising [-o FILE] [SCHEDULE]\n\n"
     "Prints a schedule that keeps the rules as a listing in the rising-level dialect. Nothing becomes a `ds`.\n"},
    {"picture", &one_file, run_picture,
     "usage: gowashiru picture [-o FILE] [SCHEDULE]\n\n"
     "Prints an SVG of a schedule that keeps the rules: the scale, the modulus and the reserve of each line, and where the\n"
     "header has an H what the reserve leaves above it.\n"},
    {"may-drop", &file_value_and_line, run_may_drop,
     "usage: gowashiru may-drop [-o FILE] SCHEDULE VALUE LINE\n\n"
     "Prints `yes` if the value may be dropped after the line: the line is not before the value's own, and no later line\n"
     "names the value. Else prints `no`; the exit status is 0 for both. The rules need not hold.\n"
     "VALUE and LINE count the lines after the header from 0, without leading zeros: value n stands in line n + 2 of the\n"
     "file. Refused with 4 where the schedule has no such value or line. The schedule may be -, standard input.\n"},
    {"live-after", &file_and_line, run_live_after,
     "usage: gowashiru live-after [-o FILE] SCHEDULE LINE\n\n"
     "Prints how many ciphertexts up to the line, the line's own among them, are named by a later line. A host that takes each\n"
     "input at its `in` line and drops each ciphertext as soon as it may holds so many after the line. The rules need not hold.\n"
     "LINE counts the lines after the header from 0, without leading zeros: value n stands in line n + 2 of the file.\n"
     "Refused with 4 where the schedule has no such line. The schedule may be -, standard input.\n"},
    {"live-peak", &one_file, run_live_peak,
     "usage: gowashiru live-peak [-o FILE] [SCHEDULE]\n\n"
     "Prints the largest number that `gowashiru live-after` prints for any line, 0 for a header alone. A host that takes\n"
     "each input at its `in` line and drops each ciphertext as soon as it may holds at most one more, while a line is being\n"
     "done. The rules need not hold.\n"},
    {"live", &one_file, run_live,
     "usage: gowashiru live [-o FILE] [SCHEDULE]\n\n"
     "Prints a line for each value in order, three numbers parted by tabs: the value; the last line that names it, or its own\n"
     "where none does, after which it may be dropped; and what `gowashiru live-after` prints for its own line. Lines are\n"
     "numbered as values, from 0. The rules need not hold.\n"},
};

static const char help[] =
    "usage: gowashiru COMMAND [-o FILE] [FILE]... [NUMBER]...\n\n"
    "Plans where the ciphertexts of an RNS-CKKS circuit are rescaled, modswitched and upscaled, checks such plans, and says\n"
    "when a ciphertext may be dropped.\n\n"
    "  plan [CIRCUIT]            print the schedule of a circuit\n"
    "  check CIRCUIT SCHEDULE    print `passed` if the schedule keeps the rules and erases to the circuit\n"
    "  erase [SCHEDULE]          print the circuit of a schedule\n"
    "  least-level [CIRCUIT]     print the least top level L at which the circuit has a schedule\n"
    "  quote [CIRCUIT]           print the lines, bytes and price of a circuit's schedule without writing it\n"
    "  from-rising [LISTING]     print the schedule of a listing in the rising-level dialect\n"
    "  to-rising [SCHEDULE]      print a schedule as a listing in the rising-level dialect\n"
    "  picture [SCHEDULE]        print an SVG of a schedule's scales and levels\n"
    "  may-drop SCHEDULE VALUE LINE\n"
    "                            print `yes` if the value may be dropped after the line, else `no`\n"
    "  live-after SCHEDULE LINE  print how many ciphertexts up to the line are named later\n"
    "  live-peak [SCHEDULE]      print the largest such number over the lines\n"
    "  live [SCHEDULE]           print each value with the last line that names it and the number after its own line\n\n"
    "  -o FILE       write the result to FILE, whole or not at all, and not to standard output\n"
    "  --help        print this, or after a command what it does\n"
    "  --version     print the version\n\n"
    "A file that is named - is standard input, and so is one in brackets that is not named.\n"
    "A refusal is told on standard error, with the file, the line and what to do.\n"
    "The first line of a file has the rescale factor F, the waterline W and the top level L, and a fourth number if you want\n"
    "headroom, H from 1 to 60: then numbers below 2^(H - 1) in absolute value stay below half of the modulus at every line.\n"
    "How the files are written stands in the manual page, gowashiru(1), and in docs/FORMAT.md.\n"
    "Exit status: 0 done; 1 refused; 2 wrong use, or a file that cannot be read or written.\n";

static enum status print(const char *text) {
    return write_result(NULL, text, strlen(text)) ? DONE : FAILED;
}

static enum status wrong_use(const char *what, const char *word) {
    fprintf(stderr, "gowashiru: %s%s\nTry `gowashiru --help`.\n", what, word);
    return FAILED;
}

static bool is_standard_input(const char *name) {
    return name != NULL && strcmp(name, "-") == 0;
}

static enum status run(const struct command *command, char **words) {
    struct arguments arguments;
    if (!read_arguments(&arguments, command->wanted, words)) {
        fprintf(stderr, "Try `gowashiru %s --help`.\n", command->name);
        return FAILED;
    }
    if (arguments.wants_help)
        return print(command->help);
    if (arguments.count < command->wanted->least + command->wanted->number_count) {
        fprintf(stderr, "gowashiru: %s needs %s\nTry `gowashiru %s --help`.\n", command->name, command->wanted->needs, command->name);
        return FAILED;
    }
    if (is_standard_input(arguments.names[0]) && is_standard_input(arguments.names[1])) {
        fprintf(stderr, "gowashiru: only one file can be standard input\nTry `gowashiru %s --help`.\n", command->name);
        return FAILED;
    }
    return command->run(&arguments);
}

int main(int count, char **words) {
    if (!hold_standard_files())
        return FAILED;
    if (count < 2)
        return wrong_use("which command?", "");
    if (strcmp(words[1], "--help") == 0 || strcmp(words[1], "-h") == 0)
        return print(help);
    if (strcmp(words[1], "--version") == 0)
        return print("gowashiru " GOWASHIRU_VERSION "\n");
    for (size_t i = 0; i < sizeof commands / sizeof commands[0]; i++)
        if (strcmp(words[1], commands[i].name) == 0)
            return run(&commands[i], words + 2);
    return wrong_use(words[1][0] == '-' ? "a command comes first, and then options: " : "no such command: ", words[1]);
}
