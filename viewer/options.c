#include "options.h"

#include <getopt.h>

#include "input.h"

void write_help(const writer *w)
{
    fputs("usage: vogieburn-view [OPTION]... [DRAFT]\n"
          "Shows a draft, a Shastina text, as a weaver thinks of it, or where and why it is refused.\n"
          "Without DRAFT, or where it is -, the draft is read from standard input.\n"
          "\n"
          "  -t, --table=TABLE  check the draft against a table of operations; see vogieburn-table(5)\n"
          "      --list         list the entities: place, kind, text length, data length, count\n"
          "      --remarks      tell also whether only whitespace follows the |;\n"
          "      --json         tell everything as one JSON object\n"
          "  -h, --help         show this and leave\n"
          "  -V, --version      show the version and leave\n"
          "\n"
          "The exit status is 0 for a draft that is sound, or without a table read to its end; 1 for one that is\n"
          "refused; and 2 where a file could not be read, a table is faulty or the options are.\n",
          w->to);
}

/* Says what is wrong with the options. */
static bool bad_use(const writer *w, const char *what, const char *word)
{
    write_words(w, "vogieburn-view: ");
    write_words(w, what);
    write_words(w, word);
    fputs("\ntry 'vogieburn-view --help'\n", w->to);
    return false;
}

/* The options that have no letter. */
enum { WITH_TABLE = 256, WITH_LIST, WITH_REMARKS, WITH_JSON, WITH_HELP, WITH_VERSION };

/* A listing and an object exclude each other. */
static bool ask(options *o, enum request request)
{
    const bool was_other = o->request != SHOW && o->request != request;

    o->request = request;
    return !was_other;
}

/* A letter is told by itself, since others may stand around it in its word. */
static bool bad_option(const writer *w, char **argv)
{
    const char letter[] = {'-', (char)optopt, '\0'};

    return bad_use(w, "no such option, or not to be used so: ", optopt > 0 && optopt < WITH_TABLE ? letter : argv[optind - 1]);
}

static bool take_option(const writer *w, int option, char **argv, options *o)
{
    static const char only_one[] = "of --list and --json only one is possible";

    switch (option) {
    case 't':
    case WITH_TABLE: o->table = optarg; return true;
    case WITH_REMARKS: o->remarks = true; return true;
    case WITH_LIST: return ask(o, LIST) || bad_use(w, only_one, "");
    case WITH_JSON: return ask(o, JSON) || bad_use(w, only_one, "");
    case 'h':
    case WITH_HELP: o->request = HELP; return true;
    case 'V':
    case WITH_VERSION: o->request = VERSION; return true;
    case ':': return bad_use(w, "a table is wanted behind ", argv[optind - 1]);
    default: return bad_option(w, argv);
    }
}

/* What stands behind the options. */
static bool take_draft(const writer *w, int argc, char **argv, options *o)
{
    if (argc - optind > 1)
        return bad_use(w, "one draft at a time: ", argv[optind + 1]);
    if (optind < argc)
        o->draft = argv[optind];
    if (o->request == LIST && o->remarks)
        return bad_use(w, "of --list and --remarks only one is possible", "");
    if (o->table != NULL && is_standard_input(o->table) && is_standard_input(o->draft))
        return bad_use(w, "the draft and the table cannot both be standard input", "");
    return true;
}

bool options_parse(const writer *w, int argc, char **argv, options *o)
{
    static const struct option known[] = {
        {"table", required_argument, NULL, WITH_TABLE}, {"list", no_argument, NULL, WITH_LIST},
        {"remarks", no_argument, NULL, WITH_REMARKS},   {"json", no_argument, NULL, WITH_JSON},
        {"help", no_argument, NULL, WITH_HELP},         {"version", no_argument, NULL, WITH_VERSION},
        {NULL, 0, NULL, 0}};
    int option;

    *o = (options){.draft = "-", .request = SHOW};
    opterr = 0;
    while (o->request < HELP && (option = getopt_long(argc, argv, ":t:hV", known, NULL)) != -1)
        if (!take_option(w, option, argv, o))
            return false;
    return o->request >= HELP || take_draft(w, argc, argv, o);
}
