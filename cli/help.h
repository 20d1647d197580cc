/* What --help prints. */
#ifndef HELP_H
#define HELP_H

#define HELP                                                                                       \
    "towhepamu: plans and slot tables for a battery sensor node\n"                                 \
    "\n"                                                                                           \
    "  towhepamu plan SITE [--plan FILE] [--table FILE]   print the listing of a site\n"           \
    "  towhepamu check SITE PLAN TABLE                    test a given plan and table\n"           \
    "  towhepamu check SITE FILE                          the same of a listing or a dump\n"       \
    "  towhepamu slots SITE PLAN TABLE                    test only which tasks the slots name\n"  \
    "  towhepamu compare SITE FILE                        compare a node with its plan\n"          \
    "  towhepamu sums SITE                                lay out the sums to add up by hand\n"    \
    "  towhepamu picture [--text] SITE                    draw the slot table\n"                   \
    "  towhepamu sleep SITE --energy E --time T [..]      what sleeping through gaps saves\n"      \
    "  towhepamu dispatch SITE --core C [..]              what a core runs, tick by tick\n"        \
    "  towhepamu quote SITE TASK LOW HIGH [..]            what open penalties can move\n"          \
    "  towhepamu hours CALENDAR [DATE [TIME]]             which plan is in force when\n"           \
    "\n"                                                                                           \
    "  towhepamu SUBCOMMAND --help, towhepamu --version\n"                                         \
    "\n"                                                                                           \
    "In place of a file that is read, - is standard input. Ends with 0 where all is well, 1 "      \
    "where\n"                                                                                      \
    "something is refused or differs, 2 where a file or the arguments cannot be used. What is\n"   \
    "wrong is told on standard error.\n"

#define HELP_PLAN                                                                                  \
    "towhepamu plan SITE [--plan FILE] [--table FILE]\n"                                           \
    "\n"                                                                                           \
    "Prints the listing of a site: the plan of least cost and its slot table. A refused site "     \
    "has\n"                                                                                        \
    "the listing 'refused', its number and its place; why is told on standard error.\n"            \
    "  --plan FILE    also write the plan as numbers, one a task: 0 where it is refused, else\n"   \
    "                 (core - 1) x levels + level\n"                                               \
    "  --table FILE   also write the table as numbers, one a slot: a task, or 0 for idle\n"        \
    "Ends with 0, 1 where the site is refused, 2 where a file cannot be used.\n"

#define HELP_CHECK                                                                                 \
    "towhepamu check SITE PLAN TABLE\n"                                                            \
    "towhepamu check SITE FILE\n"                                                                  \
    "\n"                                                                                           \
    "Tests whether a plan and a table serve every job of a site, wherever they come from.\n"       \
    "  PLAN    numbers, one a task: 0 where it is refused, else (core - 1) x levels + level;\n"    \
    "          or a listing, whose task lines are taken\n"                                         \
    "  TABLE   numbers, one a slot, core 1's first: a task, or 0 for idle; or a listing, whose\n"  \
    "          core lines are taken\n"                                                             \
    "  FILE    a listing; or a dump, the numbers of a plan and then those of a table\n"            \
    "Ends with 0 where plan and table pass, 1 where one is refused, 2 where a file cannot be\n"    \
    "used.\n"

#define HELP_SLOTS                                                                                 \
    "towhepamu slots SITE PLAN TABLE\n"                                                            \
    "towhepamu slots SITE FILE\n"                                                                  \
    "\n"                                                                                           \
    "Tests whether each slot of a table is idle or names a task that the plan keeps on that "      \
    "core.\n"                                                                                      \
    "How many slots a job has is not tested, so that half-drawn tables pass. PLAN, TABLE and "     \
    "FILE\n"                                                                                       \
    "are as for check. Ends with 0 where they pass, 1 where one is refused, 2 where a file "       \
    "cannot\n"                                                                                     \
    "be used.\n"

#define HELP_COMPARE                                                                               \
    "towhepamu compare SITE FILE\n"                                                                \
    "\n"                                                                                           \
    "Compares what a node runs with the plan of its site: prints 'same', or the first task, and\n" \
    "the first core and tick, in which they differ. Ticks are counted from 0.\n"                   \
    "  FILE    the node's listing; or its dump, the choices, one a task, and then the slots,\n"    \
    "          core 1's first, as numbers\n"                                                       \
    "Ends with 0 where they are the same, 1 where they differ or the site is refused, 2 where a\n" \
    "file cannot be used.\n"

#define HELP_SUMS                                                                                  \
    "towhepamu sums SITE\n"                                                                        \
    "\n"                                                                                           \
    "Lays out ticks, energy, penalty, loads, cost and rows of the plan of a site, to be added "    \
    "up\n"                                                                                         \
    "by hand. Ends with 0, 1 where the site is refused, 2 where a file cannot be used or the\n"    \
    "sums are not the planner's.\n"

#define HELP_PICTURE                                                                               \
    "towhepamu picture [--text] SITE\n"                                                            \
    "\n"                                                                                           \
    "Draws the slot table of a site: an SVG on standard output, a lane for each core.\n"           \
    "  --text   characters for a terminal, sixty ticks a line\n"                                   \
    "Ends with 0, 1 where the site is refused, 2 where a file cannot be used.\n"

#define HELP_SLEEP                                                                                 \
    "towhepamu sleep SITE --energy E --time T\n"                                                   \
    "towhepamu sleep SITE --energy E --time T PLAN TABLE\n"                                        \
    "towhepamu sleep SITE --energy E --time T FILE\n"                                              \
    "\n"                                                                                           \
    "Lays out the gaps of each core, in which it sleeps, its least idle energy and its sleeps: "   \
    "of\n"                                                                                         \
    "the site's own plan and table, or of given ones, as check takes them.\n"                      \
    "  --energy E   what switching a core off and on again draws, 0 to 1,000,000\n"                \
    "  --time T     how many ticks a gap must have at least, 0 to 4,096\n"                         \
    "Ends with 0, 1 where the site, E, T, plan or table is refused, 2 where a file cannot be "     \
    "used\n"                                                                                       \
    "or the sums are not the library's.\n"

#define HELP_DISPATCH                                                                              \
    "towhepamu dispatch SITE --core C [--ended FILE] [PLAN]\n"                                     \
    "\n"                                                                                           \
    "Prints what the dispatcher of a core answers, tick by tick from a fresh start, a line for\n"  \
    "each span: of the site's own plan, or of a given one, as check takes it. Without reports\n"   \
    "each line is the core's row.\n"                                                               \
    "  --core C       which core, from 1\n"                                                        \
    "  --ended FILE   numbers of calls, from 0, that report that the job which ran in the tick\n"  \
    "                 before has ended early; as many spans are printed as they reach\n"           \
    "  PLAN           numbers, one a task, or a listing\n"                                         \
    "Ends with 0, 1 where the site, the core, the plan or a report is refused, 2 where a file\n"   \
    "cannot be used or the library contradicts itself.\n"

#define HELP_QUOTE                                                                                 \
    "towhepamu quote SITE TASK LOW HIGH [TASK LOW HIGH ..]\n"                                      \
    "\n"                                                                                           \
    "Says, in sentences for a letter, what a site costs while penalties are not settled: with\n"   \
    "those of the named tasks all LOW and with all HIGH; that with any between, the cost is\n"     \
    "between these two; and how much each penalty moves it at most. What SITE says of these\n"     \
    "penalties does not count.\n"                                                                  \
    "  TASK        which task, from 1; one that may be refused, and each only once\n"              \
    "  LOW, HIGH   its least and its highest penalty of a job, 1 to 1,000,000\n"                   \
    "Ends with 0, 1 where the site is refused, 2 where a file or these words cannot be used or\n"  \
    "the costs are further apart than the penalties can move them.\n"

#define HELP_HOURS                                                                                 \
    "towhepamu hours CALENDAR [DATE [TIME]]\n"                                                     \
    "\n"                                                                                           \
    "Prints which plan of a store's calendar is in force, and the days to the next entry: on a\n"  \
    "date at a time; without a time the whole day, from which minute to which; without a date\n"   \
    "every entry, with its weekday. An entry rules from its date until the day before the next.\n" \
    "Its plan is in force from the opening minute up to, but without, the closing one; "           \
    "otherwise,\n"                                                                                 \
    "and before the first entry, plan 0. Minutes and times are the site's local time.\n"           \
    "  CALENDAR   numbers: the count of entries, 0 to 200; for each its year, 2000 to 2099,\n"     \
    "             month, day, opening minute, closing minute, up to 1,440, and plan, 1 to 255\n"   \
    "  DATE       as 2024-02-28\n"                                                                 \
    "  TIME       as 08:00, up to 23:59\n"                                                         \
    "Ends with 0, 1 where the calendar is refused or there is no such date or time, 2 where a\n"   \
    "file or these words cannot be used or the library contradicts the entries.\n"

#endif
