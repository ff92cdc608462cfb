/*
 * flux_floor: checks and shows a floor, a tree of brokers with their services, and plays the walk
 * of a message over it, step by step. The steps are those of the library that the brokers call.
 */
#include <stddef.h>

#include "floor_commands.h"
#include "program.h"

const char program[] = "flux_floor";

const char usage[] =
    "flux_floor: checks and shows a floor of brokers, and plays walks over it\n"
    "\n"
    "  flux_floor check FLOOR      say whether the floor is valid, and if not, why\n"
    "  flux_floor show FLOOR       draw the tree, with identities and services\n"
    "  flux_floor walk --enter RANK [-o FILE] FLOOR (FRAME | OPTIONS)\n"
    "                              play a message that enters at RANK\n"
    "  flux_floor home --from RANK [-o FILE] FLOOR (FRAME | OPTIONS)\n"
    "                              play a response on its way home from RANK\n"
    "  flux_floor trip --enter RANK [-o FILE] FLOOR (FRAME | OPTIONS) [ANSWER]\n"
    "                              play a request, and its reply or answer back home\n"
    "  flux_floor audit [--enter RANK] [--json | --quiet] FLOOR CAPTURE\n"
    "                              judge the replies of a capture: status 4 with any\n"
    "                              finding\n"
    "  flux_floor --help           show this text\n"
    "  flux_floor --version        show the version\n"
    "\n"
    "FLOOR is a text file; - is standard input. A line for each rank, in any order:\n"
    "  RANK PARENT IDENTITY [SERVICE...]\n"
    "PARENT is a rank, or 'none' for rank 0; IDENTITY a UUID in lower case; a SERVICE\n"
    "has no period and no space. A word that begins with # begins a comment.\n"
    "\n"
    "FRAME is a file with one framed message; - is standard input. From a capture of\n"
    "several, flux_frame dump --frame N --frame-out FILE cuts one out. OPTIONS describe\n"
    "one in its place, as for flux_frame write (see flux_frame --help): --topic TEXT,\n"
    "--nodeid N, --matchtag N, --upstream, --noresponse, --route UUID and so on. The\n"
    "type is request for walk and trip and response for home, where --type gives no\n"
    "other. With --upstream the nodeid names the rank that is skipped, and no target.\n"
    "\n"
    "ANSWER is what the service answers to a request that is delivered:\n"
    "  --answer FILE          a framed response; or one for the request at rest, by\n"
    "  --answer-errnum N      its errnum (0),\n"
    "  --answer-payload FILE  its payload, from a file,\n"
    "  --answer-text TEXT     or its payload as given here\n"
    "\n"
    "The result comes first, in one line. In place of the text:\n"
    "  --json               one JSON object on one line; see the man page\n"
    "  --quiet              nothing: the exit status alone\n"
    "  --dot                a graph for Graphviz; not for check\n"
    "Of walk, home and trip:\n"
    "  --tree               draw the tree, also of more than 64 ranks\n"
    "  -o FILE              write the frame that is at rest to FILE; of trip, the one\n"
    "                       that is home; FILE gets all of its bytes or stays as it was;\n"
    "                       it is no terminal, not what is read, and\n"
    "                       not where standard output goes\n"
    "\n"
    "A walk is played by the step call, and compared with the walk call.\n";

const struct command commands[] = {{"check", command_check},
                                   {"show", command_show},
                                   {"walk", command_walk},
                                   {"home", command_home},
                                   {"trip", command_trip},
                                   {"audit", command_audit},
                                   {NULL, NULL}};
