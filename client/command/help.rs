//! What `vecq help` says.

pub const ALL: &str = "\
vecq: an index of vectors in a file, and ranked lists of those that a query resembles

    vecq new FILE --dim N            makes FILE, an index of vectors of N entries
    vecq add FILE VECTORS --year Y   adds vectors, all or none
    vecq relabel FILE OLD NEW        gives the slots of one key to another
    vecq remove FILE KEY --present Y       removes the slots of a key, or one of them
    vecq edit FILE <SCRIPT           makes many changes and saves once
    vecq find FILE QUERIES           lists what each query resembles
    vecq file FILE QUERIES -k N -o LIST    files the list that two houses compare
    vecq same LIST OTHER             whether two lists are the same
    vecq score FILE QUERIES --slot N       scores one slot
    vecq keys FILE [KEY..]           the slots of each key
    vecq info FILE                   what FILE holds
    vecq check FILE                  whether FILE is sound
    vecq help [COMMAND]              this, or all on a command
    vecq version                     versions of the command and the library

A score approximates the cosine of the angle between query and stored vector, both as they were given: 1 for the same direction, 0 for none in common.
Length plays no part. A trait with large numbers outweighs one with small numbers, so traits of different scales are to be standardised first.

VECTORS and QUERIES are NAME.fvecs (for each vector the count of its entries and the entries, 32 bits each, little-endian; keys, one a line, in NAME.keys)
or text: a vector a line, entries parted by blanks, tabs, commas or semicolons. With --keyed or --multi the first field is the key, - for none.
# begins a comment, --header skips the first line, - is standard input. A key is a number from 0 to 18446744073709551615.

Each slot has a retention year: 0 keeps it for good, which can never be taken back; 1 is no duty; any other is the first year in which it may go. A command
that would remove or overwrite a slot that is to be kept is refused (21) and changes nothing. The present year is what --present says: no clock is asked, so
the same words do the same on every machine. A year is a number from 0 to 65535.

Data goes to standard output, all else to standard error. Status: 0 done or yes, 1 no or differs, 2 wrong words or unreadable input, 3 refused by the
library (with the number of the refusal), 4 the system failed. A command that isn't done leaves FILE as it was.

Example, the games that a new one resembles:
    vecq new games.vecq --dim 4
    vecq add games.vecq games.csv --year 2036 --keyed --present 2026
    vecq find games.vecq new.csv -k 3
";

pub const NEW: &str = "\
vecq new FILE --dim N [--working N] [--seed N] [--bits 4|5|6 | --residual]

Makes FILE, an empty index of vectors of --dim entries, 1 to 4096. A FILE that is there already is never overwritten.
    --dim N        entries of a vector
    --working N    only the first N entries are stored and searched
    --seed N       the seed of the rotation, 1 without it; files of different seeds list differently
    --bits N       bits an entry, 4, 5 or 6; 5 without it. More bits, better scores, longer files
    --residual     4 bits, and 4 more for what they leave

Example:
    vecq new games.vecq --dim 64 --bits 6
";

pub const INFO: &str = "\
vecq info FILE [--slots]

Prints a line `name<tab>value` each for: version, dim, working_dim, seed, bits, residual, slots, keyed (slots with a key), keys (different ones), bytes,
sha256 (as sha256sum tells it). The version that a file is written as is 259 at 4 bits, 260 if residual, 261 at 5 and 6 bits; 262, 263, 264 where a slot has
another year than 1.
    --slots    then an empty line, a line of names, and for each slot: slot, key or -, scale as a half in hexadecimal, retention year (1 in a file that has
               none), parted by tabs

Example:
    vecq info games.vecq --slots
";

pub const CHECK: &str = "\
vecq check FILE

Reads FILE and says nothing if it is sound; else why it is refused.

Example:
    vecq check games.vecq && echo sound
";

pub const FIND: &str = "\
vecq find FILE QUERIES [-k N] [--by slot|key] [--cascade R] [--format tsv|json] [-o LIST] [--header] [--keyed]

Lists for each query what it resembles, the best first. A score approximates the cosine of the angle between the vectors as they were given; traits of
different scales are to be standardised first.
    -k N           hits a query, 10 without it
    --by key       keys of the N best slots, each once with its best score; slots without a key are left out, so a list may be shorter
    --cascade R    scores only the R slots whose codes are nearest: faster, and may miss a hit. Needs 4 bits
    --format json  one JSON object in the place of lines
    -o LIST        the file that the lists go to; it is there whole or not at all
    --keyed        the first field of a query is its key, which is told with its list
    --header       skips the first line of QUERIES

A line of a list: rank, slot, key or -, score as its 32 bits in hexadecimal, score as the shortest decimal, parted by tabs. Before them come comments:
the hash of FILE, and for each query its own hash and what was asked.

Example:
    vecq find games.vecq new.csv -k 3 --by key
";

pub const FILE: &str = "\
vecq file FILE QUERIES -k N -o LIST [--header] [--keyed]

Writes the list that two houses compare: all slots are scored, and the list is by slot, as `vecq find FILE QUERIES -k N` prints it. LIST is there whole or
not at all. No path and no time is in it: the same bytes and queries give the same list.

A list is filed from a read index only. An index in memory has scales of 32 bits, a file halves of 16 bits, so a house that listed from the index it just
built could list otherwise than the house that reads its file. This command reads FILE, so it is the same for both; lists of programs over the library
are to be made from an index that was read, too.

Example:
    vecq file games.vecq new.csv -k 10 -o new.list
";

pub const SCORE: &str = "\
vecq score FILE QUERIES --slot N [--header] [--keyed]

Scores one slot: for each query a line with its number from 1, the score as its 32 bits in hexadecimal, and the score as the shortest decimal. A score
approximates the cosine of the angle between the vectors as they were given; traits of different scales are to be standardised first.

Example:
    vecq score games.vecq new.csv --slot 0
";

pub const KEYS: &str = "\
vecq keys FILE [KEY..]

Prints for each KEY, or without one for all keys in rising order, a line with the key and its slots. A KEY without a slot: -, and status 1 at the end.

Example:
    vecq keys games.vecq 1001 1002
";

pub const ADD: &str = "\
vecq add FILE VECTORS --year Y [--keyed --present Y | --multi] [--header]

Adds all vectors of VECTORS, or none if one can't be added. Prints the counts of added rows, live slots and bytes.
    --year Y       the retention year of the slots: the first year in which they may be removed or overwritten. 1: no duty, at any time. 0: never; nothing
                   takes a 0 back. It has no default
    --keyed        the first field is a key, - for none. A key that has slots already: its first one is overwritten and gets the year of --year, unless it is
                   to be kept still
    --present Y    with --keyed, the present year, by which a slot may be overwritten or not. It has no default: no clock is asked
    --multi        the first field is a key, - for none. A key that has slots already gets one more
    --header       skips the first line of VECTORS

Example, with lines such as 1001,0.5,1.25,-3,0, which are to be kept for ten years from 2026:
    vecq add games.vecq games.csv --year 2036 --keyed --present 2026
";

pub const RELABEL: &str = "\
vecq relabel FILE OLD NEW

Gives all slots of key OLD to key NEW, whatever their years, which stay. The answer is no, status 1, where OLD has no slot, or NEW is another key and has one.

Example:
    vecq relabel games.vecq 1001 2001
";

pub const REMOVE: &str = "\
vecq remove FILE KEY --present Y [--slot N]

Removes all slots of the key, or the one that is named. Prints the counts of removed slots, live slots and bytes. A file has live slots only, numbered from
0, so slots after a removed one have other numbers afterwards; standard error says so. The answer is no, status 1, where the key has no such slot.
    --present Y    the present year: a slot may go whose retention year is 1, or above 1 and not past Y. Where one of the slots is to be kept, none is removed
                   (refused 21); `vecq info FILE --slots` shows their years. It has no default: no clock is asked
    --slot N       this slot of the key alone

Example:
    vecq remove games.vecq 1001 --present 2036
";

pub const EDIT: &str = "\
vecq edit FILE <SCRIPT

Makes the changes of a script, a line each, and saves once at the end. The first line that isn't done ends it, and nothing is saved. Lines:
    add VECTORS --year Y [--keyed --present Y | --multi] [--header]
    relabel OLD NEW
    remove KEY --present Y [--slot N]
Empty lines and those that begin with # say nothing. Words are parted by blanks, so a path in a script has none. Slots are numbered anew after each removal,
as if each line were a command of its own; the file is the same then, to the byte. Prints the counts of lines, live slots and bytes.

Example:
    printf 'remove 1001 --present 2036\\nadd more.csv --year 2046 --keyed --present 2036\\n' | vecq edit games.vecq
";

pub const SAME: &str = "\
vecq same LIST OTHER

Says nothing if two lists are the same, line by line; else prints the first line that differs, with its number, and the status is 1.

Example:
    vecq same ours.list theirs.list && echo same
";

pub const HELP: &str = "\
vecq help [COMMAND]

Prints what there is, or all on a command, as `vecq COMMAND --help` does.

Example:
    vecq help find
";

pub const VERSION: &str = "\
vecq version

Prints the version of the command, and the number of the calls that it shares with the library.

Example:
    vecq version
";
