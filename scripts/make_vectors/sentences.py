"""What the published specifications say, in words of our own: a sentence for each rule that isn't this project's, by
the rule's name. A vector that is `must` names some of these."""
from .rules import PROTO, RULES, V1_SPEC, V2_SPEC

COLUMNS = "Column Encodings"
WORDS = {
    "zigzag": "a number n with a sign stands as 2n if it is 0 or more, else as -2n - 1",
    "varint": "seven bits a byte, the least first; the top bit says that a byte follows",
    "v1-run": "a control byte of 0 to 127 is the number of values less 3; a step of one byte with a sign and "
    "the first value, a varint, follow; a stream with signs has the first value as zigzag",
    "v1-literals": "a control byte of -1 to -128 is minus the number of values; as many varints follow, of a "
    "stream with signs as zigzag",
    "v1-choice": "a stream is runs and literals, one after the other",
    "byte-runs": "a control byte of 0 to 127 is the number of bytes less 3, and one byte follows; one of -1 to "
    "-128 is minus the number of bytes, and as many follow",
    "boolean-runs": "eight values a byte, the first the highest bit; the bytes are runs of bytes",
    "widths": "five bits name a width by the table",
    "v2-short-repeat": "3 bits for the bytes less 1, 3 for the number of values less 3, and the value, its high byte "
    "first; of a stream with signs as zigzag",
    "v2-direct": "5 bits for the width, 9 for the number of values less 1, and the values packed, the high bits "
    "first; of a stream with signs as zigzag",
    "v2-delta": "5 bits for the width, 9 for the number of values less 1, the first value as a varint, the first "
    "difference as a zigzag varint, and the sizes of the other differences packed, which have the "
    "first one's sign; the width 0 means that all differences are the first",
    "v2-patched": "width, number of values, the bytes of the base, the width of patches, the width of gaps, the "
    "number of entries; the base, whose highest bit is its sign; the values less the base, packed; "
    "entries of a gap and a patch, whose patch stands above the value's own bits",
    "v2-choice": "a stream is runs of any of the four forms, one after the other",
    "strings-direct": "DATA has the values' bytes one after the other, LENGTH the number of bytes of each value",
    "strings-dictionary": "DATA has for each value the number of its entry, DICTIONARY_DATA the entries' bytes, LENGTH the "
    "number of bytes of each entry, dictionarySize how many there are",
    "column-kinds": "the streams of each kind of column, and which integers have signs",
    "run-count": "DATA has one value for each value of the column that isn't null",
    "nulls": "PRESENT has a bit for each value, which is 0 if it is null; it may be left out if none is null; "
    "the other streams have nothing for a null",
    "cells": "the children of a struct have a value for each struct that isn't null; those of a list or a map "
    "one for each element",
    "lists": "LENGTH has the number of elements of each list",
    "maps": "LENGTH has the number of pairs of each map; keys and values are child columns",
    "structs": "a struct has no stream but PRESENT",
    "encodings": "the stripe's footer has an encoding for each column; DIRECT and DICTIONARY have integers of "
    "version 1, DIRECT_V2 and DICTIONARY_V2 of version 2",
    "stripe-parts": "a stripe is index streams, data streams and footer, of the lengths in the file's footer",
    "stripe-directory": "the footer lists the streams in the order in which they lie from the stripe's start, each with "
    "column, kind and length",
    "stripe-footer": "the footer is a message of streams and encodings",
    "types": "a type has a kind, and the numbers of its child types: one of a list, two of a map, and of a "
    "struct one for each field, with its name",
    "tail-lengths": "the file's last byte is the length of the postscript, which has the lengths of footer and "
    "metadata in front of it",
    "tail-postscript": "the postscript isn't compressed and has 255 bytes at most",
    "tail-magic": "the postscript's magic is `ORC`",
    "tail-footer": "the footer has the stripes, the types, the number of rows, the user's metadata and statistics",
    "tail-counts": "the footer has a record for each stripe, and the number of rows of the file",
    "statistics": "numberOfValues counts the values that aren't null; each kind of column has its record",
    "positions": "an entry has the positions of the column's streams in their order: the offset of a run and the "
    "values in it to pass; for booleans the bits of a byte too; for bytes the offset; none of a "
    "dictionary's own streams",
    "index-groups": "an entry for each rowIndexStride rows of the stripe, the last perhaps for fewer",
    "index-entries": "a row index is a message with an entry for each group, in order",
    "messages": "a message is fields in any order, each of a key and a payload whose form the key's wire type says: 0, 1, 2 or 5",
    "messages-unknown": "a parser passes over fields that it doesn't know",
    "messages-missing": "a field that isn't there has its default: 0, the first value of an enum, an empty text",
    "messages-last": "if a field that isn't repeated stands more than once, a parser takes the last value",
    "messages-lists": "parsers take a repeated number packed and not packed alike; parts stand in the order of the list",
}
# sections that name more than the rule's own
SECTIONS = {
    "v1-choice": V1_SPEC,
    "v2-choice": V2_SPEC,
    "messages": f"{PROTO}: Message Structure",
    "messages-missing": "Protocol Buffers language guide: Default Values",
    "messages-last": f"{PROTO}: Last One Wins",
    "cells": f"{COLUMNS}: Struct, List, and Map Columns",
}
SENTENCES = {name: (SECTIONS.get(name, RULES[name][1]), words) for name, words in WORDS.items()}
