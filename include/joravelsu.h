/* Module graphs and import sites of JavaScript and TypeScript. Link with -ljoravelsu.
 *
 * Each call works on its arguments alone: it keeps no state, never ends the process, and may be called from several
 * threads at a time, on buffers and handles that no other call has at that time. It takes memory by malloc and frees all of it
 * before it returns, but for what the handle of a graph keeps. It may not be called from a signal handler.
 *
 * Buffers are the caller's. No pointer is NULL, also where its length is 0 (any address will do then); a buffer and an out
 * parameter share no byte with another argument. All lengths and places count bytes, from 0.
 */
#ifndef JORAVELSU_H
#define JORAVELSU_H

#include <stdbool.h>
#include <stddef.h>
#include <stdint.h>

#ifdef __cplusplus
extern "C" {
#endif

/* How a call ended. */
enum {
    JORAVELSU_DONE = 0,            /* the report, the sites, the calls, the text or the names were written */
    JORAVELSU_TOO_MANY_MODULES = 1,/* build: more is reached than the bundle allows; a line that says so was written */
    JORAVELSU_BAD_BUNDLE = 2,      /* build: over 16 MiB, no JSON, or no bundle; a line that says which was written */
    JORAVELSU_NO_ROOM = 4,         /* a buffer is too small: nothing was written, and the call answers what is needed */
    JORAVELSU_NO_MEMORY = 5,       /* out of memory: nothing was written */
    JORAVELSU_TOO_LONG = 6,        /* sites, unread, mentions, rewrite, exports: the text is over 16 MiB */
    JORAVELSU_NO_UTF8 = 7,         /* sites, unread, mentions, rewrite, exports: the text is no UTF-8; the answer says from which byte on,
                                      counted from the first, that of a byte order mark too */
    JORAVELSU_NO_MEDIA_TYPE = 8,   /* sites, mentions, rewrite, exports: no media type has this number */
    JORAVELSU_NOT_READ = 9,        /* sites, mentions, rewrite, exports: modules of this media type are no sources */
    JORAVELSU_LEXICAL_FAULT = 10,  /* sites, unread, mentions, rewrite, exports: a part of the text is no token; the answer says which
                                      fault, and where */
    JORAVELSU_SYNTAX_FAULT = 11,   /* sites, mentions, rewrite, exports: the tokens are no program of the grammar; the answer says where
                                      that was noticed (the one place that no proof covers) */
    JORAVELSU_NO_VALUE = 12,       /* rewrite: a change's specifier isn't in the buffer of values, or is no UTF-8 */
    JORAVELSU_NO_SITE = 13,        /* rewrite: no site has the number of a change */
    JORAVELSU_NO_LITERAL = 14,     /* rewrite: the site of a change stands in a comment */
    JORAVELSU_NO_ORDER = 15,       /* rewrite: the number of a change isn't above that of the change before it; for these
                                      four the answer says which change, and nothing was written */
    JORAVELSU_NOT_YET = 16,        /* graph: some requests have no answer yet, so there is no graph yet */
    JORAVELSU_ENDED = 17,          /* graph: an earlier poll ended without a graph */
    JORAVELSU_NO_GRAPH = 18,       /* graph: the handle has none: it is zeroed, or was freed */
    JORAVELSU_NONE_WANTED = 19,    /* graph: each request from that number on is answered */
    JORAVELSU_NOT_ASKED = 20,      /* graph: no request has this number */
    JORAVELSU_ANSWERED = 21,       /* graph: the request was answered before; the first answer counts */
    JORAVELSU_NO_ANSWER = 22,      /* graph: no kind of answer has this number */
    JORAVELSU_NO_URL = 23,         /* graph: a redirect's target is no URL */
    JORAVELSU_NO_ENTRY = 24,       /* graph: no entry has this number */
    JORAVELSU_NO_TEXT = 25,        /* graph: the entry is no module of text, or no character begins at the place */
    JORAVELSU_HAS_GRAPH = 26       /* graph: the handle has a graph; it keeps it */
};

/* Where there is no number. */
#define JORAVELSU_NONE SIZE_MAX

/* Media types. Sources are all but JSON and WebAssembly. */
enum {
    JORAVELSU_DTS = 0,
    JORAVELSU_DMTS = 1,
    JORAVELSU_DCTS = 2,
    JORAVELSU_TYPESCRIPT = 3,
    JORAVELSU_MTS = 4,
    JORAVELSU_CTS = 5,
    JORAVELSU_TSX = 6,
    JORAVELSU_JAVASCRIPT = 7,
    JORAVELSU_MJS = 8,
    JORAVELSU_CJS = 9,
    JORAVELSU_JSX = 10,
    JORAVELSU_JSON = 11,
    JORAVELSU_WASM = 12,
    /* of no module; a graph's entries name them */
    JORAVELSU_JSONC = 13,
    JORAVELSU_JSON5 = 14,
    JORAVELSU_CSS = 15,
    JORAVELSU_HTML = 16,
    JORAVELSU_MARKDOWN = 17,
    JORAVELSU_SQL = 18,
    JORAVELSU_SOURCE_MAP = 19,
    JORAVELSU_UNKNOWN_TYPE = 20,
    JORAVELSU_NO_TYPE = 21       /* there is none to name */
};

/* How a site names the other module. */
enum {
    JORAVELSU_IMPORT = 0,        /* import .. from "a", or import "a" */
    JORAVELSU_EXPORT = 1,        /* export .. from "a" */
    JORAVELSU_IMPORT_EQUALS = 2, /* import a = require("a") */
    JORAVELSU_DYNAMIC = 3,       /* import("a") */
    JORAVELSU_REFERENCE_PATH = 4,/* the comment /// <reference path="a" />, in TypeScript */
    JORAVELSU_REFERENCE_TYPES = 5,/* the comment /// <reference types="a" />, in TypeScript */
    JORAVELSU_WASM_IMPORT = 6,   /* an import of a WebAssembly module: of a graph's edges alone */
    /* 7 is a kind of edge that is in no module */
    JORAVELSU_IMPORT_SOURCE = 8, /* import source a from "a" */
    JORAVELSU_IMPORT_DEFER = 9,  /* import defer * as a from "a" */
    JORAVELSU_DYNAMIC_SOURCE = 10,/* import.source("a") */
    JORAVELSU_DYNAMIC_DEFER = 11, /* import.defer("a") */
    JORAVELSU_REQUIRE = 12,       /* require("a"); this kind and those below only where they are asked for */
    JORAVELSU_REQUIRE_RESOLVE = 13,/* require.resolve("a") */
    JORAVELSU_TYPE_IMPORT = 14,   /* the type import("a") */
    JORAVELSU_WORKER = 15,        /* new Worker(new URL("a", import.meta.url)) */
    JORAVELSU_ADDRESS = 16        /* new URL("a", import.meta.url), or import.meta.resolve("a") */
};

/* Whether a site has an import attribute `type`, such as import a from "a" with { type: "json" }. */
enum {
    JORAVELSU_NO_ATTRIBUTE = 0,
    JORAVELSU_UNKNOWN_ATTRIBUTE = 1, /* the text doesn't say: so for import-equals and comments, and for import() whose
                                        options aren't written out */
    JORAVELSU_ATTRIBUTE = 2          /* it has, and the record says which */
};

/* A call that may load a module and is no site. */
enum {
    JORAVELSU_IMPORT_CALL = 0,  /* import(..), import.source(..) or import.defer(..), whose first argument is no string literal */
    JORAVELSU_REQUIRE_CALL = 1  /* require(..) */
};

/* Lexical faults. */
enum {
    JORAVELSU_UNTERMINATED_STRING = 1,
    JORAVELSU_UNTERMINATED_COMMENT = 2,
    JORAVELSU_UNTERMINATED_TEMPLATE = 3,
    JORAVELSU_UNTERMINATED_REGEXP = 4,
    JORAVELSU_INVALID_ESCAPE = 5,
    JORAVELSU_INVALID_CHAR = 6,
    JORAVELSU_UNBALANCED = 7
};

/* A place where a source names another module. An end is the place after the last byte. */
typedef struct joravelsu_site {
    uint32_t kind;      /* JORAVELSU_IMPORT or another of its list */
    bool type_only;     /* by `type`, or as a comment, so that nothing is loaded when the program runs */
    size_t start;       /* the string literal in the text, or the value in the comment, with its quotes */
    size_t end;
    size_t value_start; /* its value, in the buffer for values: UTF-8, not ended by a 0 */
    size_t value_end;
    uint32_t attribute; /* JORAVELSU_NO_ATTRIBUTE or another of its list */
    size_t attribute_start; /* the attribute's text, in the buffer for values; nothing but at JORAVELSU_ATTRIBUTE */
    size_t attribute_end;
} joravelsu_site;

/* What joravelsu_sites answers beside its buffers. */
typedef struct joravelsu_answer {
    size_t sites;       /* how many sites the text has: what the buffer for sites must hold */
    size_t value_bytes; /* how many bytes their values and attributes have: what the buffer for values must hold */
    uint32_t fault;     /* the lexical fault at JORAVELSU_LEXICAL_FAULT, else 0 */
    size_t place;       /* where the fault is, else 0 */
} joravelsu_answer;

/* A call that may load a module and is no site: its bytes in the text, from the word through the closing bracket. */
typedef struct joravelsu_call {
    uint32_t kind;      /* JORAVELSU_IMPORT_CALL or another of its list */
    size_t start;
    size_t end;
} joravelsu_call;

/* What joravelsu_unread answers beside its buffer. */
typedef struct joravelsu_unread_answer {
    size_t calls;       /* how many calls the text has: what the buffer must hold */
    uint32_t fault;     /* the lexical fault at JORAVELSU_LEXICAL_FAULT, else 0 */
    size_t place;       /* where the fault is, else 0 */
} joravelsu_unread_answer;

/* Why something is mentioned. */
enum {
    JORAVELSU_MENTION_NAME = 0,   /* a name that no scope of the text declares and that isn't allowed */
    JORAVELSU_MENTION_IMPORT = 1, /* import(..), in any phase, whose first argument is no string literal alone */
    JORAVELSU_MENTION_META = 2,   /* import.meta, but not in new URL("a", import.meta.url) */
    JORAVELSU_MENTION_WITH = 3,   /* the word with */
    JORAVELSU_MENTION_MEMBER = 4, /* strict: a member or a key of a pattern: constructor, __proto__, __defineGetter__, or with an escape */
    JORAVELSU_MENTION_KEY = 5,    /* strict: a computed member or key of a pattern that is no literal */
    JORAVELSU_MENTION_THIS = 6    /* strict: this, in a script */
};

/* Something that a text mentions and a graph doesn't show: its bytes in the text. */
typedef struct joravelsu_mention {
    uint32_t reason;    /* JORAVELSU_MENTION_NAME or another of its list */
    size_t start;
    size_t end;
} joravelsu_mention;

/* What joravelsu_mentions answers beside its buffer. */
typedef struct joravelsu_mentions_answer {
    size_t mentions;    /* how many there are: what the buffer must hold */
    uint32_t fault;     /* the lexical fault at JORAVELSU_LEXICAL_FAULT, else 0 */
    size_t place;       /* where the fault is, else 0 */
} joravelsu_mentions_answer;

/* What couldn't be determined for declarations. */
enum {
    JORAVELSU_NO_INFERRED_TYPE = 0, /* an element of an array is any; a pattern has no type; an exported using is dropped */
    JORAVELSU_ANY_TYPE = 1,         /* a variable, a parameter or the value of a property is any */
    JORAVELSU_DROPPED_PROPERTY = 2, /* a property of an object is dropped */
    JORAVELSU_UNTYPED_SPREAD = 3,   /* a spread in an object is dropped; an array with this one has no type */
    JORAVELSU_DROPPED_USING = 4     /* an exported using is dropped */
};

/* What couldn't be determined: its bytes in the text. */
typedef struct joravelsu_diagnostic {
    uint32_t kind;      /* JORAVELSU_NO_INFERRED_TYPE or another of its list */
    size_t start;
    size_t end;
} joravelsu_diagnostic;

/* What joravelsu_declarations answers beside its buffers. */
typedef struct joravelsu_declarations_answer {
    size_t diagnostics; /* how many there are: what the buffer for diagnostics must hold */
    size_t text_bytes;  /* how many bytes the declarations have: what the other buffer must hold */
    uint32_t fault;     /* the lexical fault at JORAVELSU_LEXICAL_FAULT, else 0 */
    size_t place;       /* where the fault is, else 0 */
} joravelsu_declarations_answer;

/* A new specifier for a site. */
typedef struct joravelsu_change {
    size_t site;        /* its number, from 0, in the order of joravelsu_sites */
    size_t value_start; /* the specifier, in the buffer of values: UTF-8, not ended by a 0 */
    size_t value_end;
} joravelsu_change;

/* What joravelsu_rewrite answers beside its buffer. */
typedef struct joravelsu_rewrite_answer {
    size_t needed;      /* how many bytes the new text has: what the buffer must hold */
    size_t change;      /* at JORAVELSU_NO_VALUE, _NO_SITE, _NO_LITERAL and _NO_ORDER which change, from 0; else 0 */
    uint32_t fault;     /* the lexical fault at JORAVELSU_LEXICAL_FAULT, else 0 */
    size_t place;       /* where the fault is, else 0 */
} joravelsu_rewrite_answer;

/* A name that a source exports, or a module whose names it re-exports: where its text is in the buffer for values, in
 * UTF-8, not ended by a 0. */
typedef struct joravelsu_name {
    size_t start;
    size_t end;
} joravelsu_name;

/* What joravelsu_exports answers beside its buffers. */
typedef struct joravelsu_exports_answer {
    size_t exports;     /* how many names the text exports: the first records */
    size_t reexports;   /* how many modules' names it re-exports: the records after these. The buffer for names must hold both */
    size_t value_bytes; /* how many bytes all of these have: what the buffer for values must hold */
    uint32_t fault;     /* the lexical fault at JORAVELSU_LEXICAL_FAULT, else 0 */
    size_t place;       /* where the fault is, else 0 */
} joravelsu_exports_answer;

/* A graph whose loads the caller does: a handle. A zeroed one, JORAVELSU_GRAPH_INIT, has no graph. It may be moved by
 * assignment; two copies may not both be used. No call that uses it runs at the same time as another one; several threads may
 * take turns, ordered by a lock or a join, and two handles know nothing of each other. */
typedef struct joravelsu_graph {
    bool live;  /* don't touch */
    void *at;
} joravelsu_graph;
#define JORAVELSU_GRAPH_INIT { false, NULL }

/* Kinds of answers. */
enum {
    JORAVELSU_CONTENT = 0,  /* the bytes are the module's */
    JORAVELSU_REDIRECT = 1, /* the bytes are the URL at which the module is, in UTF-8 */
    JORAVELSU_EXTERNAL = 2, /* the module isn't part of the graph's sources */
    JORAVELSU_ABSENT = 3,   /* there is no such module */
    JORAVELSU_FAILED = 4    /* the loader couldn't say */
};

/* What joravelsu_graph_wanted answers beside its buffer. */
typedef struct joravelsu_wanted {
    size_t number;      /* that of the request; JORAVELSU_NONE where there is none */
    size_t needed;      /* how many bytes its specifier has */
} joravelsu_wanted;

/* What an entry of a graph is. */
enum {
    JORAVELSU_MODULE = 0,
    JORAVELSU_REDIRECTED = 1,
    JORAVELSU_PACKAGE = 2,
    JORAVELSU_EXTERNAL_ENTRY = 3,
    JORAVELSU_ERROR = 4
};

/* Why an entry is no module. */
enum {
    JORAVELSU_MISSING = 1,
    JORAVELSU_LOADING = 2,
    JORAVELSU_TOO_MANY_REDIRECTS = 3,
    JORAVELSU_UNSUPPORTED_MEDIA_TYPE = 4,
    JORAVELSU_DECODE = 5,
    JORAVELSU_PARSE = 6,
    JORAVELSU_WASM_PARSE = 7,
    JORAVELSU_DATA_URL = 8,
    JORAVELSU_PACKAGE_REFERENCE = 9
};

/* Why an edge has no target. */
enum {
    JORAVELSU_IMPORT_PREFIX_MISSING = 1,
    JORAVELSU_INVALID_URL = 2,
    JORAVELSU_INVALID_DOWNGRADE = 3,
    JORAVELSU_INVALID_LOCAL_IMPORT = 4,
    JORAVELSU_INVALID_TYPE_ASSERTION = 5,
    JORAVELSU_INVALID_SOURCE_PHASE = 6,
    JORAVELSU_REFUSED = 7   /* by the import map */
};

/* An entry of a graph. Its texts stand in the buffer for texts: first its specifier, then where it redirects to, then those of
 * its edges. */
typedef struct joravelsu_entry {
    uint32_t state;         /* JORAVELSU_MODULE or another of its list */
    uint32_t media_type;    /* of a module, or of what is refused for it; else JORAVELSU_NO_TYPE */
    uint32_t fault;         /* at JORAVELSU_ERROR why; else 0 */
    size_t place;           /* at JORAVELSU_PARSE the byte of the text where the fault is; else 0 */
    size_t size;            /* how many bytes a module has, without a byte order mark */
    size_t specifier_end;
    size_t target_end;      /* where it redirects to, or at JORAVELSU_TOO_MANY_REDIRECTS to where first */
    size_t target;          /* the number of that entry, or JORAVELSU_NONE */
    size_t edges;           /* how many edges it has: what the buffer for edges must hold */
    size_t text_bytes;      /* how many bytes all of its texts have: what the buffer for texts must hold */
} joravelsu_entry;

/* An edge of an entry. */
typedef struct joravelsu_edge {
    uint32_t kind;          /* JORAVELSU_IMPORT or another of its list */
    bool type_only;
    size_t start;           /* the string literal in the module's text, with its quotes; of WebAssembly the name in its bytes */
    size_t end;
    size_t value_start;     /* its value in the buffer for texts, then the text of its attribute, then its target */
    size_t value_end;
    uint32_t attribute;     /* JORAVELSU_NO_ATTRIBUTE or another of its list */
    size_t attribute_end;
    size_t target_end;
    size_t target;          /* the number of its target's entry; JORAVELSU_NONE where it has none, as an edge that isn't
                               followed may have */
    uint32_t fault;         /* why it has no target, or 0 */
} joravelsu_edge;

/* A place as people count it, both from 1: columns count characters. */
typedef struct joravelsu_place {
    size_t line;
    size_t column;
} joravelsu_place;

/* The version of the library: 10,000 times its first number, 100 times its second, and its third; 100 is 0.1.0. */
uint32_t joravelsu_version(void);

/* The report of the graph of a bundle, as docs/REPORT.md describes both.
 *
 * bundle, bundle_length: a bundle as JSON. Over 16 MiB is JORAVELSU_BAD_BUNDLE.
 * buffer, buffer_length: where the report is written, in UTF-8, not ended by a 0. It never has more than *needed bytes of it.
 * needed: the length of the report, also where the buffer is too small; 0 at JORAVELSU_NO_MEMORY.
 *
 * Answers JORAVELSU_DONE, _TOO_MANY_MODULES, _BAD_BUNDLE, _NO_ROOM or _NO_MEMORY. A call that only asks for the length
 * takes as long as one that writes.
 */
uint32_t joravelsu_build(const uint8_t *bundle, size_t bundle_length, uint8_t *buffer, size_t buffer_length, size_t *needed);

/* The sites of a source text, in the order of the text: reference comments, where the media type is one of TypeScript,
 * imports, exports with from, import-equals, and import(), import.source() and import.defer() of a literal. They are those
 * that the graph has edges of.
 *
 * text, text_length: the source in UTF-8. A byte order mark in front is skipped, and places count from after it.
 * media_type: JORAVELSU_TYPESCRIPT or another of its list.
 * sites, sites_length: a record for each site is written here; the length counts records.
 * values, values_length: the values of all sites are written here, one after the other, each followed by its
 *   attribute's text.
 * answer: always written; where a buffer is too small, it says what both must hold.
 *
 * Answers JORAVELSU_DONE, or why nothing was written into the buffers: JORAVELSU_NO_MEDIA_TYPE before _NOT_READ, _TOO_LONG,
 * _NO_UTF8, the fault, _NO_ROOM, in this order; JORAVELSU_NO_MEMORY at any time.
 */
uint32_t joravelsu_sites(const uint8_t *text, size_t text_length, uint32_t media_type, joravelsu_site *sites,
                         size_t sites_length, uint8_t *values, size_t values_length, joravelsu_answer *answer);

/* The calls of a source text that may load a module and are no sites, in the order of the text: what else a permission
 * check has to look at. They are found by the tokens alone, whether these are a program or not.
 *
 * A call is the word import or require, or import.source or import.defer, followed directly by a bracket that has something
 * in it, other than
 * - import("a") and import("a", b), in any phase, whose first argument is a string literal alone;
 * - import a = require("b") and import type a = require("b"), with a on the line of the word before it;
 * - the word after . or ?. or function;
 * - the word whose bracket begins with a: , a method's parameter with its type;
 * - the word with { after its bracket, on the line where that closes, unless extends or new precedes the word:
 *   a method.
 * No name is looked up: a require that the text declares itself counts too. Calls of another form, such as require?.("a"),
 * (require)("a"), module.require("a") or those of another name for require, don't.
 *
 * text, text_length: as for joravelsu_sites.
 * calls, calls_length: a record for each call is written here; the length counts records.
 * answer: always written; where the buffer is too small, it says what it must hold.
 *
 * Answers JORAVELSU_DONE, or why nothing was written into the buffer: JORAVELSU_TOO_LONG before _NO_UTF8, _LEXICAL_FAULT,
 * _NO_ROOM, in this order; JORAVELSU_NO_MEMORY at any time.
 */
uint32_t joravelsu_unread(const uint8_t *text, size_t text_length, joravelsu_call *calls, size_t calls_length,
                          joravelsu_unread_answer *answer);

/* What a source text mentions that a graph of its modules doesn't show, in the order of the text: a list whose emptiness says
 * that each name which the text uses at run time is declared in it or allowed, that each import() is one of a literal, and
 * that it has no import.meta but the address of a literal, and no with. What leaves nothing at run time (types, what is
 * declared for types alone) is passed over; outside a script the name arguments is allowed. A text without a tree has no such
 * list: the call answers why.
 *
 * text, text_length, media_type: as for joravelsu_sites.
 * allowed, allowed_length: the names that are allowed, in UTF-8, a line each; if they are no UTF-8, none is allowed.
 * strict: not 0 lists also what may reach the makers of code by a property.
 * mentions, mentions_length: a record for each is written here; the length counts records.
 * answer: always written; where the buffer is too small, it says what it must hold.
 *
 * Answers as joravelsu_sites.
 */
uint32_t joravelsu_mentions(const uint8_t *text, size_t text_length, uint32_t media_type, const uint8_t *allowed,
                            size_t allowed_length, uint32_t strict, joravelsu_mention *mentions, size_t mentions_length,
                            joravelsu_mentions_answer *answer);

/* A source text with other specifiers at some of its sites. The literal of each of these is replaced by one in double quotes;
 * all else stays byte for byte, but for a byte order mark in front, which isn't written. The new text is read as the old one,
 * and has its sites, moved by what the literals before them gained and lost.
 *
 * text, text_length, media_type: as for joravelsu_sites.
 * changes, changes_length: a record for each change, in the order of the sites, no site twice; the length counts records.
 *   Sites in comments can't be changed.
 * values, values_length: where the records have their specifiers.
 * buffer, buffer_length: where the new text is written, in UTF-8, not ended by a 0.
 * answer: always written; where the buffer is too small, it says what it must hold.
 *
 * Answers JORAVELSU_DONE, or why nothing was written into the buffer: what joravelsu_sites answers of a text without sites,
 * in its order, then JORAVELSU_NO_VALUE of the first change that has none, then _NO_SITE, _NO_LITERAL or _NO_ORDER of the
 * first change that can't be made, then _NO_ROOM; JORAVELSU_NO_MEMORY at any time.
 */
uint32_t joravelsu_rewrite(const uint8_t *text, size_t text_length, uint32_t media_type, const joravelsu_change *changes,
                           size_t changes_length, const uint8_t *values, size_t values_length, uint8_t *buffer,
                           size_t buffer_length, joravelsu_rewrite_answer *answer);

/* The declarations of a source text: what a .d.ts of it says, as docs/DECLARATIONS.md describes it. No type is checked, and no other
 * text is read: what has no type of its own in the text is any, or is dropped, and is reported.
 *
 * text, text_length, media_type: as for joravelsu_sites.
 * comments: 0 to leave out comments; another number for those before the items that stay.
 * diagnostics, diagnostics_length: a record for each type that couldn't be determined, in the order in which this was found; the
 *   length counts records.
 * buffer, buffer_length: where the declarations are written, in UTF-8, not ended by a 0.
 * answer: always written; where a buffer is too small, it says what both must hold.
 *
 * Answers JORAVELSU_DONE, or why nothing was written into the buffers: as joravelsu_sites, in its order.
 */
uint32_t joravelsu_declarations(const uint8_t *text, size_t text_length, uint32_t media_type, uint32_t comments,
                                joravelsu_diagnostic *diagnostics, size_t diagnostics_length, uint8_t *buffer,
                                size_t buffer_length, joravelsu_declarations_answer *answer);

/* The names that a source text exports, and the modules whose names it re-exports.
 *
 * text, text_length, media_type: as for joravelsu_sites.
 * common_js: 0 for what a module of ECMAScript exports at run time, in the order of its items, each as often as it is exported:
 *   a script has none. Another number for what a module of CommonJS exports, as far as its text says: names that are assigned
 *   to exports or module.exports, and those of Object.defineProperty, ascending by bytes, each once, but for getters that may do
 *   something; docs/EMBEDDING.md lists the forms.
 * names, names_length: a record for each name is written here, those of the modules after the others; the length counts
 *   records.
 * values, values_length: the texts of all names are written here, one after the other.
 * answer: always written; where a buffer is too small, it says what both must hold.
 *
 * Answers JORAVELSU_DONE, or why nothing was written into the buffers: as joravelsu_sites, in its order.
 */
uint32_t joravelsu_exports(const uint8_t *text, size_t text_length, uint32_t media_type, uint32_t common_js,
                           joravelsu_name *names, size_t names_length, uint8_t *values, size_t values_length,
                           joravelsu_exports_answer *answer);

/* ---- A graph whose loads the caller does
 *
 * joravelsu_graph g = JORAVELSU_GRAPH_INIT;
 * joravelsu_graph_new(.., &g, ..);
 * while (joravelsu_graph_poll(&g, &seen) == JORAVELSU_NOT_YET)
 *     for (size_t n = 0; joravelsu_graph_wanted(&g, n, name, sizeof name, &wanted) == JORAVELSU_DONE; n = wanted.number + 1)
 *         joravelsu_graph_answer(&g, wanted.number, ..);     (some or all of them, in any order, now or later)
 * for (size_t n = 0; joravelsu_graph_entry(&g, n, ..) == JORAVELSU_DONE; n++) ..
 * joravelsu_graph_free(&g);
 *
 * No call calls back, waits or keeps an argument: it copies what it needs. A call on a handle without a graph answers
 * JORAVELSU_NO_GRAPH and changes nothing. */

/* Begins a graph in a handle that has none.
 *
 * settings, settings_length: a bundle as JSON (docs/REPORT.md): its roots, kind, limit, skipDynamicDeps, imports and importMap.
 *   It needs "modules": []; modules and their arrival are passed over, since the caller loads them. It may have any length.
 * line, line_length: at JORAVELSU_BAD_BUNDLE why is written here, as joravelsu_build writes it, if it fits.
 * needed: the length of that line, else 0.
 *
 * Answers JORAVELSU_DONE, _BAD_BUNDLE, _NO_MEMORY or _HAS_GRAPH. */
uint32_t joravelsu_graph_new(const uint8_t *settings, size_t settings_length, joravelsu_graph *graph, uint8_t *line,
                             size_t line_length, size_t *needed);

/* Asks for all that is reached by the answers so far, and builds the graph once each request is answered.
 *
 * seen: at JORAVELSU_TOO_MANY_MODULES how many specifiers were counted, else 0.
 *
 * Answers JORAVELSU_DONE: the graph is there, now and at each later poll. JORAVELSU_NOT_YET: some requests have no answer.
 * JORAVELSU_TOO_MANY_MODULES or _NO_MEMORY: it has ended; later polls answer JORAVELSU_ENDED. */
uint32_t joravelsu_graph_poll(joravelsu_graph *graph, size_t *seen);

/* The first request from a number on that has no answer yet. Requests are numbered from 0 in the order in which polls made
 * them, and no specifier is asked for twice.
 *
 * buffer, buffer_length: its specifier, a URL, is written here, not ended by a 0.
 * wanted: always written: the number, and the specifier's length.
 *
 * Answers JORAVELSU_DONE, _NO_ROOM or _NONE_WANTED. */
uint32_t joravelsu_graph_wanted(joravelsu_graph *graph, size_t from, uint8_t *buffer, size_t buffer_length,
                                joravelsu_wanted *wanted);

/* Answers a request. The next poll takes it.
 *
 * number: that of joravelsu_graph_wanted.
 * kind: JORAVELSU_CONTENT or another of its list.
 * bytes, bytes_length: the module, or the redirect's target.
 * content_type, content_type_length: of a module the value of its header content-type, the one that a graph reads; length 0
 *   where there is none.
 *
 * Answers JORAVELSU_DONE, or why nothing changed: JORAVELSU_NO_ANSWER, or _NO_UTF8 or _NO_URL of a header or a target, before
 * _NOT_ASKED or _ANSWERED; JORAVELSU_NO_MEMORY at any time. */
uint32_t joravelsu_graph_answer(joravelsu_graph *graph, size_t number, uint32_t kind, const uint8_t *bytes,
                                size_t bytes_length, const uint8_t *content_type, size_t content_type_length);

/* An entry of the graph. Entries are numbered from 0, in the order in which they were reached: the different roots first.
 *
 * edges, edges_length: a record for each of its edges is written here, in the order of the text; the length counts records.
 * texts, texts_length: its texts are written here.
 * entry: always written; where a buffer is too small, it says what both must hold, and neither is written.
 *
 * Answers JORAVELSU_DONE, _NOT_YET, _NO_ENTRY, _NO_ROOM or _NO_MEMORY. */
uint32_t joravelsu_graph_entry(joravelsu_graph *graph, size_t number, joravelsu_edge *edges, size_t edges_length,
                               uint8_t *texts, size_t texts_length, joravelsu_entry *entry);

/* Line and column of a byte in the text of an entry's module: of an edge's start, or of a fault's place. It looks through the
 * text once. At another answer than JORAVELSU_DONE both are 0: JORAVELSU_NOT_YET, _NO_TEXT or _NO_MEMORY. */
uint32_t joravelsu_graph_place(joravelsu_graph *graph, size_t number, size_t place, joravelsu_place *shown);

/* Gives back all memory of a graph, built or not; the handle has none then. */
void joravelsu_graph_free(joravelsu_graph *graph);

#ifdef __cplusplus
}
#endif

#endif
