/* Velkunshe: early errors of JavaScript rules, and the routes through them, on x86-64 Linux. `tools/install PREFIX` puts this header, the
 * archive libvelkunshe.a and velkunshe.pc where `pkg-config --cflags --libs velkunshe` finds them.
 *
 * A rule comes as two tables and two texts:
 *   source_type  0 script, 1 module, 2 TypeScript module without ambient code: class elements of any name are compared, a static and an
 *                instance private element of one name give 35, `with` gives 17 everywhere; flag 16384 marks an element without a fixed name
 *   async_bodies 0 is off, any other number on: an async function or a generator (flag 8192) as body of an If or a label in
 *                sloppy code is found too, as code 34; with 0 the findings are the Rust's, which leaves it to its parser
 *   nodes        ten numbers a node: kind, parent, role, span start, span end, scope, flags, extra, name start, name length
 *   scopes       three numbers a scope: parent, flags, node
 *   source       the rule's bytes; spans are half-open ranges of them
 *   names        the bytes of names
 * docs/TREES.md says what the numbers are. Lengths are counted in entries: numbers for nodes, scopes and the slices that are written,
 * bytes for source and names.
 *
 * Whatever the numbers are, a call ends, reads and writes nothing but what it is lent, keeps nothing, and answers what is proved of it.
 * Calls may run at the same time on different threads where nothing that one of them writes is lent to another.
 * It has no global state, calls nothing but memcpy and memset of the C library, and needs up to VELKUNSHE_STACK bytes of stack; velkunshe_check
 * and velkunshe_walk, which calls itself as deep as statements are nested, up to 420 KB. For a rule of at most 1,024 nodes and 1,024 scopes no call needs more
 * than 128 KB.
 *
 * What a caller owes, and no call can test:
 *   - No pointer is null, not even with length 0. For "none" pass the address of any object of the right type and length 0.
 *   - A uint32_t pointer is aligned to 4 bytes, also with length 0. Numbers that lie elsewhere, in a byte buffer or a packed struct, are
 *     copied to an aligned array first.
 *   - A pointer has as many entries behind it as its length says, within one object, which stays and which nobody else changes until the
 *     call returns.
 *   - A slice that is written to overlaps no other argument. Those that are only read may overlap one another.
 * A call with a null or misaligned pointer, or a wrong length, is undefined, as in C itself.
 *
 * Refusals of the tables, in the order in which they are looked for; the first that applies is given, at its lowest place:
 *   1   a table is empty, not whole or too long, a text is too long, or there is no such source type (place 0)
 *   2   a node's kind, role, flags or extra is not listed
 *   3   the nodes are no tree in preorder, or it is deeper than 512
 *   4   a span or a name lies outside its bytes
 *   5   a scope is missing, broken, or does not belong to the node that uses it (place: a scope; where all are whole, a node)
 *   13  a node stands under a parent that may not hold it, or has a kind or role that this parent doesn't take
 *   14  a node has too few or too many children of some sort
 *   6   the Rust fails in its search from a super (place: the super)
 *   15  a return stands in a static block (place: the return)
 */
#ifndef VELKUNSHE_H
#define VELKUNSHE_H

#include <stddef.h>
#include <stdint.h>

#ifdef __cplusplus
extern "C" {
#endif

/* The version of this header and of the library that it was installed with. Later ones may add calls, codes, contexts, ends and refusals; what is
 * declared here keeps its numbers. */
#define VELKUNSHE_VERSION_MAJOR 0
#define VELKUNSHE_VERSION_MINOR 2
#define VELKUNSHE_VERSION_PATCH 0
#define VELKUNSHE_VERSION "0.2.0"

/* How many numbers a node, a scope and a finding take, and the most that a node of the unit gives to its code: a code slice with so many
 * for each node of the tree is long enough, and velkunshe_code with an empty one says how long it must be. */
#define VELKUNSHE_NODE 10
#define VELKUNSHE_SCOPE 3
#define VELKUNSHE_FINDING 7
#define VELKUNSHE_CODE 10

/* The most bytes of stack that a call needs. */
#define VELKUNSHE_STACK 954368

/* Source types. */
enum velkunshe_source_types {
    VELKUNSHE_SOURCE_SCRIPT = 0,
    VELKUNSHE_SOURCE_MODULE = 1,
    VELKUNSHE_SOURCE_TYPESCRIPT = 2
};

/* Kinds of node. */
enum velkunshe_kinds {
    VELKUNSHE_KIND_PROGRAM = 0,
    VELKUNSHE_KIND_FUNCTION = 1,
    VELKUNSHE_KIND_ARROW = 2,
    VELKUNSHE_KIND_STATIC_BLOCK = 3,
    VELKUNSHE_KIND_FUNCTION_BODY = 4,
    VELKUNSHE_KIND_BLOCK = 5,
    VELKUNSHE_KIND_LABELED = 6,
    VELKUNSHE_KIND_FOR = 7,
    VELKUNSHE_KIND_FOR_IN = 8,
    VELKUNSHE_KIND_FOR_OF = 9,
    VELKUNSHE_KIND_WHILE = 10,
    VELKUNSHE_KIND_DO_WHILE = 11,
    VELKUNSHE_KIND_IF = 12,
    VELKUNSHE_KIND_WITH = 13,
    VELKUNSHE_KIND_SWITCH = 14,
    VELKUNSHE_KIND_SWITCH_CASE = 15,
    VELKUNSHE_KIND_TRY = 16,
    VELKUNSHE_KIND_CATCH_CLAUSE = 17,
    VELKUNSHE_KIND_BREAK = 18,
    VELKUNSHE_KIND_CONTINUE = 19,
    VELKUNSHE_KIND_RETURN = 20,
    VELKUNSHE_KIND_THROW = 21,
    VELKUNSHE_KIND_OTHER_STATEMENT = 22,
    VELKUNSHE_KIND_DIRECTIVE = 23,
    VELKUNSHE_KIND_VARIABLE_DECLARATION = 24,
    VELKUNSHE_KIND_VARIABLE_DECLARATOR = 25,
    VELKUNSHE_KIND_CLASS = 26,
    VELKUNSHE_KIND_CLASS_BODY = 27,
    VELKUNSHE_KIND_METHOD_DEFINITION = 28,
    VELKUNSHE_KIND_PROPERTY_DEFINITION = 29,
    VELKUNSHE_KIND_ACCESSOR_PROPERTY = 30,
    VELKUNSHE_KIND_BINDING_IDENTIFIER = 31,
    VELKUNSHE_KIND_IDENTIFIER_REFERENCE = 32,
    VELKUNSHE_KIND_LABEL_IDENTIFIER = 33,
    VELKUNSHE_KIND_PRIVATE_IDENTIFIER = 34,
    VELKUNSHE_KIND_NUMERIC_LITERAL = 35,
    VELKUNSHE_KIND_STRING_LITERAL = 36,
    VELKUNSHE_KIND_SUPER = 37,
    VELKUNSHE_KIND_CALL = 38,
    VELKUNSHE_KIND_NEW = 39,
    VELKUNSHE_KIND_OTHER_MEMBER = 40,
    VELKUNSHE_KIND_PRIVATE_FIELD = 41,
    VELKUNSHE_KIND_PRIVATE_IN = 42,
    VELKUNSHE_KIND_OBJECT = 43,
    VELKUNSHE_KIND_OBJECT_PROPERTY = 44,
    VELKUNSHE_KIND_UNARY = 45,
    VELKUNSHE_KIND_CHAIN = 46,
    VELKUNSHE_KIND_AWAIT = 47,
    VELKUNSHE_KIND_YIELD = 48,
    VELKUNSHE_KIND_FORMAL_PARAMETER = 49,
    VELKUNSHE_KIND_FORMAL_PARAMETER_REST = 50,
    VELKUNSHE_KIND_BINDING_REST_ELEMENT = 51,
    VELKUNSHE_KIND_JSX_ATTRIBUTE = 52,
    VELKUNSHE_KIND_EXPORT_DEFAULT = 53,
    VELKUNSHE_KIND_EXPORT_NAMED = 54,
    VELKUNSHE_KIND_ANYTHING_ELSE = 55
};

/* Roles of a node under its parent. */
enum velkunshe_roles {
    VELKUNSHE_ROLE_OTHER = 0,
    VELKUNSHE_ROLE_VALUE = 1,
    VELKUNSHE_ROLE_KEY = 2,
    VELKUNSHE_ROLE_HELD = 3,
    VELKUNSHE_ROLE_ALTERNATE = 4,
    VELKUNSHE_ROLE_FINALLY = 5,
    VELKUNSHE_ROLE_LABEL = 6,
    VELKUNSHE_ROLE_LEFT = 7
};

/* Flags of a node, added up. TEST is a For's: it has a test. */
enum velkunshe_flags {
    VELKUNSHE_FLAG_STATIC = 2,
    VELKUNSHE_FLAG_PRIVATE_KEY = 4,
    VELKUNSHE_FLAG_WRITTEN = 8,
    VELKUNSHE_FLAG_FOR_AWAIT = 16,
    VELKUNSHE_FLAG_DECLARATION = 32,
    VELKUNSHE_FLAG_HERITAGE = 64,
    VELKUNSHE_FLAG_METHOD = 128,
    VELKUNSHE_FLAG_INITIALISER = 256,
    VELKUNSHE_FLAG_TEST = 256,
    VELKUNSHE_FLAG_PLAIN_NAME = 512,
    VELKUNSHE_FLAG_SIMPLE_PARAMETERS = 1024,
    VELKUNSHE_FLAG_DELETE = 2048,
    VELKUNSHE_FLAG_DEFAULT = 4096,
    VELKUNSHE_FLAG_ASYNC_OR_GENERATOR = 8192,
    VELKUNSHE_FLAG_NO_FIXED_NAME = 16384
};

/* Extras: of a VariableDeclaration VAR to AWAIT_USING; of a MethodDefinition CONSTRUCTOR to SET; of a NumericLiteral DECIMAL to HEXADECIMAL;
 * of an ObjectProperty INIT to PROPERTY_SET; of ANYTHING_ELSE PARENTHESIS or 0. A Class has its scope there, a StringLiteral the bytes of its value. */
enum velkunshe_extras {
    VELKUNSHE_EXTRA_VAR = 0,
    VELKUNSHE_EXTRA_LET = 1,
    VELKUNSHE_EXTRA_CONST = 2,
    VELKUNSHE_EXTRA_USING = 3,
    VELKUNSHE_EXTRA_AWAIT_USING = 4,
    VELKUNSHE_EXTRA_CONSTRUCTOR = 0,
    VELKUNSHE_EXTRA_PLAIN_METHOD = 1,
    VELKUNSHE_EXTRA_GET = 2,
    VELKUNSHE_EXTRA_SET = 3,
    VELKUNSHE_EXTRA_DECIMAL = 0,
    VELKUNSHE_EXTRA_FLOAT = 1,
    VELKUNSHE_EXTRA_BINARY = 2,
    VELKUNSHE_EXTRA_OCTAL = 3,
    VELKUNSHE_EXTRA_HEXADECIMAL = 4,
    VELKUNSHE_EXTRA_INIT = 0,
    VELKUNSHE_EXTRA_PROPERTY_GET = 1,
    VELKUNSHE_EXTRA_PROPERTY_SET = 2,
    VELKUNSHE_EXTRA_PARENTHESIS = 1
};

/* Flags of a scope, added up. */
enum velkunshe_scope_flags {
    VELKUNSHE_SCOPE_STRICT = 1,
    VELKUNSHE_SCOPE_TOP = 2,
    VELKUNSHE_SCOPE_FUNCTION_SCOPE = 4,
    VELKUNSHE_SCOPE_ARROW_SCOPE = 8,
    VELKUNSHE_SCOPE_STATIC_BLOCK_SCOPE = 16
};

/* What is wrong: the first number of a finding. */
enum velkunshe_codes {
    VELKUNSHE_CODE_REDECLARATION = 1,
    VELKUNSHE_CODE_RESERVED_KEYWORD = 2,
    VELKUNSHE_CODE_CLASS_STATIC_BLOCK_AWAIT = 3,
    VELKUNSHE_CODE_UNEXPECTED_IDENTIFIER_ASSIGN = 4,
    VELKUNSHE_CODE_INVALID_LET_DECLARATION = 5,
    VELKUNSHE_CODE_UNEXPECTED_ARGUMENTS = 6,
    VELKUNSHE_CODE_PRIVATE_NOT_IN_CLASS = 7,
    VELKUNSHE_CODE_PRIVATE_FIELD_UNDECLARED = 8,
    VELKUNSHE_CODE_LEGACY_OCTAL = 9,
    VELKUNSHE_CODE_LEADING_ZERO_DECIMAL = 10,
    VELKUNSHE_CODE_NON_OCTAL_DECIMAL_ESCAPE_SEQUENCE = 11,
    VELKUNSHE_CODE_ILLEGAL_USE_STRICT = 12,
    VELKUNSHE_CODE_USING_DECLARATION_NOT_ALLOWED_IN_SCRIPT = 13,
    VELKUNSHE_CODE_CLASS_STATIC_BLOCK_AWAIT_USING = 14,
    VELKUNSHE_CODE_FUNCTION_DECLARATION_STRICT = 15,
    VELKUNSHE_CODE_FUNCTION_DECLARATION_NON_STRICT = 16,
    VELKUNSHE_CODE_WITH_STATEMENT = 17,
    VELKUNSHE_CODE_INVALID_BREAK = 18,
    VELKUNSHE_CODE_INVALID_LABEL_TARGET = 19,
    VELKUNSHE_CODE_INVALID_LABEL_JUMP_TARGET = 20,
    VELKUNSHE_CODE_INVALID_CONTINUE = 21,
    VELKUNSHE_CODE_INVALID_LABEL_NON_ITERATION = 22,
    VELKUNSHE_CODE_LABEL_REDECLARATION = 23,
    VELKUNSHE_CODE_UNEXPECTED_INITIALIZER_IN_FOR_LOOP_HEAD = 24,
    VELKUNSHE_CODE_CLASS_STATIC_BLOCK_FOR_AWAIT = 25,
    VELKUNSHE_CODE_REQUIRE_CLASS_NAME = 26,
    VELKUNSHE_CODE_DUPLICATE_CONSTRUCTOR = 27,
    VELKUNSHE_CODE_SUPER_WITHOUT_DERIVED_CLASS = 28,
    VELKUNSHE_CODE_UNEXPECTED_SUPER_CALL = 29,
    VELKUNSHE_CODE_UNEXPECTED_SUPER_REFERENCE = 30,
    VELKUNSHE_CODE_DELETE_OF_UNQUALIFIED = 31,
    VELKUNSHE_CODE_DELETE_PRIVATE_FIELD = 32,
    VELKUNSHE_CODE_AWAIT_OR_YIELD_IN_PARAMETER = 33,
    VELKUNSHE_CODE_ASYNC_BODY = 34,
    VELKUNSHE_CODE_STATIC_AND_INSTANCE_PRIVATE = 35
};

/* In what: the last number of a finding. */
enum velkunshe_contexts {
    VELKUNSHE_CONTEXT_NONE = 0,
    VELKUNSHE_CONTEXT_STRICT_MODE = 1,
    VELKUNSHE_CONTEXT_CLASS = 2,
    VELKUNSHE_CONTEXT_MODULE = 3,
    VELKUNSHE_CONTEXT_MODULE_AWAIT = 4
};

/* How a route ends. */
enum velkunshe_ends {
    VELKUNSHE_END_FELL_THROUGH = 0,
    VELKUNSHE_END_RETURNED = 1,
    VELKUNSHE_END_THROWN = 2,
    VELKUNSHE_END_ANSWERS_SPENT = 3,
    VELKUNSHE_END_STOPPED = 4,
    VELKUNSHE_END_NO_OTHER_END = 5
};

/* Why a call turns its input down; NONE: it does not. A caller should take numbers that are not here as refusals too. */
enum velkunshe_refusals {
    VELKUNSHE_REFUSAL_NONE = 0,
    VELKUNSHE_REFUSAL_SIZES = 1,
    VELKUNSHE_REFUSAL_UNLISTED = 2,
    VELKUNSHE_REFUSAL_TREE = 3,
    VELKUNSHE_REFUSAL_BYTES = 4,
    VELKUNSHE_REFUSAL_SCOPES = 5,
    VELKUNSHE_REFUSAL_WALK = 6,
    VELKUNSHE_REFUSAL_UNIT = 7,
    VELKUNSHE_REFUSAL_FINDINGS = 9,
    VELKUNSHE_REFUSAL_FINDINGS_SLICE = 10,
    VELKUNSHE_REFUSAL_CODE_SLICE = 11,
    VELKUNSHE_REFUSAL_ROUTE_SLICE = 12,
    VELKUNSHE_REFUSAL_MISPLACED = 13,
    VELKUNSHE_REFUSAL_WRONG_COUNT = 14,
    VELKUNSHE_REFUSAL_RETURN_IN_STATIC = 15,
    VELKUNSHE_REFUSAL_MARK = 16,
    VELKUNSHE_REFUSAL_MARK_PLACE = 17,
    VELKUNSHE_REFUSAL_NO_CODE = 18,
    VELKUNSHE_REFUSAL_LABEL = 19,
    VELKUNSHE_REFUSAL_RENAMED_SLICES = 20
};

/* The instructions of flat code (docs/CODE.md). */
enum velkunshe_instructions {
    VELKUNSHE_INSTRUCTION_LIST = 1,
    VELKUNSHE_INSTRUCTION_LEAVE = 2,
    VELKUNSHE_INSTRUCTION_ASK = 3,
    VELKUNSHE_INSTRUCTION_SELECT = 4,
    VELKUNSHE_INSTRUCTION_OPEN = 5,
    VELKUNSHE_INSTRUCTION_END = 6,
    VELKUNSHE_INSTRUCTION_CASE = 7
};

/* A sentence for the code of a finding. None of these four gives a null pointer. */
static inline const char *velkunshe_code_sentence(uint32_t number) {
    switch (number) {
    case VELKUNSHE_CODE_REDECLARATION: return "a private name of a class, or `__proto__` in an object, is declared twice; in TypeScript any name of a class";
    case VELKUNSHE_CODE_RESERVED_KEYWORD: return "a reserved word is used as a name";
    case VELKUNSHE_CODE_CLASS_STATIC_BLOCK_AWAIT: return "`await` stands in a static block";
    case VELKUNSHE_CODE_UNEXPECTED_IDENTIFIER_ASSIGN: return "`eval` or `arguments` is assigned to or bound in strict code";
    case VELKUNSHE_CODE_INVALID_LET_DECLARATION: return "`let` is a name in a `let`, `const` or `using` declaration";
    case VELKUNSHE_CODE_UNEXPECTED_ARGUMENTS: return "`arguments` stands in a class field or a static block";
    case VELKUNSHE_CODE_PRIVATE_NOT_IN_CLASS: return "a private name stands outside any class";
    case VELKUNSHE_CODE_PRIVATE_FIELD_UNDECLARED: return "no class around declares this private name";
    case VELKUNSHE_CODE_LEGACY_OCTAL: return "a legacy octal number or escape stands in strict code";
    case VELKUNSHE_CODE_LEADING_ZERO_DECIMAL: return "a decimal number with a leading zero stands in strict code";
    case VELKUNSHE_CODE_NON_OCTAL_DECIMAL_ESCAPE_SEQUENCE: return "the escape `\\8` or `\\9` stands in strict code";
    case VELKUNSHE_CODE_ILLEGAL_USE_STRICT: return "\"use strict\" stands in a function whose parameters are not simple";
    case VELKUNSHE_CODE_USING_DECLARATION_NOT_ALLOWED_IN_SCRIPT: return "`using` stands at the top of a script";
    case VELKUNSHE_CODE_CLASS_STATIC_BLOCK_AWAIT_USING: return "`await using` stands in a static block";
    case VELKUNSHE_CODE_FUNCTION_DECLARATION_STRICT: return "a function declaration stands where strict code takes only a statement";
    case VELKUNSHE_CODE_FUNCTION_DECLARATION_NON_STRICT: return "a function declaration stands where only a statement may stand";
    case VELKUNSHE_CODE_WITH_STATEMENT: return "`with` stands in strict code or in TypeScript";
    case VELKUNSHE_CODE_INVALID_BREAK: return "`break` stands outside a loop or switch";
    case VELKUNSHE_CODE_INVALID_LABEL_TARGET: return "a jump names a label that is not there";
    case VELKUNSHE_CODE_INVALID_LABEL_JUMP_TARGET: return "a jump leaves a function or a static block";
    case VELKUNSHE_CODE_INVALID_CONTINUE: return "`continue` stands outside a loop";
    case VELKUNSHE_CODE_INVALID_LABEL_NON_ITERATION: return "`continue` names a label that is on no loop";
    case VELKUNSHE_CODE_LABEL_REDECLARATION: return "a label stands within itself";
    case VELKUNSHE_CODE_UNEXPECTED_INITIALIZER_IN_FOR_LOOP_HEAD: return "a variable in the head of a for-in or for-of has an initialiser";
    case VELKUNSHE_CODE_CLASS_STATIC_BLOCK_FOR_AWAIT: return "`for await` stands in a static block";
    case VELKUNSHE_CODE_REQUIRE_CLASS_NAME: return "a class declaration has no name";
    case VELKUNSHE_CODE_DUPLICATE_CONSTRUCTOR: return "a class has a second constructor";
    case VELKUNSHE_CODE_SUPER_WITHOUT_DERIVED_CLASS: return "`super()` stands in a class without `extends`";
    case VELKUNSHE_CODE_UNEXPECTED_SUPER_CALL: return "`super()` stands where it may not";
    case VELKUNSHE_CODE_UNEXPECTED_SUPER_REFERENCE: return "`super` stands where it may not";
    case VELKUNSHE_CODE_DELETE_OF_UNQUALIFIED: return "`delete` of a plain name stands in strict code";
    case VELKUNSHE_CODE_DELETE_PRIVATE_FIELD: return "`delete` of a private member";
    case VELKUNSHE_CODE_AWAIT_OR_YIELD_IN_PARAMETER: return "`await` or `yield` stands in parameters";
    case VELKUNSHE_CODE_ASYNC_BODY: return "an async function or a generator is the body of an `if` or a label in sloppy code";
    case VELKUNSHE_CODE_STATIC_AND_INSTANCE_PRIVATE: return "a static and an instance private element have one name in TypeScript";
    default: return "a code of a later library";
    }
}

/* A few words for the context of a finding. */
static inline const char *velkunshe_context_sentence(uint32_t number) {
    switch (number) {
    case VELKUNSHE_CONTEXT_NONE: return "no context";
    case VELKUNSHE_CONTEXT_STRICT_MODE: return "in strict code";
    case VELKUNSHE_CONTEXT_CLASS: return "in a class, whose code is strict";
    case VELKUNSHE_CONTEXT_MODULE: return "in a module, whose code is strict";
    case VELKUNSHE_CONTEXT_MODULE_AWAIT: return "`await` in a module";
    default: return "a context of a later library";
    }
}

/* A sentence for the end of a route. */
static inline const char *velkunshe_end_sentence(uint32_t number) {
    switch (number) {
    case VELKUNSHE_END_FELL_THROUGH: return "it went past the unit's last statement";
    case VELKUNSHE_END_RETURNED: return "it returned";
    case VELKUNSHE_END_THROWN: return "it threw";
    case VELKUNSHE_END_ANSWERS_SPENT: return "no answer was left for an if, a switch or a turn of a loop";
    case VELKUNSHE_END_STOPPED: return "it was stopped under a mark";
    case VELKUNSHE_END_NO_OTHER_END: return "it comes to no other end: the code is of no unit, or no stop on this rule and unit has set the mark";
    default: return "an end of a later library";
    }
}

/* A sentence for a refusal. */
static inline const char *velkunshe_refusal_sentence(uint32_t number) {
    switch (number) {
    case VELKUNSHE_REFUSAL_NONE: return "not turned down";
    case VELKUNSHE_REFUSAL_SIZES: return "a table is empty, not whole or too long, a text is too long, or there is no such source type";
    case VELKUNSHE_REFUSAL_UNLISTED: return "a node's kind, role, flags or extra is not listed";
    case VELKUNSHE_REFUSAL_TREE: return "the nodes are no tree in preorder, or it is deeper than 512";
    case VELKUNSHE_REFUSAL_BYTES: return "a span or a name lies outside its bytes";
    case VELKUNSHE_REFUSAL_SCOPES: return "a scope is missing, broken, or does not belong to the node that uses it";
    case VELKUNSHE_REFUSAL_WALK: return "the Rust fails in its search from this `super`";
    case VELKUNSHE_REFUSAL_UNIT: return "the unit is no program, function, arrow or static block";
    case VELKUNSHE_REFUSAL_FINDINGS: return "the rule has findings, or a jump without a target";
    case VELKUNSHE_REFUSAL_FINDINGS_SLICE: return "the findings slice is too short";
    case VELKUNSHE_REFUSAL_CODE_SLICE: return "the code slice is too short";
    case VELKUNSHE_REFUSAL_ROUTE_SLICE: return "the route slice is too short";
    case VELKUNSHE_REFUSAL_MISPLACED: return "the node stands under a parent that may not hold it, or has a kind or role that this parent doesn't take";
    case VELKUNSHE_REFUSAL_WRONG_COUNT: return "the node has too few or too many children of some sort";
    case VELKUNSHE_REFUSAL_RETURN_IN_STATIC: return "a return stands in a static block";
    case VELKUNSHE_REFUSAL_MARK: return "there is no such mark, or it is not set";
    case VELKUNSHE_REFUSAL_MARK_PLACE: return "the mark holds a place where no instruction of the unit's code begins";
    case VELKUNSHE_REFUSAL_NO_CODE: return "the numbers are no code: an entry is no instruction, a target is none, or the last one runs on";
    case VELKUNSHE_REFUSAL_LABEL: return "a label's name is one that the check of reserved words looks for, or there are 700 different labels";
    case VELKUNSHE_REFUSAL_RENAMED_SLICES: return "a slice for the renamed tables is too short, or their names are too long";
    default: return "a refusal of a later library";
    }
}

/* refusal: 0, or why the tables were turned down (1 to 6, 13 to 15), or 10 where the findings slice is too short.
 * place: the node or scope of refusals 2 to 6 and 13 to 15, else 0.
 * findings: how many were written, seven numbers each (code, node, first span's start and end, second span's start and end, context),
 *   from the slice's start; 0 after a refusal. The second span is 0,0 where there is none; for codes 9 and 11 at a string (kind 36) it is
 *   the backslash and the byte after it of the first escape that strict code may not have. The first span of codes 3, 17 and 26 is a word
 *   of 5, 4 and 5 bytes: in tables that no text gives it may reach behind the source, so compare its end with the source's length first.
 * needed: after 10 the length that the findings slice must have, else 0. */
struct velkunshe_check_answer {
    uint32_t refusal;
    uint32_t place;
    uint64_t findings;
    uint64_t needed;
};

/* Checks a rule. After a refusal the findings slice is as it was; no entry past the last one written is changed. */
struct velkunshe_check_answer velkunshe_check(
    uint32_t source_type,
    uint32_t async_bodies,
    const uint32_t *nodes, size_t nodes_length,
    const uint32_t *scopes, size_t scopes_length,
    const uint8_t *source, size_t source_length,
    const uint8_t *names, size_t names_length,
    uint32_t *findings, size_t findings_length);

/* refusal: 0, or 1 to 6, 13 to 15; 7: the unit is no node of kind 0 to 3; 9: the rule has findings, or a jump without a target; 11: the code
 *   slice is shorter than the code. 8, which was given for a unit with try, is no longer given.
 * place: the node or scope of refusals 2 to 6 and 13 to 15, the unit of 7, the first finding's node or the jump of 9, else 0.
 * length: how many numbers of code were written, from the slice's start; 0 after a refusal.
 * needed: after 11 the length of the code, which the code slice must have, else 0. It depends on the tables and the unit alone. */
struct velkunshe_code_answer {
    uint32_t refusal;
    uint32_t place;
    uint64_t length;
    uint64_t needed;
};

/* Makes the flat code of a unit (a Program, Function, Arrow or StaticBlock node). After a refusal the code slice is as it was; no entry
 * past the last one written is changed. */
struct velkunshe_code_answer velkunshe_code(
    uint32_t source_type,
    uint32_t async_bodies,
    const uint32_t *nodes, size_t nodes_length,
    const uint32_t *scopes, size_t scopes_length,
    const uint8_t *source, size_t source_length,
    const uint8_t *names, size_t names_length,
    uint32_t unit,
    uint32_t *code, size_t code_length);

/* refusal: as of velkunshe_code, or 12 where the route slice is too short.
 * place: as of velkunshe_code; 0 with 12.
 * entries: how many nodes were listed, from the route slice's start; 0 after a refusal.
 * needed: after 11 the length of the code, after 12 the length that the route slice must have, else 0.
 * taken: how many answers were taken; 0 after a refusal.
 * end: 0 fell through, 1 returned, 2 thrown, 3 answers spent; 0 after a refusal. */
struct velkunshe_route_answer {
    uint32_t refusal;
    uint32_t place;
    uint64_t entries;
    uint64_t needed;
    uint64_t taken;
    uint32_t end;
};

/* Makes the code of a unit and runs it over the answers (0 is no, any other number yes; for a switch the case's number). After a refusal
 * both slices are as they were, but after 12 the code slice holds the code; no entry past the last one written is changed. */
struct velkunshe_route_answer velkunshe_route(
    uint32_t source_type,
    uint32_t async_bodies,
    const uint32_t *nodes, size_t nodes_length,
    const uint32_t *scopes, size_t scopes_length,
    const uint8_t *source, size_t source_length,
    const uint8_t *names, size_t names_length,
    uint32_t unit,
    const uint32_t *answers, size_t answers_length,
    uint32_t *code, size_t code_length,
    uint32_t *route, size_t route_length);

/* refusal, place: as of velkunshe_code.
 * shared: how many entries the two routes have in common from their start on; 0 after a refusal.
 * needed: after 11 the length of the code, else 0. */
struct velkunshe_shared_answer {
    uint32_t refusal;
    uint32_t place;
    uint64_t shared;
    uint64_t needed;
};

/* Makes the code of a unit and says how long the longest beginning is that its routes for two lists of answers share. The lists may have
 * any lengths and any numbers. Refusals are those of velkunshe_code, in its order; a route slice is not asked for. After a refusal the
 * code slice is as it was; else it holds the code, and no entry past the last one written is changed. */
struct velkunshe_shared_answer velkunshe_shared(
    uint32_t source_type,
    uint32_t async_bodies,
    const uint32_t *nodes, size_t nodes_length,
    const uint32_t *scopes, size_t scopes_length,
    const uint8_t *source, size_t source_length,
    const uint8_t *names, size_t names_length,
    uint32_t unit,
    const uint32_t *first, size_t first_length,
    const uint32_t *second, size_t second_length,
    uint32_t *code, size_t code_length);

/* The second engine: the route of a unit by a walk over its tree, without code. For every rule, unit and answers it gives what
 * velkunshe_route gives, entry by entry, wherever that one has room for its code.
 * refusal: as of velkunshe_route, in its order, but never 11.
 * needed: after 12 the length that the route slice must have, else 0.
 * After a refusal the route slice is as it was; no entry past the last one written is changed. */
struct velkunshe_route_answer velkunshe_walk(
    uint32_t source_type,
    uint32_t async_bodies,
    const uint32_t *nodes, size_t nodes_length,
    const uint32_t *scopes, size_t scopes_length,
    const uint8_t *source, size_t source_length,
    const uint8_t *names, size_t names_length,
    uint32_t unit,
    const uint32_t *answers, size_t answers_length,
    uint32_t *route, size_t route_length);

/* refusal: 0, or 1 to 6, 13 to 15; 19: a label (a node of kind 33 with role 6) has a name that the check of reserved words looks for, or is
 *   the first of a 700th different name; 20: one of the two slices is too short, or the names would take more than 1,048,576 bytes.
 * place: the node or scope of refusals 2 to 6 and 13 to 15, the label of 19, else 0.
 * names: how many bytes of names were written, from the slice's start; 0 after a refusal.
 * needed: after 20 how many bytes the names take, else 0. The node slice must be as long as the node table. */
struct velkunshe_rename_answer {
    uint32_t refusal;
    uint32_t place;
    uint64_t names;
    uint64_t needed;
};

/* Renames the labels of a rule to a, b, .., z, aa, ab and so on (without do, if and in), in the order in which their names first appear,
 * and writes a node table and a names slice of its own: the table as it was but for the names, each node's name in node order. A node
 * without a name, label or not, keeps length 0 and starts where the next name would. Refusals of the tables come first, then 19, then 20;
 * findings don't stop it. After a refusal both slices are as they were; no entry past the last one written is changed. */
struct velkunshe_rename_answer velkunshe_rename(
    uint32_t source_type,
    const uint32_t *nodes, size_t nodes_length,
    const uint32_t *scopes, size_t scopes_length,
    const uint8_t *source, size_t source_length,
    const uint8_t *names, size_t names_length,
    uint32_t *renamed_nodes, size_t renamed_nodes_length,
    uint8_t *renamed_names, size_t renamed_names_length);

/* A code slice that a caller lends, whoever wrote it. It may hold any numbers and be of any length. Its numbers are a code where
 * instructions stand in it one behind the other up to its end, each target that one of them names begins an instruction, and the last one
 * doesn't run on (docs/CODE.md, "Which numbers are a code"); else it is refused by 18, before anything is changed. The code that
 * velkunshe_code writes, taken with its own length, is never refused.
 *
 * refusal: 0, or 18.
 * place: of 18 the lowest offset where an entry or an instruction begins that is at fault, 0 of an empty slice; else 0.
 * length: the length of the shorter code; 0 after a refusal.
 * freed: how many numbers fewer that is than code_length; 0 after a refusal. */
struct velkunshe_shorten_answer {
    uint32_t refusal;
    uint64_t place;
    uint64_t length;
    uint64_t freed;
};

/* Makes a code shorter where it stands: sends each jump on to its last target, drops what no path reaches, and closes up the room. The first
 * `length` entries are then the shorter code, and those behind are as they were; after a refusal all are. A second pass over the shorter
 * code changes nothing. Of the code of a unit every route stays, for all answers; of other codes that is not promised. A mark holds a
 * place in the code as velkunshe_code writes it, not in the shorter one. */
struct velkunshe_shorten_answer velkunshe_shorten(
    uint32_t *code, size_t code_length);

/* refusal: 0, or 18 as of velkunshe_shorten, or 12 where the route slice is too short.
 * end: as of velkunshe_route, or 5 where more instructions pass without an answer than the slice has numbers, where pending ends run
 *   below none or above 512, or where an END says no number from 0 to 2 (never of a unit's code, shorter or not); 0 after a refusal.
 * place: of 18 as of velkunshe_shorten, else 0.
 * entries: how many nodes were listed, from the route slice's start; 0 after a refusal.
 * needed: after 12 the length that the route slice must have, else 0.
 * taken: how many answers were taken; 0 after a refusal. */
struct velkunshe_run_answer {
    uint32_t refusal;
    uint32_t end;
    uint64_t place;
    uint64_t entries;
    uint64_t needed;
    uint64_t taken;
};

/* Runs a code over the answers. After a refusal the route slice is as it was; no entry past the last one written is changed. */
struct velkunshe_run_answer velkunshe_run(
    const uint32_t *code, size_t code_length,
    const uint32_t *answers, size_t answers_length,
    uint32_t *route, size_t route_length);

/* Routes that are stopped under a mark, and taken up again there with further answers.
 *
 * `marks` points to VELKUNSHE_MARKS numbers, aligned as other slices are: eight marks, 0 to 7, of 1,026 numbers each. A mark's first number
 * is 0 where it is not set, else how many ends are pending and 1; then come the place in the code and 512 pairs for the pending ends. All
 * marks are clear when all numbers are 0. The array may hold any numbers: a first number above 513 counts as not set, and what a call makes
 * of the others is no route, but ends without harm. A call writes to it only where it sets a mark, and then only to that mark's part,
 * whose unused rest stays.
 *
 * A route is stopped right after the entry that takes the last of `stop` answers (for 0, at its start), counted from where it began or was
 * taken up; its end is 4, and the mark is set. One that ends before sets no mark, nor does a refusal. For a mark that is taken up on the
 * tables and unit of all its stops, the entries so far and those that follow, where it isn't stopped again, are the route for the
 * answers taken so far with the further ones behind them, and so is the end.
 *
 * Refusals are those of velkunshe_code up to 9; then 16: the mark is above 7, or is not set where it is taken up (place: the mark; the one
 * that is taken up is looked at first); 11; 17: a mark that is taken up holds a place where no instruction of the unit's code begins
 * (place: the mark); and 12. needed: after 11 and 12, as of velkunshe_route. After a refusal the marks and both slices are as they were, but
 * after 12 and 17 the code slice holds the code; no entry past the last one written is changed.
 *
 * end: as of velkunshe_route, or 4: stopped under the mark, 5: it comes to no other end (only where a mark was taken up otherwise). */
#define VELKUNSHE_MARKS 8208

/* From the start, stopped under `mark` behind `stop` answers. */
struct velkunshe_route_answer velkunshe_route_stop(
    uint32_t source_type,
    uint32_t async_bodies,
    const uint32_t *nodes, size_t nodes_length,
    const uint32_t *scopes, size_t scopes_length,
    const uint8_t *source, size_t source_length,
    const uint8_t *names, size_t names_length,
    uint32_t unit,
    const uint32_t *answers, size_t answers_length,
    uint32_t mark,
    uint64_t stop,
    uint32_t *marks,
    uint32_t *code, size_t code_length,
    uint32_t *route, size_t route_length);

/* Taken up at `mark`, and not stopped again. It doesn't change the marks. */
struct velkunshe_route_answer velkunshe_route_resume(
    uint32_t source_type,
    uint32_t async_bodies,
    const uint32_t *nodes, size_t nodes_length,
    const uint32_t *scopes, size_t scopes_length,
    const uint8_t *source, size_t source_length,
    const uint8_t *names, size_t names_length,
    uint32_t unit,
    uint32_t mark,
    const uint32_t *answers, size_t answers_length,
    uint32_t *marks,
    uint32_t *code, size_t code_length,
    uint32_t *route, size_t route_length);

/* Taken up at `from`, and stopped again under `to` behind `stop` further answers. The two may be one mark: it is read first. */
struct velkunshe_route_answer velkunshe_route_resume_stop(
    uint32_t source_type,
    uint32_t async_bodies,
    const uint32_t *nodes, size_t nodes_length,
    const uint32_t *scopes, size_t scopes_length,
    const uint8_t *source, size_t source_length,
    const uint8_t *names, size_t names_length,
    uint32_t unit,
    uint32_t from,
    const uint32_t *answers, size_t answers_length,
    uint32_t to,
    uint64_t stop,
    uint32_t *marks,
    uint32_t *code, size_t code_length,
    uint32_t *route, size_t route_length);

#ifdef __cplusplus
}
#endif

#endif
