//! From a diagnostic of the crate to document 01's code and context, by its wording.

use oxc_diagnostics::OxcDiagnostic;

/// How each code's message begins; two have one message and differ in their help.
const MESSAGES: [(&str, u32); 33] = [
    ("Identifier `", 1),
    ("The keyword '", 2),
    ("Cannot use await in class static initialization block", 3),
    ("Cannot assign to '", 4),
    ("`let` cannot be declared as a variable name inside of a `", 5),
    ("'arguments' is not allowed in ", 6),
    ("Private identifier '#", 7),
    ("Private field '#", 8),
    ("'0'-prefixed octal literals and octal escape sequences are deprecated", 9),
    ("Decimals with leading zeros are not allowed in strict mode", 10),
    ("Invalid escape sequence", 11),
    ("Illegal 'use strict' directive in function with non-simple parameter list", 12),
    ("'using' declarations are not allowed at the top level of a script", 13),
    ("Cannot use 'await using' in class static initialization block", 14),
    ("'with' statements are not allowed", 17),
    ("Illegal break statement", 18),
    ("Use of undefined label", 19),
    ("Jump target cannot cross function boundary.", 20),
    ("Illegal continue statement: no surrounding iteration statement", 21),
    ("A `continue` statement can only jump to a label", 22),
    ("Label `", 23),
    ("for-in loop variable declaration may not have an initializer", 24),
    ("for-of loop variable declaration may not have an initializer", 24),
    ("Cannot use 'for await' in class static initialization block", 25),
    ("A class name is required.", 26),
    ("Multiple constructor implementations are not allowed.", 27),
    ("'super' can only be referenced in a derived class.", 28),
    ("Super calls are not permitted outside constructors", 29),
    ("'super' can only be referenced in members", 30),
    ("Delete of an unqualified identifier in strict mode.", 31),
    ("The operand of a 'delete' operator cannot be a private identifier.", 32),
    ("expression not allowed in formal parameter", 33),
    ("Duplicate identifier `#", 35),
];

pub fn code_of(diagnostic: &OxcDiagnostic) -> u32 {
    let message = diagnostic.message.as_ref();
    if message == "Invalid function declaration" {
        let help = diagnostic.help.as_deref().expect("help");
        return if help.starts_with("In strict mode code") { 15 } else { 16 };
    }
    let message = message.strip_prefix("await ").or(message.strip_prefix("yield ")).unwrap_or(message);
    let found = MESSAGES.iter().find(|(start, _)| message.starts_with(start));
    found.unwrap_or_else(|| panic!("no code for {message}")).1
}

pub fn context_of(diagnostic: &OxcDiagnostic) -> u32 {
    match diagnostic.note.as_deref() {
        None => 0,
        Some("This identifier is reserved in strict mode code" | "This is strict mode code") => 1,
        Some("Classes are always strict mode code") => 2,
        Some("Modules are always strict mode code") => 3,
        Some("The identifier `await` is reserved in module code") => 4,
        Some(note) => panic!("no context for {note}"),
    }
}

/// The seven numbers of a finding.
pub fn finding_of(diagnostic: &OxcDiagnostic, node: u32) -> [u32; 7] {
    let span = |i: usize| diagnostic.spans.get(i).map_or((0, 0), |s| (s.start, s.end));
    let (first, second) = (span(0), span(1));
    [code_of(diagnostic), node, first.0, first.1, second.0, second.1, context_of(diagnostic)]
}
