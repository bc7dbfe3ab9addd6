//! checker/mod.rs and checker/javascript.rs over well-formed tables. Functions bear the Rust's names.

use std::collections::HashMap;

use crate::classes::{element_name, has_body, key_name, Classes, Element, ElementKind};
use crate::supers::{self, Walk};
use crate::tables::*;

/// Codes of document 01.
pub mod code {
    pub const REDECLARATION: u32 = 1;
    pub const RESERVED_WORD: u32 = 2;
    pub const AWAIT_IN_STATIC_BLOCK: u32 = 3;
    pub const EVAL_OR_ARGUMENTS_ASSIGNED: u32 = 4;
    pub const LET_IN_LEXICAL_DECLARATION: u32 = 5;
    pub const ARGUMENTS_IN_FIELD_OR_STATIC_BLOCK: u32 = 6;
    pub const PRIVATE_NAME_OUTSIDE_CLASS: u32 = 7;
    pub const PRIVATE_NAME_UNDECLARED: u32 = 8;
    pub const LEGACY_OCTAL: u32 = 9;
    pub const LEADING_ZERO_DECIMAL: u32 = 10;
    pub const ESCAPE_8_OR_9: u32 = 11;
    pub const USE_STRICT: u32 = 12;
    pub const USING_IN_SCRIPT: u32 = 13;
    pub const AWAIT_USING_IN_STATIC_BLOCK: u32 = 14;
    pub const STRICT_FUNCTION_DECLARATION: u32 = 15;
    pub const SLOPPY_FUNCTION_DECLARATION: u32 = 16;
    pub const WITH: u32 = 17;
    pub const BREAK: u32 = 18;
    pub const UNDEFINED_LABEL: u32 = 19;
    pub const JUMP_OVER_A_FUNCTION: u32 = 20;
    pub const CONTINUE: u32 = 21;
    pub const LABEL_OF_NO_LOOP: u32 = 22;
    pub const LABEL_TWICE: u32 = 23;
    pub const FOR_HEAD_INITIALISER: u32 = 24;
    pub const FOR_AWAIT_IN_STATIC_BLOCK: u32 = 25;
    pub const CLASS_NAME: u32 = 26;
    pub const SECOND_CONSTRUCTOR: u32 = 27;
    pub const SUPER_WITHOUT_HERITAGE: u32 = 28;
    pub const SUPER_CALL: u32 = 29;
    pub const SUPER_REFERENCE: u32 = 30;
    pub const DELETE_OF_NAME: u32 = 31;
    pub const DELETE_OF_PRIVATE: u32 = 32;
    pub const AWAIT_OR_YIELD_IN_PARAMETERS: u32 = 33;
    pub const ASYNC_BODY: u32 = 34;
    pub const STATIC_AND_INSTANCE_PRIVATE: u32 = 35;
}

/// Contexts of document 01.
pub mod context {
    pub const NONE: u32 = 0;
    pub const STRICT: u32 = 1;
    pub const CLASS: u32 = 2;
    pub const MODULE: u32 = 3;
    pub const MODULE_AWAIT: u32 = 4;
}

/// A finding is seven numbers.
#[derive(Clone, Copy, Debug, PartialEq, Eq)]
pub struct Finding {
    pub code: u32,
    pub node: u32,
    pub first: Span,
    pub second: Span,
    pub context: u32,
}

impl Finding {
    pub fn numbers(&self) -> [u32; 7] {
        [self.code, self.node, self.first.0, self.first.1, self.second.0, self.second.1, self.context]
    }
}

/// The findings of well-formed tables, by raising node, then in the order of its check.
pub fn findings(t: &Tables) -> Vec<Finding> {
    let mut checker = Checker { t, classes: Classes::of(t), node: 0, found: Vec::new() };
    for n in 0..t.node_count() {
        checker.node = n;
        checker.check(n);
        if t.async_bodies {
            checker.check_async_bodies(n);
        }
    }
    checker.found
}

struct Checker<'t, 'a> {
    t: &'t Tables<'a>,
    classes: Classes<'a>,
    /// The raising node.
    node: usize,
    found: Vec<Finding>,
}

impl Checker<'_, '_> {
    fn raise(&mut self, code: u32, first: Span, second: Span, context: u32) {
        self.found.push(Finding { code, node: self.node as u32, first, second, context });
    }

    fn error(&mut self, code: u32, first: Span) {
        self.raise(code, first, NO_SPAN, context::NONE);
    }

    fn error_at_two(&mut self, code: u32, first: Span, second: Span) {
        self.raise(code, first, second, context::NONE);
    }

    /// The dispatch.
    fn check(&mut self, n: usize) {
        let t = self.t;
        match t.kind(n) {
            PROGRAM => self.check_duplicate_class_elements(),
            BINDING_IDENTIFIER => {
                self.check_identifier(n);
                self.check_binding_identifier(n);
            }
            IDENTIFIER_REFERENCE => {
                self.check_identifier(n);
                self.check_identifier_reference(n);
            }
            LABEL_IDENTIFIER => self.check_identifier(n),
            PRIVATE_IDENTIFIER => self.check_private_identifier_outside_class(n),
            NUMERIC_LITERAL => self.check_number_literal(n),
            STRING_LITERAL => self.check_string_literal(n),
            DIRECTIVE => self.check_directive(n),
            WITH => {
                self.check_function_declaration(n, BODY, false);
                self.check_with_statement(n);
            }
            BREAK => self.check_break_statement(n),
            CONTINUE => self.check_continue_statement(n),
            LABELED => {
                self.check_labeled_statement(n);
                self.check_function_declaration_in_labeled_statement(n);
            }
            FOR_IN => {
                self.check_function_declaration(n, BODY, false);
                self.check_for_statement_left(n, true);
            }
            FOR_OF => {
                self.check_function_declaration(n, BODY, false);
                self.check_for_of_statement(n);
                self.check_for_statement_left(n, false);
            }
            WHILE | DO_WHILE | FOR => self.check_function_declaration(n, BODY, false),
            IF => {
                self.check_function_declaration(n, BODY, true);
                self.check_function_declaration(n, ALTERNATE, true);
            }
            CLASS => {
                self.check_private_identifier(n);
                self.check_class(n);
            }
            SUPER => self.check_super(n),
            AWAIT => self.check_await_expression(n),
            OBJECT => self.check_object_expression(n),
            UNARY => self.check_unary_expression(n),
            YIELD => self.check_yield_expression(n),
            VARIABLE_DECLARATION => self.check_variable_declaration(n),
            _ => {}
        }
    }

    // Classes.

    fn check_duplicate_class_elements(&mut self) {
        for c in 0..self.classes.classes.len() {
            // Two places per private name: getter side (with all that is no setter) and setter side. A public name,
            // which only TypeScript compares, has the last such element in one of them.
            let mut places = HashMap::new();
            let elements = self.classes.classes[c].elements.clone();
            for element in elements.into_iter().filter(|e| e.is_private || self.t.is_typescript()) {
                let places: &mut [Option<Element>; 2] =
                    places.entry((element.name, element.is_private)).or_insert([None; 2]);
                let side = usize::from(element.is_private && element.kind == ElementKind::Setter);
                let previous = places[side].or(places[1 - side]);
                places[side] = Some(element);
                if let Some(previous) = previous.filter(|previous| clash(previous, &element)) {
                    self.error_at_two(self.clash_code(&previous, &element), previous.span, element.span);
                }
            }
        }
    }

    /// Request 13: a static and an instance private element "give code 35 in place of 1".
    fn clash_code(&self, previous: &Element, element: &Element) -> u32 {
        if self.t.is_typescript() && element.is_private && element.is_static != previous.is_static {
            code::STATIC_AND_INSTANCE_PRIVATE
        } else {
            code::REDECLARATION
        }
    }

    fn check_private_identifier_outside_class(&mut self, n: usize) {
        if self.classes.current[n].is_none() {
            self.error(code::PRIVATE_NAME_OUTSIDE_CLASS, self.t.span(n));
        }
    }

    /// Raised at the Class in whose body the references stand.
    fn check_private_identifier(&mut self, n: usize) {
        let Some(class) = self.classes.declared_by(n) else { return };
        for reference in self.classes.classes[class].references.clone() {
            let name = self.t.name(reference);
            if !self.classes.ancestors(class).any(|c| self.classes.has_private_definition(c, name)) {
                self.error(code::PRIVATE_NAME_UNDECLARED, self.t.span(reference));
            }
        }
    }

    fn check_class(&mut self, n: usize) {
        let t = self.t;
        let (start, _) = t.span(n);
        let has_id = t.part_of_kind(n, BINDING_IDENTIFIER).is_some();
        if t.has(n, DECLARATION) && !has_id && t.kind(t.parent(n)) != EXPORT_DEFAULT {
            self.error(code::CLASS_NAME, (start, start + 5));
        }
        // Constructors with a body; only the first two are told.
        let Some(body) = t.part_of_kind(n, CLASS_BODY) else { return };
        let mut constructors = t
            .children(body)
            .filter(|&e| t.kind(e) == METHOD_DEFINITION && t.extra(e) == 0 && has_body(t, e))
            .map(|e| match t.part(e, KEY) {
                Some(key) if element_name(t, e).is_some() => t.span(key),
                _ => t.span(e),
            });
        if let (Some(first), Some(second)) = (constructors.next(), constructors.next()) {
            self.error_at_two(code::SECOND_CONSTRUCTOR, first, second);
        }
    }

    fn check_super(&mut self, n: usize) {
        let t = self.t;
        match supers::walk(t, &self.classes, n) {
            Walk::Legal => {}
            Walk::WithoutHeritage(class) => self.error_at_two(code::SUPER_WITHOUT_HERITAGE, t.span(n), t.span(class)),
            Walk::Illegal => match supers::super_call(t, n) {
                Some(call) => self.error(code::SUPER_CALL, t.span(call)),
                None => self.error(code::SUPER_REFERENCE, t.span(n)),
            },
            Walk::Stuck => unreachable!("refusal 6"),
        }
    }

    // Identifiers.

    fn check_identifier(&mut self, n: usize) {
        let t = self.t;
        match t.name(n) {
            b"await" => {
                if t.is_module() {
                    self.raise(code::RESERVED_WORD, t.span(n), NO_SPAN, context::MODULE_AWAIT);
                } else if t.scope_flags(t.scope(n)) & IN_STATIC_BLOCK != 0 {
                    self.error(code::AWAIT_IN_STATIC_BLOCK, t.span(n));
                }
            }
            b"implements" | b"interface" | b"let" | b"package" | b"private" | b"protected" | b"public" | b"static"
            | b"yield"
                if t.strict(n) =>
            {
                self.raise(code::RESERVED_WORD, t.span(n), NO_SPAN, self.strict_context(n));
            }
            _ => {}
        }
    }

    /// Why the code is strict: in a class, else in a module, else by a directive.
    fn strict_context(&self, n: usize) -> u32 {
        let t = self.t;
        if t.ancestors(n).any(|a| t.kind(a) == CLASS) {
            context::CLASS
        } else if t.is_module() {
            context::MODULE
        } else {
            context::STRICT
        }
    }

    fn check_binding_identifier(&mut self, n: usize) {
        let t = self.t;
        match t.name(n) {
            b"eval" | b"arguments" if t.strict(n) => {
                self.raise(code::EVAL_OR_ARGUMENTS_ASSIGNED, t.span(n), NO_SPAN, self.strict_context(n));
            }
            b"let" if !t.strict(n) => {
                // The nearest declaration, or the function that comes first.
                let nearest = t.ancestors(n).find(|&a| matches!(t.kind(a), VARIABLE_DECLARATION | FUNCTION | ARROW));
                if nearest.is_some_and(|a| t.kind(a) == VARIABLE_DECLARATION && t.extra(a) != 0) {
                    self.error(code::LET_IN_LEXICAL_DECLARATION, t.span(n));
                }
            }
            _ => {}
        }
    }

    fn check_identifier_reference(&mut self, n: usize) {
        let t = self.t;
        let name = t.name(n);
        if (name == b"arguments" || name == b"eval") && t.strict(n) && t.has(n, WRITTEN_TO) {
            self.raise(code::EVAL_OR_ARGUMENTS_ASSIGNED, t.span(n), NO_SPAN, self.strict_context(n));
            return;
        }
        if name == b"arguments" && self.classes.current[n].is_some() {
            let mut previous = n;
            for a in t.ancestors(n) {
                match t.kind(a) {
                    FUNCTION => break,
                    STATIC_BLOCK => return self.error(code::ARGUMENTS_IN_FIELD_OR_STATIC_BLOCK, t.span(n)),
                    PROPERTY_DEFINITION if t.part(a, VALUE) == Some(previous) => {
                        return self.error(code::ARGUMENTS_IN_FIELD_OR_STATIC_BLOCK, t.span(n));
                    }
                    _ => previous = a,
                }
            }
        }
    }

    // Literals.

    fn check_number_literal(&mut self, n: usize) {
        let t = self.t;
        let raw = t.text(t.span(n));
        let leading_zero = raw.len() >= 2 && raw[0] == b'0' && raw[1].is_ascii_digit();
        if !leading_zero || !t.strict(n) {
            return;
        }
        match t.extra(n) {
            3 => self.error(code::LEGACY_OCTAL, t.span(n)),
            0 | 1 => self.error(code::LEADING_ZERO_DECIMAL, t.span(n)),
            _ => {}
        }
    }

    fn check_string_literal(&mut self, n: usize) {
        let t = self.t;
        if !t.strict(n) || t.kind(t.parent(n)) == JSX_ATTRIBUTE {
            return;
        }
        let raw = t.text(t.span(n));
        // Equal lengths but for the quotes: no escapes.
        if raw.len() as u64 == u64::from(t.extra(n)) + 2 {
            return;
        }
        let mut i = 0;
        while i < raw.len() {
            if raw[i] != b'\\' {
                i += 1;
                continue;
            }
            match raw.get(i + 1) {
                Some(b'0') if raw.get(i + 2).is_some_and(u8::is_ascii_digit) => {
                    return self.error_at_escape(code::LEGACY_OCTAL, n, i);
                }
                Some(b'1'..=b'7') => return self.error_at_escape(code::LEGACY_OCTAL, n, i),
                Some(b'8' | b'9') => return self.error_at_escape(code::ESCAPE_8_OR_9, n, i),
                _ => i += 2,
            }
        }
    }

    /// The second span is the backslash, at offset `i` of the string, and the byte after it.
    fn error_at_escape(&mut self, code: u32, n: usize, i: usize) {
        let span = self.t.span(n);
        let backslash = span.0 + i as u32;
        self.error_at_two(code, span, (backslash, backslash + 2));
    }

    // Directives and declarations.

    fn check_directive(&mut self, n: usize) {
        let t = self.t;
        let scope = t.scope(n);
        if t.name(n) != b"use strict" || t.scope_flags(scope) & IN_FUNCTION == 0 {
            return;
        }
        let function = t.scope_node(scope);
        if matches!(t.kind(function), FUNCTION | ARROW) && !t.has(function, SIMPLE_PARAMETERS) {
            self.error(code::USE_STRICT, t.span(n));
        }
    }

    fn check_variable_declaration(&mut self, n: usize) {
        let t = self.t;
        // `using` and `await using`.
        if t.extra(n) >= 3 && !t.is_module() && t.scope_flags(t.scope(n)) & TOP != 0 {
            self.error(code::USING_IN_SCRIPT, t.span(n));
        }
        if t.extra(n) == 4 && self.is_in_class_static_block(n) {
            self.error(code::AWAIT_USING_IN_STATIC_BLOCK, t.span(n));
        }
    }

    /// The held statement with this role is a Function, which as a statement is a declaration.
    fn check_function_declaration(&mut self, n: usize, role: u32, is_if: bool) {
        let t = self.t;
        let Some(stmt) = t.part(n, role).filter(|&s| t.kind(s) == FUNCTION) else { return };
        if t.strict(n) {
            self.error(code::STRICT_FUNCTION_DECLARATION, t.span(stmt));
        } else if !is_if {
            self.error(code::SLOPPY_FUNCTION_DECLARATION, t.span(stmt));
        }
    }

    fn check_function_declaration_in_labeled_statement(&mut self, n: usize) {
        let t = self.t;
        let Some(stmt) = t.part(n, BODY).filter(|&s| t.kind(s) == FUNCTION) else { return };
        if t.strict(n) {
            self.error(code::STRICT_FUNCTION_DECLARATION, t.span(stmt));
            return;
        }
        // What holds the outermost of the nested labels?
        let holder = t.ancestors(n).map(|a| t.kind(a)).find(|&kind| kind != LABELED);
        if holder.is_some_and(|kind| is_loop_kind(kind) || kind == WITH || kind == IF) {
            self.error(code::SLOPPY_FUNCTION_DECLARATION, t.span(stmt));
        }
    }

    /// An async function or a generator as body of an If or a label in sloppy code, which the Rust leaves to its parser.
    fn check_async_bodies(&mut self, n: usize) {
        let t = self.t;
        let roles: &[u32] = match t.kind(n) {
            IF => &[BODY, ALTERNATE],
            LABELED => &[BODY],
            _ => &[],
        };
        for stmt in roles.iter().filter_map(|&role| t.part(n, role)) {
            if !t.strict(n) && t.kind(stmt) == FUNCTION && t.has(stmt, ASYNC_OR_GENERATOR) {
                self.error(code::ASYNC_BODY, t.span(stmt));
            }
        }
    }

    // Statements.

    fn check_with_statement(&mut self, n: usize) {
        let (start, _) = self.t.span(n);
        if self.t.strict(n) || self.t.is_typescript() {
            self.error(code::WITH, (start, start + 4));
        }
    }

    fn check_break_statement(&mut self, n: usize) {
        let t = self.t;
        let label = t.label(n);
        for a in t.ancestors(n) {
            match (t.kind(a), label) {
                (PROGRAM, Some(label)) => return self.error(code::UNDEFINED_LABEL, t.span(label)),
                (FUNCTION | ARROW | STATIC_BLOCK, Some(label)) => {
                    return self.error(code::JUMP_OVER_A_FUNCTION, t.span(label));
                }
                (PROGRAM | FUNCTION | ARROW | STATIC_BLOCK, None) => return self.error(code::BREAK, t.span(n)),
                (LABELED, Some(label)) if self.same_label(a, label) => return,
                (kind, None) if is_loop_kind(kind) || kind == SWITCH => return,
                _ => {}
            }
        }
    }

    fn check_continue_statement(&mut self, n: usize) {
        let t = self.t;
        let label = t.label(n);
        for a in t.ancestors(n) {
            match (t.kind(a), label) {
                (PROGRAM, Some(label)) => return self.error(code::UNDEFINED_LABEL, t.span(label)),
                (FUNCTION | ARROW | STATIC_BLOCK, Some(label)) => {
                    return self.error(code::JUMP_OVER_A_FUNCTION, t.span(label));
                }
                (PROGRAM | FUNCTION | ARROW | STATIC_BLOCK, None) => return self.error(code::CONTINUE, t.span(n)),
                (LABELED, Some(label)) if self.same_label(a, label) => {
                    let mut target = t.part(a, BODY);
                    while let Some(nested) = target.filter(|&s| t.kind(s) == LABELED) {
                        target = t.part(nested, BODY);
                    }
                    if !target.is_some_and(|s| t.is_loop(s)) {
                        self.error_at_two(code::LABEL_OF_NO_LOOP, t.span_of(t.label(a)), t.span(label));
                    }
                    return;
                }
                (kind, None) if is_loop_kind(kind) => return,
                _ => {}
            }
        }
    }

    /// The Labeled has the name of this label.
    fn same_label(&self, labeled: usize, label: usize) -> bool {
        self.t.label(labeled).is_some_and(|l| self.t.name(l) == self.t.name(label))
    }

    fn check_labeled_statement(&mut self, n: usize) {
        let t = self.t;
        let Some(label) = t.label(n) else { return };
        for a in t.ancestors(n) {
            match t.kind(a) {
                FUNCTION | ARROW | STATIC_BLOCK => return,
                LABELED if self.same_label(a, label) => {
                    return self.error_at_two(code::LABEL_TWICE, t.span_of(t.label(a)), t.span(label));
                }
                _ => {}
            }
        }
    }

    fn check_for_statement_left(&mut self, n: usize, is_for_in: bool) {
        let t = self.t;
        let Some(decl) = t.part(n, LEFT).filter(|&d| t.kind(d) == VARIABLE_DECLARATION) else { return };
        let mut declarators = t.children(decl).filter(|&d| t.kind(d) == VARIABLE_DECLARATOR);
        let (Some(declarator), None) = (declarators.next(), declarators.next()) else { return };
        let is_var = t.extra(decl) == 0;
        if t.has(declarator, HAS_INITIALISER)
            && ((t.strict(n) && is_var) || !is_for_in || !t.has(declarator, PLAIN_NAME))
        {
            self.error(code::FOR_HEAD_INITIALISER, t.span(decl));
        }
    }

    fn check_for_of_statement(&mut self, n: usize) {
        if self.t.has(n, FOR_AWAIT) && self.is_in_class_static_block(n) {
            self.error(code::FOR_AWAIT_IN_STATIC_BLOCK, self.t.span(n));
        }
    }

    // Expressions.

    fn check_object_expression(&mut self, n: usize) {
        let t = self.t;
        let mut previous = None;
        for prop in t.children(n) {
            if t.kind(prop) != OBJECT_PROPERTY || t.extra(prop) != 0 || t.has(prop, IS_METHOD) {
                continue;
            }
            if key_name(t, prop) != Some(b"__proto__".as_slice()) {
                continue;
            }
            let Some(key) = t.part(prop, KEY) else { continue };
            if let Some(previous) = previous {
                self.error_at_two(code::REDECLARATION, previous, t.span(key));
            }
            previous = Some(t.span(key));
        }
    }

    fn check_unary_expression(&mut self, n: usize) {
        let t = self.t;
        if !t.has(n, IS_DELETE) {
            return;
        }
        // Within parentheses, whatever role the first child has there.
        let mut inner = t.part(n, VALUE);
        while let Some(parenthesis) = inner.filter(|&e| t.kind(e) == ANYTHING_ELSE && t.extra(e) == 1) {
            inner = t.children(parenthesis).next();
        }
        let Some(inner) = inner else { return };
        match t.kind(inner) {
            IDENTIFIER_REFERENCE if t.strict(n) => self.error(code::DELETE_OF_NAME, t.span(inner)),
            PRIVATE_FIELD => self.error(code::DELETE_OF_PRIVATE, t.span(inner)),
            CHAIN => {
                let Some(field) = t.children(inner).next().filter(|&e| t.kind(e) == PRIVATE_FIELD) else { return };
                self.error(code::DELETE_OF_PRIVATE, t.span_of(t.part_of_kind(field, PRIVATE_IDENTIFIER)));
            }
            _ => {}
        }
    }

    fn is_in_formal_parameters(&self, n: usize) -> bool {
        let t = self.t;
        let mut ancestors = t.ancestors(n).map(|a| t.kind(a)).peekable();
        while let Some(kind) = ancestors.next() {
            match kind {
                FORMAL_PARAMETER => return true,
                BINDING_REST_ELEMENT if ancestors.peek() == Some(&FORMAL_PARAMETER_REST) => return true,
                PROGRAM | FUNCTION | ARROW => return false,
                _ => {}
            }
        }
        false
    }

    fn is_in_class_static_block(&self, n: usize) -> bool {
        let t = self.t;
        let mut flags = t.scope_ancestors(t.scope(n)).map(|s| t.scope_flags(s));
        flags.find(|f| f & (IN_STATIC_BLOCK | IN_FUNCTION) != 0).is_some_and(|f| f & IN_STATIC_BLOCK != 0)
    }

    fn check_await_expression(&mut self, n: usize) {
        let (start, end) = self.t.span(n);
        if self.is_in_formal_parameters(n) {
            self.error(code::AWAIT_OR_YIELD_IN_PARAMETERS, (start, end));
        }
        if self.is_in_class_static_block(n) {
            self.error(code::AWAIT_IN_STATIC_BLOCK, (start, start + 5));
        }
    }

    fn check_yield_expression(&mut self, n: usize) {
        if self.is_in_formal_parameters(n) {
            self.error(code::AWAIT_OR_YIELD_IN_PARAMETERS, self.t.span(n));
        }
    }
}

/// Whether two elements of one name can't be in one class. A getter and a setter can: private ones if both are static
/// or both are not, public ones in any case, as any two public ones can of which one alone is static.
fn clash(previous: &Element, element: &Element) -> bool {
    let same_static = element.is_static == previous.is_static;
    let getter_and_setter =
        element.kind != previous.kind && element.kind.is_setter_or_getter() && previous.kind.is_setter_or_getter();
    if element.is_private {
        !(getter_and_setter && same_static)
    } else {
        same_static && !getter_and_setter
    }
}
