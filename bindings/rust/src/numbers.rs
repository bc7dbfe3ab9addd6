//! The numbers of the tables and answers under names. Every number has a value: what this version does not know is `Unknown`.

use std::fmt;
use std::ops::BitOr;

/// An enum of numbers, each with a sentence.
macro_rules! numbered {
    ($(#[$about:meta])* $name:ident: $($case:ident = $number:literal, $sentence:literal;)*) => {
        $(#[$about])*
        #[non_exhaustive]
        #[derive(Clone, Copy, Debug, PartialEq, Eq, Hash)]
        pub enum $name {
            $(#[doc = $sentence] $case,)*
            /// A number that this version does not know.
            Unknown(u32),
        }

        impl $name {
            /// All that this version knows, by their numbers.
            pub const ALL: &'static [$name] = &[$($name::$case),*];

            /// The number that stands for it in the tables, slices and answers.
            pub const fn number(self) -> u32 {
                match self {
                    $($name::$case => $number,)*
                    $name::Unknown(number) => number,
                }
            }

            /// What a number stands for.
            pub const fn from_number(number: u32) -> $name {
                match number {
                    $($number => $name::$case,)*
                    _ => $name::Unknown(number),
                }
            }

            /// What it says in a few words.
            pub const fn sentence(self) -> &'static str {
                match self {
                    $($name::$case => $sentence,)*
                    $name::Unknown(_) => "a number that this version does not know",
                }
            }
        }

        impl fmt::Display for $name {
            fn fmt(&self, f: &mut fmt::Formatter<'_>) -> fmt::Result {
                f.write_str(self.sentence())
            }
        }
    };
}

/// Numbers that are added up.
macro_rules! flags {
    ($(#[$about:meta])* $name:ident: $($case:ident = $number:literal, $sentence:literal;)*) => {
        $(#[$about])*
        #[derive(Clone, Copy, Debug, Default, PartialEq, Eq, Hash)]
        pub struct $name(u32);

        impl $name {
            /// None of them.
            pub const NONE: $name = $name(0);
            $(#[doc = $sentence] pub const $case: $name = $name($number);)*

            /// The number that stands for them in the tables.
            pub const fn number(self) -> u32 {
                self.0
            }

            /// What a number of the tables stands for.
            pub const fn from_number(number: u32) -> $name {
                $name(number)
            }

            /// Whether all of these are among them.
            pub const fn contains(self, these: $name) -> bool {
                self.0 & these.0 == these.0
            }
        }

        impl BitOr for $name {
            type Output = $name;

            fn bitor(self, more: $name) -> $name {
                $name(self.0 | more.0)
            }
        }
    };
}

numbered! {
    /// What a text is read as.
    SourceType:
    Script = 0, "a script";
    Module = 1, "a module";
    Typescript = 2, "a TypeScript module without ambient code";
}

numbered! {
    /// What a node is.
    Kind:
    Program = 0, "a program";
    Function = 1, "a function";
    Arrow = 2, "an arrow";
    StaticBlock = 3, "a static block";
    FunctionBody = 4, "the body of a function";
    Block = 5, "a block";
    Labeled = 6, "a statement with a label";
    For = 7, "a `for`";
    ForIn = 8, "a `for` over the keys of an object";
    ForOf = 9, "a `for` over values";
    While = 10, "a `while`";
    DoWhile = 11, "a `do` with its `while`";
    If = 12, "an `if`";
    With = 13, "a `with`";
    Switch = 14, "a `switch`";
    SwitchCase = 15, "a case of a `switch`";
    Try = 16, "a `try`";
    CatchClause = 17, "a catch clause";
    Break = 18, "a `break`";
    Continue = 19, "a `continue`";
    Return = 20, "a `return`";
    Throw = 21, "a `throw`";
    OtherStatement = 22, "another statement";
    Directive = 23, "a directive";
    VariableDeclaration = 24, "a declaration of variables";
    VariableDeclarator = 25, "a variable of a declaration";
    Class = 26, "a class";
    ClassBody = 27, "the body of a class";
    MethodDefinition = 28, "a method";
    PropertyDefinition = 29, "a field";
    AccessorProperty = 30, "an accessor";
    BindingIdentifier = 31, "a name that is declared";
    IdentifierReference = 32, "a name that is used";
    LabelIdentifier = 33, "a label";
    PrivateIdentifier = 34, "a private name";
    NumericLiteral = 35, "a number";
    StringLiteral = 36, "a string";
    Super = 37, "a `super`";
    Call = 38, "a call";
    New = 39, "a `new`";
    OtherMember = 40, "another member";
    PrivateField = 41, "a private member";
    PrivateIn = 42, "a test for a private name";
    Object = 43, "an object";
    ObjectProperty = 44, "a property of an object";
    Unary = 45, "an operator with one operand";
    Chain = 46, "an optional chain";
    Await = 47, "an `await`";
    Yield = 48, "a `yield`";
    FormalParameter = 49, "a parameter";
    FormalParameterRest = 50, "a rest parameter";
    BindingRestElement = 51, "a rest element";
    JsxAttribute = 52, "an attribute of JSX";
    ExportDefault = 53, "a default export";
    ExportNamed = 54, "a named export";
    AnythingElse = 55, "anything else";
}

numbered! {
    /// What a node is to its parent.
    Role:
    Other = 0, "any other part";
    Value = 1, "a value or an argument";
    Key = 2, "a key";
    Held = 3, "a held statement or body";
    Alternate = 4, "an alternate or a catch";
    Finally = 5, "a finally";
    Label = 6, "a label";
    Left = 7, "the left of a for";
}

numbered! {
    /// What is wrong.
    Code:
    Redeclaration = 1, "a private name of a class, or `__proto__` in an object, is declared twice; in TypeScript any name of a class";
    ReservedKeyword = 2, "a reserved word is used as a name";
    ClassStaticBlockAwait = 3, "`await` stands in a static block";
    UnexpectedIdentifierAssign = 4, "`eval` or `arguments` is assigned to or bound in strict code";
    InvalidLetDeclaration = 5, "`let` is a name in a `let`, `const` or `using` declaration";
    UnexpectedArguments = 6, "`arguments` stands in a class field or a static block";
    PrivateNotInClass = 7, "a private name stands outside any class";
    PrivateFieldUndeclared = 8, "no class around declares this private name";
    LegacyOctal = 9, "a legacy octal number or escape stands in strict code";
    LeadingZeroDecimal = 10, "a decimal number with a leading zero stands in strict code";
    NonOctalDecimalEscapeSequence = 11, "the escape `\\8` or `\\9` stands in strict code";
    IllegalUseStrict = 12, "\"use strict\" stands in a function whose parameters are not simple";
    UsingDeclarationNotAllowedInScript = 13, "`using` stands at the top of a script";
    ClassStaticBlockAwaitUsing = 14, "`await using` stands in a static block";
    FunctionDeclarationStrict = 15, "a function declaration stands where strict code takes only a statement";
    FunctionDeclarationNonStrict = 16, "a function declaration stands where only a statement may stand";
    WithStatement = 17, "`with` stands in strict code or in TypeScript";
    InvalidBreak = 18, "`break` stands outside a loop or switch";
    InvalidLabelTarget = 19, "a jump names a label that is not there";
    InvalidLabelJumpTarget = 20, "a jump leaves a function or a static block";
    InvalidContinue = 21, "`continue` stands outside a loop";
    InvalidLabelNonIteration = 22, "`continue` names a label that is on no loop";
    LabelRedeclaration = 23, "a label stands within itself";
    UnexpectedInitializerInForLoopHead = 24, "a variable in the head of a for-in or for-of has an initialiser";
    ClassStaticBlockForAwait = 25, "`for await` stands in a static block";
    RequireClassName = 26, "a class declaration has no name";
    DuplicateConstructor = 27, "a class has a second constructor";
    SuperWithoutDerivedClass = 28, "`super()` stands in a class without `extends`";
    UnexpectedSuperCall = 29, "`super()` stands where it may not";
    UnexpectedSuperReference = 30, "`super` stands where it may not";
    DeleteOfUnqualified = 31, "`delete` of a plain name stands in strict code";
    DeletePrivateField = 32, "`delete` of a private member";
    AwaitOrYieldInParameter = 33, "`await` or `yield` stands in parameters";
    AsyncBody = 34, "an async function or a generator is the body of an `if` or a label in sloppy code";
    StaticAndInstancePrivate = 35, "a static and an instance private element have one name in TypeScript";
}

numbered! {
    /// In what it is wrong.
    Context:
    None = 0, "no context";
    StrictMode = 1, "in strict code";
    Class = 2, "in a class, whose code is strict";
    Module = 3, "in a module, whose code is strict";
    ModuleAwait = 4, "`await` in a module";
}

numbered! {
    /// How a route ends.
    End:
    FellThrough = 0, "it went past the unit's last statement";
    Returned = 1, "it returned";
    Thrown = 2, "it threw";
    AnswersSpent = 3, "no answer was left for an if, a switch or a turn of a loop";
    Stopped = 4, "it was stopped under a mark";
    NoOtherEnd = 5, "it comes to no other end: the code is of no unit, or no stop on this rule and unit has set the mark";
}

numbered! {
    /// Why a call turned its input down.
    Reason:
    Sizes = 1, "a table is empty, not whole or too long, a text is too long, or there is no such source type";
    Unlisted = 2, "a node's kind, role, flags or extra is not listed";
    Tree = 3, "the nodes are no tree in preorder, or it is deeper than 512";
    Bytes = 4, "a span or a name lies outside its bytes";
    Scopes = 5, "a scope is missing, broken, or does not belong to the node that uses it";
    Walk = 6, "the Rust fails in its search from this `super`";
    Unit = 7, "the unit is no program, function, arrow or static block";
    Findings = 9, "the rule has findings, or a jump without a target";
    FindingsSlice = 10, "the findings slice is too short";
    CodeSlice = 11, "the code slice is too short";
    RouteSlice = 12, "the route slice is too short";
    Misplaced = 13, "the node stands under a parent that may not hold it, or has a kind or role that this parent doesn't take";
    WrongCount = 14, "the node has too few or too many children of some sort";
    ReturnInStatic = 15, "a return stands in a static block";
    Mark = 16, "there is no such mark, or it is not set";
    MarkPlace = 17, "the mark holds a place where no instruction of the unit's code begins";
    NoCode = 18, "the numbers are no code: an entry is no instruction, a target is none, or the last one runs on";
    Label = 19, "a label's name is one that the check of reserved words looks for, or there are 700 different labels";
    RenamedSlices = 20, "a slice for the renamed tables is too short, or their names are too long";
}

flags! {
    /// Flags of a node.
    Flags:
    STATIC = 2, "a static element of a class";
    PRIVATE_KEY = 4, "its key is a private name";
    WRITTEN = 8, "a name that is written to";
    FOR_AWAIT = 16, "`for await`";
    DECLARATION = 32, "a declaration";
    HERITAGE = 64, "a class with `extends`";
    METHOD = 128, "a method of an object";
    INITIALISER = 256, "it has an initialiser";
    TEST = 256, "a `for` with a test";
    PLAIN_NAME = 512, "its id or key is a plain name";
    SIMPLE_PARAMETERS = 1024, "its parameters are simple";
    DELETE = 2048, "`delete`";
    DEFAULT = 4096, "`default`";
    ASYNC_OR_GENERATOR = 8192, "an async function or a generator";
    NO_FIXED_NAME = 16384, "an element of a class without a fixed name, in TypeScript alone";
}

flags! {
    /// Flags of a scope.
    ScopeFlags:
    STRICT = 1, "strict code";
    TOP = 2, "the top of the text";
    FUNCTION_SCOPE = 4, "of a function";
    ARROW_SCOPE = 8, "of an arrow";
    STATIC_BLOCK_SCOPE = 16, "of a static block";
}

/// The extra numbers of nodes. A class has its scope there, and a string the bytes of its value; what is not listed has 0.
pub mod extras {
    /// Of a declaration of variables: `var`.
    pub const VAR: u32 = 0;
    /// The same: `let`.
    pub const LET: u32 = 1;
    /// The same: `const`.
    pub const CONST: u32 = 2;
    /// The same: `using`.
    pub const USING: u32 = 3;
    /// The same: `await using`.
    pub const AWAIT_USING: u32 = 4;
    /// Of a method: the constructor.
    pub const CONSTRUCTOR: u32 = 0;
    /// The same: no accessor.
    pub const PLAIN_METHOD: u32 = 1;
    /// The same: a getter.
    pub const GET: u32 = 2;
    /// The same: a setter.
    pub const SET: u32 = 3;
    /// Of a number: decimal without a point.
    pub const DECIMAL: u32 = 0;
    /// The same: with a point or a negative exponent, also behind a leading zero.
    pub const FLOAT: u32 = 1;
    /// The same: binary.
    pub const BINARY: u32 = 2;
    /// The same: octal, also a legacy one.
    pub const OCTAL: u32 = 3;
    /// The same: hexadecimal.
    pub const HEXADECIMAL: u32 = 4;
    /// Of a property of an object: no accessor.
    pub const INIT: u32 = 0;
    /// The same: a getter.
    pub const PROPERTY_GET: u32 = 1;
    /// The same: a setter.
    pub const PROPERTY_SET: u32 = 2;
    /// Of anything else: brackets around an expression.
    pub const PARENTHESIS: u32 = 1;
}
