'use strict';
// For people: what is wrong and what to write instead, for each code; why a rule was turned down, for each refusal.

// code: [what is wrong, what to write instead]
const CODES = {
  1: ['this name is declared twice in the class or object', 'give one of the two another name'],
  2: ['a reserved word is used as a name', 'choose another name'],
  3: ['`await` stands in a static block', 'use another name, or move the code out of the static block'],
  4: ['`eval` or `arguments` is assigned to in strict code', 'use a name of your own'],
  5: ['`let` is used as a name in a declaration', 'choose another name'],
  6: ['`arguments` stands in a class field or static block', 'use a parameter of a method'],
  7: ['a private name is used outside of any class', 'use it inside the class that declares it'],
  8: ['no class around declares this private name', 'declare it in the class, or mend its spelling'],
  9: ['a legacy octal number or escape in strict code', 'write 0o17 for a number, \\x0f for an escape'],
  10: ['a decimal number begins with 0 in strict code', 'leave the leading 0 out'],
  11: ['the escape \\8 or \\9 in strict code', 'write the digit without a backslash'],
  12: ['"use strict" stands in a function whose parameters are not simple', 'put it at the top of the file'],
  13: ['`using` stands at the top of a script', 'put it in a block or function, or make the rule a module'],
  14: ['`await using` stands in a static block', 'write `using`, or move it out of the static block'],
  15: ['a function is declared where strict code takes only a statement', 'put braces around it'],
  16: ['a function is declared where only a statement may stand', 'put braces around it'],
  17: ['`with` stands in strict code or in TypeScript', 'name the object in front of each property'],
  18: ['`break` stands outside of a loop or switch', 'take it out, or put the code into a loop'],
  19: ['there is no such label around this jump', 'mend the label, or put it on a statement around'],
  20: ['this jump would leave a function or static block', 'return a value and jump outside'],
  21: ['`continue` stands outside of a loop', 'take it out, or put the code into a loop'],
  22: ['`continue` names a label that is on no loop', 'put the label on the loop, or write `break`'],
  23: ['this label stands within a statement of the same label', 'give it another name'],
  24: ['a variable in the head of a for-in or for-of has a value', 'set it in front of the loop'],
  25: ['`for await` stands in a static block', 'move the loop into an async function'],
  26: ['a class declaration has no name', 'give it one'],
  27: ['the class has a second constructor', 'keep one'],
  28: ['`super()` stands in a class without `extends`', 'take it out, or let the class extend another'],
  29: ['`super()` stands outside of a constructor', 'call it in the constructor alone'],
  30: ['`super` stands outside of a method', 'use it in a method, field or static block of a class, or in a method of an object'],
  31: ['`delete` of a plain name in strict code', 'set the variable to undefined'],
  32: ['`delete` of a private member', 'set it to undefined'],
  33: ['`await` or `yield` stands in the parameters of a function', 'move it into the body'],
  34: ['an async function or generator is the body of an if or label', 'put braces around it'],
  35: ['a static and an instance element have one private name', 'give one of the two another name'],
};

// refusal: why the tables were turned down
const REFUSALS = {
  0: 'this line of the table can\'t be read or is missing',
  1: 'a table is empty, not whole or too long, the source or the names are too long, or there is no such source type',
  2: 'the kind, role, flags or extra of this node is not listed',
  3: 'the nodes are no tree in preorder, or it is deeper than 512',
  4: 'a span or name of this node lies outside of its bytes',
  5: 'a scope is missing, broken, or does not belong to the node that uses it',
  6: 'the Rust fails in its search from this `super`',
  7: 'this number names no program, function, arrow or static block',
  9: 'the rule has an early error, or a jump without a target: check it first',
  10: 'the slice for the findings is too short',
  11: 'the slice for the code is too short',
  12: 'the route is longer than its slice',
  13: 'this node stands under a parent that does not take it, or not in this role',
  14: 'this node has too few or too many children of some sort',
  15: 'a return stands in a static block, where it has no meaning',
  16: 'there is no such mark, or it is not set',
  17: 'the mark holds a place where no instruction of this unit begins',
  19: 'the name of this label is a reserved word in some code, or there are 700 different labels',
  20: 'the names are longer than their slice',
};

const CONTEXTS = ['', 'in strict code', 'in a class, whose code is strict', 'in a module, whose code is strict', '`await` in a module'];

module.exports = { CODES, REFUSALS, CONTEXTS };
