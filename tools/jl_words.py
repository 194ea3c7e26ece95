"""The words for every fault of a script and every error of a run, in one table: what is wrong, what to write instead, and a script that
raises it. `jl-explain` shows them, docs/LANGUAGE.md cites them, and tools/tests/test_explain.py runs each example.

TEXTS has the faults of a text that is no script, SCRIPTS those of a script that is no program, RUNS the errors of a run, each by the name or
the form that `jl` writes. HINTS and NAMES say more of single places: the first hint whose patterns fit the text there is shown."""

from typing import NamedTuple


class Word(NamedTuple):
    """A fault or an error."""

    name: str  # of a fault; of an error of a run, the name of this table
    says: str
    write: str
    example: str
    form: str = ""  # of an error of a run: what its text matches, a regular expression
    options: tuple = ()  # of the command, for the example


class Hint(NamedTuple):
    """What is known of a place. `before` is matched with all of the text before it, and ends there; `there` with the text from it on."""

    fault: str
    before: str
    there: str
    says: str
    write: str
    example: str


DELETION = (
    "`Base.delete_method(which(f, Tuple{Int64}))` deletes `f(x::Int64)`; `Tuple{Any}` is for a parameter without a type, `Tuple{}` for none, and "
    "`(Tuple{T, T} where T)` where the definition has a `where`."
)
ONE_TUPLE = "Which method is deleted is said by one tuple: the types of its parameters."


def deep(depth):
    return "x = " + "(" * depth + "1" + ")" * depth + "\n"


TEXTS = [
    Word(
        "SourceTooLong",
        "A script has at most 1,048,576 bytes.",
        "Write a shorter one.",
        "#" * 1_048_577,
    ),
    Word(
        "BadUtf8",
        "The bytes from here on are no UTF-8.",
        "Save the file as UTF-8.",
        "# \udcff\n",
    ),
    Word(
        "BadCharacter",
        "No token begins or goes on with this character.",
        "The table of tokens in docs/LANGUAGE.md has all of them.",
        "x = 2^3\n",
    ),
    Word(
        "NumberTooLarge",
        "A number is at most 9223372036854775807, and at least -9223372036854775808.",
        "Write a smaller one.",
        "x = 9223372036854775808\n",
    ),
    Word(
        "OpenString",
        "This string does not end.",
        'Write `"` at its end.',
        'println("abc)\n',
    ),
    Word(
        "OpenComment",
        "This comment does not end.",
        "Write `=#` at its end; such comments nest.",
        "#= a #= b =#\n",
    ),
    Word(
        "Syntax",
        "No script has this token here.",
        "The rules of the grammar are in docs/LANGUAGE.md.",
        "println(1) println(2)\n",
    ),
    Word(
        "BadType",
        "A type belongs here.",
        "Write the name of a type, with its arguments in braces, or a type and its `where` in parentheses.",
        "f(x::3) = x\n",
    ),
    Word(
        "TooDeep",
        "This item nests deeper than 500.",
        "Give the inner parts names, or put them in functions.",
        deep(500),
    ),
]

SCRIPTS = [
    Word(
        "UnknownName",
        "No variable of this name can be seen here. Types, functions and type variables are no values.",
        "Bind the name before, in the same body, or at the top for an expression at the top.",
        "println(x)\n",
    ),
    Word(
        "UnknownFunction",
        "This is neither a struct nor a built-in function, and no method of it is in the script.",
        "Define it, before or after its use.",
        "f(1)\n",
    ),
    Word(
        "UnknownType",
        "This type is not declared before, and is no type variable here.",
        "Declare it first: `struct P .. end` or `abstract type P end`.",
        "struct P <: R end\n",
    ),
    Word(
        "Rebound",
        "This name is bound already. A name keeps its value as long as it can be seen.",
        "Bind a new name: `y = x + 1` in place of `x = x + 1`; in a loop of calls the new value is an argument of the next call.",
        "x = 1\nx = 2\n",
    ),
    Word(
        "DuplicateType",
        "A type of this name is declared already.",
        "Give one of the two another name.",
        "abstract type A end\nabstract type A end\n",
    ),
    Word(
        "WrongParameterCount",
        "This type does not have its arguments: in a declaration and a constructor with braces all of them, elsewhere at most as many as declared.",
        "Write as many as the declaration has parameters.",
        "struct Box{T}; x::T end\nf(x::Box{Int64, Bool}) = 1\n",
    ),
    Word(
        "SuperNotAbstract",
        "Only an abstract type has types below it.",
        "Declare an abstract type, and put both below it.",
        "struct P <: Int64 end\n",
    ),
    Word(
        "VariablePlace",
        "A type variable may not be in a union or a tuple within an argument or a bound, nor be a bound or in a lower one; no `<:B`, `where` or missing argument may be within an argument or a bound.",
        "Give that type a name of its own: `Box{S}` with `where S`.",
        "struct Box{T}; x::T end\nf(b::Box{Union{T, Nothing}}) where T = 1\n",
    ),
    Word(
        "TypeLimit",
        "This type is too large: more than 1,024 nodes, or more than 256 alternatives of its unions.",
        "Use fewer unions in one signature, or an abstract type in place of a union.",
        "f(a::U, b::U, c::U, d::U, e::U, g::U) = 1\n".replace("U", "Union{Int64, Bool, Nothing}"),
    ),
    Word(
        "BoundsCrossed",
        "No type is between these two bounds.",
        "Turn them round: the lower bound comes first, as in `Int64<:T<:Number`.",
        "f(x::T, y::T) where Int64<:T<:Bool = 1\n",
    ),
    Word(
        "BoundBroken",
        "This argument is outside the bound that the declaration gives it.",
        "Write an argument that is below the bound.",
        "struct Q{T<:Signed}; x::T end\nf(x::Q{Bool}) = 1\n",
    ),
    Word(
        "TooMany",
        "A script has at most 1,024 types, and a type 8 parameters, 64 fields and 64 ancestors.",
        "Put some fields in a struct of their own.",
        "struct P{A, B, C, D, E, F, G, H, I} end\n",
    ),
    Word(
        "DuplicateField",
        "Two fields of this struct have one name.",
        "Give one of the two another name.",
        "struct P; x; x end\n",
    ),
    Word(
        "UnusedVariable",
        "A variable of this `where` is in no parameter.",
        "Use it in the signature, or leave it out.",
        "f(x) where T = 1\n",
    ),
    Word(
        "TooManyParameters",
        "A method has at most 8 parameters.",
        "Put some of them in a struct or a tuple.",
        "f(a, b, c, d, e, g, h, i, j) = 1\n",
    ),
    Word(
        "TooManySites",
        "A script has at most 4,096 definitions.",
        "Write a shorter one.",
        "f() = 1\n" * 4_097,
    ),
    Word(
        "StaticParameterUse",
        "Not every call gives this type variable a value: it is in a union of the signature. Or the fields of this struct do not tell all its parameters.",
        "Write the type itself, and of a constructor its arguments in braces: `Box{Int64}(1)`.",
        "f(x::Union{T, Nothing}) where T = 1 isa T\n",
    ),
    Word(
        "NameClash",
        "This is a built-in name, or a name of both a function and a type.",
        "Take another name; methods are added to a built-in function as `Base.div(..)` or `Base.:+(..)`.",
        "println(x) = 1\n",
    ),
    Word(
        "TooManyArguments",
        "A call of a function has at most 8 arguments.",
        "Put some of them in a struct or a tuple.",
        "f(x) = 1\nf(1, 2, 3, 4, 5, 6, 7, 8, 9)\n",
    ),
    Word(
        "BadType",
        ONE_TUPLE,
        DELETION,
        "f(x) = 1\nBase.delete_method(which(f, Int64))\n",
    ),
]

RUNS = [
    Word(
        "no method",
        "No method of this function that the world of the call has takes arguments of these types.",
        "Define one that does, before the call; code that runs already sees later ones only by `Base.invokelatest`.",
        "f(x::Bool) = x\nf(1)\n",
        r"MethodError: no method matching (?P<function>[^\s({]+)\((?P<types>.*)\) in world (?P<world>\d+)",
    ),
    Word(
        "ambiguous",
        "Two methods take these arguments, and none is more specific than all others.",
        "Define one for just these types.",
        "f(x::Int64, y) = 1\nf(x, y::Int64) = 2\nf(1, 2)\n",
        r"MethodError: (?P<function>[^\s({]+)\((?P<types>.*)\) is ambiguous between definitions (?P<one>\d+) and (?P<other>\d+)",
    ),
    Word(
        "no constructor",
        "This struct is not built from so many values, or its parameters do not follow from these.",
        "Give a value for each field, in their order, and where need be the arguments in braces: `P{Int64}(1, 2)`.",
        "struct P; x; y end\nP(1)\n",
        r"MethodError: no method matching (?P<type>\S.*)\((?P<types>.*)\)",
    ),
    Word(
        "division",
        "A number was divided by 0, or -9223372036854775808 by -1.",
        "Test the divisor first.",
        "println(div(1, 0))\n",
        r"DivideError: integer division error",
    ),
    Word(
        "nothing to delete",
        "No method of this function has this signature in the newest world: none was made so far, or it is deleted already.",
        "The types as the definition has them, `Any` for a parameter without one; a more general method is not looked for.",
        "f(x) = 1\nBase.delete_method(which(f, Tuple{Int64}))\n",
        r"NoSuchMethod: (?P<function>\S+)",
    ),
    Word(
        "type of a field",
        "This field does not take a value of this type. A constructor converts nothing.",
        "Give a value of the field's type, or declare the field with a wider one.",
        "struct P; x::Int64 end\nP(true)\n",
        r"TypeError: field (?P<field>\S+) of (?P<type>.+) got (?P<got>.+)",
    ),
    Word(
        "bound of a parameter",
        "This type has an argument that is outside its declared bound.",
        "Ask for the bound in the signature, so that only such calls come: `where T<:Signed`.",
        "struct Q{T<:Signed}; x::T end\nmake(x::T) where T = Q{T}(x)\nmake(true)\n",
        r"TypeError: (?P<type>.+) breaks a declared bound",
    ),
    Word(
        "not a truth value",
        "What `if`, `? :`, `&&` and `||` test is `true` or `false`, and no number or other value.",
        "Compare: `x == 0`, `x === nothing`.",
        "if 1; println(2); end\n",
        r"TypeError: non-boolean \((?P<type>.+)\) used in boolean context",
    ),
    Word(
        "no field",
        "A value of this type has no field of this name.",
        "Write a method for this type, so that the function is not called with it.",
        "struct P; x end\nprintln(P(1).y)\n",
        r"FieldError: (?P<type>.+) has no field (?P<field>\S+)",
    ),
    Word(
        "no part",
        "A tuple has the parts from 1 to its length, and other values have none.",
        "Write a method for this type, or a smaller number.",
        "t = (1, 2)\nprintln(t[3])\n",
        r"BoundsError: (?P<type>.+) has no part (?P<part>\d+)",
    ),
    Word(
        "not a task",
        "Only a task is fetched.",
        "Fetch what `Threads.@spawn` gave.",
        "fetch(1)\n",
        r"NotTask: (?P<type>.+)",
    ),
    Word(
        "failed task",
        "The task that is fetched here has failed itself.",
        "See its own error.",
        "t = Threads.@spawn div(1, 0)\nfetch(t)\n",
        r"TaskFailedException: task (?P<task>\d+)",
    ),
    Word(
        "fuel",
        "The task has made all the calls that it may make. Calls of `+` and the like count too.",
        "Give more: `--fuel N`, at most 1,000,000,000. If it is a recursion without an end, mend that.",
        "again() = again()\nagain()\n",
        r"FuelSpent: (?P<calls>\d+) calls",
        ("--fuel", "1000"),
    ),
    Word(
        "open calls",
        "Too many calls of one task wait for each other.",
        "If it is a recursion without an end, mend that; else halve the work in each call, so that the calls nest less deeply.",
        "down(n) = 1 + down(n + 1)\ndown(0)\n",
        r"StackOverflowError: 100000 open calls",
    ),
    Word(
        "worlds",
        "A run has at most 65,535 worlds, and each definition and deletion makes one.",
        "Define and delete less often.",
        "again(n) = n == 0 ? 0 : begin @eval f() = 1; again(n - 1) end\nagain(65530)\n",
        r"WorldLimit: 65535 worlds",
    ),
    Word(
        "tasks",
        "A run has at most 4,096 tasks, the first one included.",
        "Start a task only for a larger part of the work.",
        "again(n) = n == 0 ? 0 : begin Threads.@spawn 1; again(n - 1) end\nagain(4096)\n",
        r"TaskLimit: 4096 tasks",
    ),
    Word(
        "size of a type",
        "The type of this value is too large: more than 1,024 nodes.",
        "Declare fields with an abstract type or none, in place of a parameter for each.",
        "grow(n, t) = n == 0 ? t : grow(n - 1, (t, t))\ngrow(12, 1)\n",
        r"TypeLimit",
    ),
    Word(
        "size of a value",
        "A value has at most 1,000,000 nodes, and nests at most 2,000 deep.",
        "Make a tree in place of a long list.",
        "struct Cell; head; tail end\nlist(n, l) = n == 0 ? l : list(n - 1, Cell(n, l))\nlist(2001, nothing)\n",
        r"ValueLimit",
    ),
]

LOOP = "A function that calls itself: `each(i, n) = i <= n ? begin println(i); each(i + 1, n) end : nothing`, then `each(1, 3)`."
LIST = "A struct for a list: `struct Cell; head; tail end`, built as `Cell(1, Cell(2, nothing))`; or a tuple, `(1, 2)`, whose parts are `t[1]` and `t[2]`."
PLAIN = "A function that has a name; its methods do what a function value would, chosen by the type of an argument such as `struct Double end`."
IN_CALL = r"[\w!]\((?:[^()\n]|\([^()\n]*\))*\Z"
IN_PARENS = r"\((?:[^()\n]|\([^()\n]*\))*\Z"


def word(names, says, write, example):
    return Hint("Syntax", "", rf"(?:{names})\b", says, write, example)


HINTS = [
    # ---- words without a use
    word("for|while", "`{0}` is not in the language: there are no loops.", LOOP, "for i in 1:3\n    println(i)\nend\n"),
    word("break|continue", "`{0}` is not in the language: there are no loops.", LOOP, "f(x) = begin break; 1 end\n"),
    word(
        "try|catch|finally",
        "`{0}` is not in the language: no error is caught.",
        "A test before the call that would fail; or a task, whose failure reaches only the one that fetches it.",
        "try\n    f()\ncatch\nend\n",
    ),
    word("let", "`let` is not in the language.", "`begin .. end`: names that are bound in it end with it.", "let x = 1\n    x\nend\n"),
    word("do", "`do` is not in the language: functions are no values.", PLAIN, "f(x) = x\nf(1) do x\n    x\nend\n"),
    word(
        "mutable",
        "`mutable` is not in the language: no struct is ever changed.",
        "`struct`, and a function that builds a new one: `with_x(p, x) = P(x, p.y)`.",
        "mutable struct P\n    x\nend\n",
    ),
    word("primitive", "`primitive` is not in the language.", "`struct P; bits::Int64 end`.", "primitive type P 8 end\n"),
    word("module|baremodule", "`{0}` is not in the language: a script is one file.", "Leave it out, with its `end`.", "module M\nend\n"),
    word(
        "using|import|export",
        "`{0}` is not in the language: there are no modules.",
        "Leave it out; methods are added to a built-in function as `Base.div(..)` or `Base.:+(..)`.",
        "using Test\n",
    ),
    word(
        "const",
        "`const` is not in the language: no name is ever bound again.",
        "`N = 3`; a body sees no variable of the script, so for bodies write a function: `N() = 3`.",
        "const N = 3\n",
    ),
    word("global|local", "`{0}` is not in the language.", "Leave it out: a name is bound where it is written. A body sees no variable of the script.", "global x = 1\n"),
    word("macro", "`macro` is not in the language.", "A function.", "macro m()\nend\n"),
    # ---- operators
    Hint(
        "Syntax",
        r"\S\s*[-+*÷%]\Z",
        r"=(?!=)",
        "A name is not bound again, so there is no `+=`.",
        "A new name, `y = x + 1`; in a loop of calls the new value is an argument of the next call.",
        "x = 1\nx += 1\n",
    ),
    Hint("Syntax", r"-\Z", r">", "There are no functions without a name.", PLAIN, "f = x -> x + 1\n"),
    Hint("Syntax", "", r"=>", "There are no pairs and no dictionaries.", "A struct for a pair; examples/dictionary.jl has a search tree.", "d = Dict(1 => 2)\n"),
    Hint("Syntax", r"\.\Z", r"[-+*÷%<>=!(]", "No operator and no function is applied part by part.", "A function that goes over the parts.", "f(x) = x .+ 1\n"),
    Hint(
        "Syntax",
        r"(?:==|!=|<=|>=|<|>)[^\n&|;?]*\Z",
        r"(?:===|!==|==|!=|<=|>=|<|>)",
        "A comparison has two sides.",
        "Two of them: `a <= b && b <= c`.",
        "f(a, b, c) = a <= b <= c\n",
    ),
    Hint(
        "BadCharacter", "", r"\^", "There is no `^`.", "`x * x`, or a function: `power(x, n) = n == 0 ? 1 : x * power(x, n - 1)`.", "println(2^3)\n"
    ),
    Hint("BadCharacter", "", r"/", "There is no `/`, since all numbers are whole.", "`div(a, b)` or `a ÷ b`, and `a % b` for what is left.", "println(1 / 2)\n"),
    Hint("BadCharacter", "", r"\|>", "There is no `|>`.", "The call itself: `f(x)`.", "f(x) = x\n1 |> f\n"),
    Hint("BadCharacter", r"::\s*[\w{}, ]+\Z", r"\|", "Types are not joined by `|`.", "`Union{A, B}`.", "f(x::Int|Bool) = 1\n"),
    Hint("BadCharacter", "", r"[&|]", "`{0}` of bits is not in the language.", "`&&` and `||` for truth values.", "f(x, y) = x & y\n"),
    Hint("BadCharacter", "", r"~", "`~` is not in the language.", "`!` for truth values; `-x - 1` is what `~x` is of a number.", "f(x) = ~x\n"),
    Hint("BadCharacter", "", r"≤", "There is no `≤`.", "`<=`.", "f(x) = x ≤ 1\n"),
    Hint("BadCharacter", "", r"≥", "There is no `≥`.", "`>=`.", "f(x) = x ≥ 1\n"),
    Hint("BadCharacter", "", r"≠", "There is no `≠`.", "`!=`, or `!==` for values that are no numbers.", "f(x) = x ≠ 1\n"),
    Hint("BadCharacter", "", r"[∈∉∋]", "There are no sets and no `in`.", "A function that goes over a list.", "f(x, l) = x ∈ l\n"),
    # ---- numbers, characters and strings
    Hint("BadCharacter", r"\d\Z", r"\.", "All numbers are whole.", "A fraction as two numbers; examples/fractions.jl has them.", "x = 1.5\n"),
    Hint("BadCharacter", r"(?<!\w)\d+\Z", r"e[-+]?\d", "All numbers are whole, and written in full.", "The number in full: `100000`.", "x = 1e5\n"),
    Hint("BadCharacter", r"(?<!\w)0\Z", r"[xbo][0-9a-fA-F]", "Numbers are decimal.", "The number in decimal.", "x = 0x1f\n"),
    Hint("BadCharacter", r"\d\Z", r"[^\W\d]\w*", "A number and a name side by side are no product here.", "`*` between them, as in `2 * x`.", "f(x) = 2x\n"),
    Hint(
        "BadCharacter",
        r'"(?:[^"\\\n]|\\.)*\Z',
        r"\$",
        "A string holds no values.",
        'Commas: `println("x = ", x)`; a dollar sign is `\\$`.',
        'x = 1\nprintln("x = $x")\n',
    ),
    Hint("BadCharacter", "", r"\$", "Nothing is put into evaluated code.", "An argument of a method that it defines: evaluated code sees no names around it.", "f(x) = @eval $x\n"),
    Hint("BadCharacter", r"[\w)\]]\Z", r"'", "There is no transposing.", "A function.", "f(x) = x'\n"),
    Hint("BadCharacter", "", r"'", "There are no characters.", "A number, or a struct without fields for each: `struct Plus end`.", "c = 'a'\n"),
    Hint("BadCharacter", r"\A\Z", "\ufeff", "The file begins with a byte order mark.", "Save it as UTF-8 without one.", "\ufeffx = 1\n"),
    Hint("Syntax", r"\bprint(?:ln)?\s+\Z", r'"', "A call has parentheses.", '`println("text")`.', 'println "text"\n'),
    Hint("Syntax", r'"\s*\Z', r'[*"]', "Strings are not joined.", 'Commas: `println("a", "b")`.', 'println("a" * "b")\n'),
    Hint("Syntax", r"(?:\A|\n)\s*\Z", r'"', "A string is no value, so it can't be a statement, and there are no docstrings.", "A comment: `# what it does`.", '"doubles"\nf(x) = 2 * x\n'),
    Hint(
        "Syntax",
        r"\berror\(\s*\Z",
        r'"',
        "There is no `error`, and a string is no value.",
        "`div(1, 0)` fails on purpose; better is to give `nothing` and to test it with `=== nothing`.",
        'f(x) = x > 0 ? x : error("negative")\n',
    ),
    Hint("Syntax", "", r'"', "A string is no value: it may only be in `print` and `println`, alone between two commas.", "A number, or a struct without fields for each text: `struct Red end` with `show(c::Red) = print(\"red\")`.", 'x = "text"\n'),
    # ---- names, calls and definitions
    Hint("Syntax", r"\w\Z", r"!(?!=)", "A name has no `!` in it.", "The name without it; nothing is ever changed in place, so such a function gives the new value.", "push!(l, x) = l\n"),
    Hint("Syntax", "", r"\.\.", "There are no `...`: a function has a fixed number of parameters.", "A method for each number of them, or one that takes a list or a tuple.", "f(x...) = x\n"),
    Hint("Syntax", r"(?:\A|\n)[^\n=]*\)\s*\Z", r"::", "A method has no return type.", "Leave it out.", "f(x)::Int = x\n"),
    Hint("Syntax", IN_CALL, r"::[^\n]*\)\s*::", "A method has no return type.", "Leave it out.", "f(x::Int64)::Int64 = x\n"),
    Hint(
        "Syntax",
        IN_CALL,
        r"::",
        "The arguments of a call have no types, and this is no method: after the `)` of a method comes `=` or `where`.",
        "`f(x::Int64) = ..`, or `function f(x::Int64) .. end`.",
        "f(x::Int64) x + 1\n",
    ),
    Hint(
        "Syntax",
        r"\bBase\.delete_method\(\s*(?:\w+\s*)?\Z",
        r"",
        "A deletion has the form `Base.delete_method(which(f, Tuple{..}))`.",
        DELETION,
        "f(x::Int64) = 1\nBase.delete_method(f)\n",
    ),
    Hint(
        "Syntax",
        r"\bdelete_method\(\s*which\([^\n;]*\Z",
        r"[),+\-*÷%<=!]",
        "A deletion has the form `Base.delete_method(which(f, Tuple{..}))`.",
        DELETION,
        "f(x::Int64) = 1\nBase.delete_method(which(f, (Int64,)))\n",
    ),
    Hint(
        "UnknownType",
        r"\bdelete_method\(\s*which\([^\n;]*\Z",
        r"[A-Z]\d?\b",
        "A deletion sees no type variable of the method around it.",
        "A `where` of its own: `(Tuple{T} where T)`.",
        "f(x::T) where T = Base.delete_method(which(f, Tuple{T}))\n",
    ),
    Hint(
        "BadType",
        r"\bdelete_method\(\s*which\(\s*\w+\s*,\s*\Z",
        r"",
        ONE_TUPLE,
        DELETION,
        "f(x::Int64) = 1\nBase.delete_method(which(f, Int64))\n",
    ),
    Hint("Syntax", r"invokelatest\(\s*\Z", r"\W|\d", "`Base.invokelatest` takes the name of a function first.", "`Base.invokelatest(f, x)`.", "Base.invokelatest(1)\n"),
    Hint("Syntax", r"\w\s*\Z", r"::", "Only a parameter and a field have a type, not a variable.", "Leave it out; `x isa T` asks for the type of a value.", "f() = begin\n    x::Int = 3\nend\n"),
    Hint("Syntax", r"\.\s*\w+\s*\Z", r"=(?!=)", "A field is never changed.", "A new struct: `P(1, p.y)`.", "f(p) = begin\n    p.x = 1\nend\n"),
    Hint("Syntax", r"\]\s*\Z", r"=(?!=)", "A part is never changed.", "A new tuple or list.", "f(t) = begin\n    t[1] = 2\nend\n"),
    Hint("Syntax", r"\bfunction\b[^\n]*\)\s*\Z", r"=(?!=)", "A method has either `function .. end` or `=`.", "One of the two.", "function f(x) = x\n"),
    Hint("Syntax", r"@eval\s+\w+\s*\Z", r"=(?!=)", "Evaluated code binds no names.", "A function of no parameters: `@eval x() = 1`.", "@eval x = 1\n"),
    Hint("Syntax", r"(?:\A|\n)\s*[-!+]\s*\w+\s*\Z", r"=(?!=)", "A method of an operator is written with `Base`.", "`Base.:-(x::P) = ..`, `Base.:!(x::P) = ..`.", "struct P end\n-p = 1\n"),
    Hint(
        "Syntax",
        IN_CALL,
        r"=(?!=)",
        "A parameter has no default, and an argument no name.",
        "A second method with fewer parameters: `f(x) = f(x, 2)`; the arguments in their order.",
        "f(x, y=2) = x + y\n",
    ),
    Hint("Syntax", IN_PARENS, r"=(?!=)", "The parts of a tuple have no names.", "A struct; or a tuple without names, whose parts are `t[1]` and `t[2]`.", "t = (a=1, b=2)\n"),
    Hint("Syntax", r"(?:\A|\n|;)\s*\w+\s*=[^\n;]*\Z", r"=(?!=)", "One name is bound by one `=`.", "Two lines.", "a = b = 1\n"),
    Hint("Syntax", IN_CALL, r";", "There are no keyword arguments.", "Parameters in their order, and a second method for what may be left out.", "f(x; k=1) = x\n"),
    Hint("Syntax", IN_PARENS, r";", "Statements are not joined in parentheses.", "`begin a; b end`.", "f() = (1; 2)\n"),
    Hint("Syntax", r"(?:\A|\n|;)\s*\w+\s*\Z", r",", "One name is bound by one `=`.", "The tuple first, then its parts: `t = (1, 2)`, `a = t[1]`, `b = t[2]`.", "a, b = (1, 2)\n"),
    Hint("Syntax", r"\breturn\b[^\n]*\Z", r",", "A tuple is written in parentheses.", "`return (1, 2)`.", "function f()\n    return 1, 2\nend\n"),
    Hint("Syntax", r"[=(,]\s*\Z", r"function\b", "There are no functions without a name.", PLAIN, "f = function (x) x end\n"),
    Hint("Syntax", "", r"isa\s*\(", "`isa` stands between a value and a type.", "`x isa Int64`.", "println(isa(1, Int64))\n"),
    Hint("Syntax", r"(?:\|\||&&|\?|:)\s*\Z", r"return\b", "`return` is a statement of a body, not a part of an expression.", "`if c; return x; end` in a line of its own.", "function f(x)\n    x == 0 && return 1\n    2\nend\n"),
    Hint("Syntax", r"\)\s*=\s*\Z", r"return\b", "The body after `=` is one expression, whose value is given.", "The expression without `return`.", "f() = return 1\n"),
    Hint("Syntax", r"(?:@spawn|@eval|\bquote)\b[\s\S]*\Z", r"return\b", "A `return` may not be in a task nor in evaluated code.", "The value as the last statement.", "f() = Threads.@spawn begin return 1 end\n"),
    Hint("Syntax", "", r"return\b", "A `return` may only be in the body of a method.", "The value alone, or a function round it.", "return 1\n"),
    Hint(
        "Syntax",
        r"(?:\A|[^\n])\S[ \t]*\Z|@eval\s+\Z",
        r"(?:struct|abstract)\b",
        "A type is declared at the top of the script.",
        "The declaration in a line of its own, outside of all blocks; evaluated code declares none.",
        "@eval struct P end\n",
    ),
    Hint(
        "Syntax",
        r"\bstruct\s+\w+(?:\{[^}\n]*\})?(?:\s*<:\s*[^\n;]+?)?[ \t]+\Z",
        r"\w",
        "The fields of a struct begin in the next line.",
        "A newline or `;` after its name.",
        "struct P x::Int end\n",
    ),
    Hint(
        "Syntax",
        r"\bstruct\b(?:(?!\bend\b)[^\0])*\w\Z",
        r"\(",
        "A struct has fields and no constructor of its own.",
        "A function after it: `make(x) = P(x, 0)`.",
        "struct P\n    x\n    P(x) = new(x)\nend\n",
    ),
    Hint(
        "Syntax",
        r"(?:\A|\n)\s*\w+(?:\{[^}\n]*\})\([^\n]*\)\s*\Z",
        r"where\b|=(?!=)",
        "A struct has no constructor but the one that takes all its fields.",
        "A function of another name: `make(x) = P{Int64}(x)`.",
        "struct P{T}; x::T end\nP{T}() where T = P{T}(1)\n",
    ),
    # ---- brackets, ranges and symbols
    Hint("Syntax", r"\[\s*\Z", r"[^\d\s]", "Only a number from 1 on may be in `[ ]`: there are no arrays and no dictionaries.", LIST, "f(e, i) = e[i]\n"),
    Hint("Syntax", r"\[\s*\Z", r"0", "The parts of a tuple are counted from 1.", "`t[1]`.", "f(t) = t[0]\n"),
    Hint("Syntax", r"\[\d+\s*\Z", r",", "One number is in `[ ]`.", "A tuple of tuples: `t[1][2]`.", "f(t) = t[1, 2]\n"),
    Hint("Syntax", "", r"\[", "There are no arrays.", LIST, "xs = [1, 2, 3]\n"),
    Hint("Syntax", r"\beval\(\s*\Z", r":", "Code is not quoted by `:`.", "`@eval e`, or `eval(quote .. end)`.", "eval(:(f() = 1))\n"),
    Hint("Syntax", r"(?:\A|[=(,;\n])\s*\Z", r":\(", "Code is no value.", "`@eval e`, or `eval(quote .. end)`, evaluates it where it is written.", "e = :(1 + 2)\n"),
    Hint("Syntax", r"(?:\A|[=(,;\n?:]|[=!<>]=)\s*\Z", r":\s*[\w+*÷%<>!-]", "There are no symbols.", "A struct without fields for each: `struct Red end`, and `Red()`.", "s = :red\n"),
    Hint("Syntax", r"[\w)\]]\s*\Z", r":(?!:)", "There are no ranges.", "Two numbers, and a function that goes from the one to the other. " + LOOP, "r = 1:3\n"),
    # ---- macros
    Hint("Syntax", r"Threads\.\Z", r"@\w+", "`Threads.{0}` is not in the language.", "`Threads.@spawn e` for each part, and `fetch`.", "Threads.@threads 1\n"),
    Hint("Syntax", "", r"@(?:a?sync|spawn)\b", "`{0}` is not in the language.", "`Threads.@spawn e`, and `fetch` of the task that it gives.", "t = @async 1\n"),
    Hint("Syntax", "", r"@assert\b", "`@assert` is not in the language.", "`c ? nothing : div(1, 0)` fails where `c` is false.", "@assert 1 == 1\n"),
    Hint("Syntax", "", r"@(?:show|test|time|info)\b", "`{0}` is not in the language.", "`println(e)`.", "@show 1\n"),
    Hint("Syntax", "", r"@\w+", "`{0}` is not in the language: the macros are `@eval` and `Threads.@spawn`.", "A function.", "@inline f(x) = x\n"),
    # ---- blocks and ends
    Hint("Syntax", r"\?[^\n:?]*\Z", r"\s*(?:\n|\Z)", "A conditional has two branches.", "`c ? a : b`.", "x = true ? 1\n"),
    Hint(
        "Syntax",
        r"\b(?:if|elseif)\b[^\n;]*[\w)\]]\s+\Z",
        r"[\w(\-!]",
        "A condition ends before its block begins.",
        "A newline or `;` after the condition: `if c; x; else; y; end`, or `c ? x : y`.",
        "f(a) = if a 1 else 2 end\n",
    ),
    Hint("Syntax", r"\belse\s+if\b[\s\S]*\Z", r"\Z", "The text ends too early: an `else if` begins another `if`, which has an `end` of its own.", "`elseif`.", "if true\n    println(1)\nelse if false\n    println(2)\nend\n"),
    Hint("Syntax", r"\b(?:function|struct|if|begin|quote|type)\b[\s\S]*\Z", r"\Z", "The text ends too early: something is open.", "The `end`, `)` or operand that is missing.", "function f(x)\n    x\n"),
    Hint("Syntax", "", r"\s*\Z", "The text ends too early: something is open.", "The `)` or operand that is missing.", "println(1, 2\n"),
    Hint("Syntax", "", r"(?:end|else|elseif)\b", "There is nothing here that this `{0}` ends.", "Leave it out, or write what is missing before it.", "println(1); end\n"),
    Hint("Syntax", r"[\w)\]}]\s*\Z", r"[)\]}]", "There is nothing open that this `{0}` closes.", "Leave it out, or write the bracket that it belongs to.", "println(1))\n"),
    Hint("Syntax", "", r"[)\]}]", "An expression is missing before this `{0}`.", "Write it, or leave the bracket out.", "x = )\n"),
    Hint("Syntax", r"[\w)\]}] +\Z", r"[\w(]", "Two expressions are side by side.", "A newline, `;`, `,` or an operator between them.", "println(1) println(2)\n"),
]

NUMBERS = "All numbers are `Int64`: whole, of 64 bits."
TYPES = "Any Union Tuple Number Real Integer Signed Int64 Int Bool Nothing Task".split()

# What is known of names, by the fault that they raise.
NAMES = {
    "UnknownType": {
        "Vector Array Matrix AbstractVector AbstractArray Set AbstractDict Dict NTuple Pair NamedTuple": ("There are no arrays, sets and dictionaries.", LIST),
        "String AbstractString Char Symbol": ("There are no strings, characters and symbols as values.", "A struct without fields for each: `struct Red end`."),
        "Float64 Float32 Float16 AbstractFloat Rational Complex": (NUMBERS, "`Int64`; examples/fractions.jl has fractions."),
        "Int8 Int16 Int32 Int128 UInt UInt8 UInt16 UInt32 UInt64 Unsigned BigInt": (NUMBERS, "`Int64`, or `Int`."),
        "Function": ("Functions are no values.", PLAIN),
        "Type DataType": ("Types are no values.", "A value of the type, or a struct without fields that stands for it."),
        "Ref": ("Nothing is ever changed.", "The new value as an argument of the next call."),
        "Channel Condition ReentrantLock Atomic": ("Tasks share nothing that changes.", "`fetch` of a task gives its value."),
        "Expr": ("Code is no value.", "`@eval e` evaluates it where it is written."),
        "Missing": ("There is no `missing`.", "`nothing`, of type `Nothing`."),
    },
    "UnknownFunction": {
        "max": ("`max` is not built in.", "Define it: `max(a, b) = a < b ? b : a`."),
        "min": ("`min` is not built in.", "Define it: `min(a, b) = a < b ? a : b`."),
        "abs": ("`abs` is not built in.", "Define it: `abs(x) = x < 0 ? -x : x`."),
        "mod": ("`mod` is not built in.", "`x % y`, that is `rem(x, y)`, whose sign is that of `x`."),
        "iseven isodd": ("`{0}` is not built in.", "`x % 2 == 0`, `x % 2 != 0`."),
        "sqrt exp log sin cos": ("All numbers are whole, so there is no `{0}`.", "A function of your own over whole numbers."),
        "typeof": ("Types are no values.", "Methods that are chosen by the type, or `x isa T`."),
        "length sum map filter reduce foldl collect first last sort reverse zip enumerate append vcat": (
            "`{0}` is not built in, since there are no arrays.",
            "Define it for your own list: `{0}(l::Nothing) = ..` and `{0}(l::Cell) = ..`.",
        ),
        "string repr parse uppercase": ("There are no strings as values.", "`print` and `println` write values."),
        "error throw rethrow": ("There is no `{0}`.", "`div(1, 0)` fails on purpose; better is to give `nothing`, and to test it with `=== nothing`."),
        "isnothing": ("`isnothing` is not built in.", "`x === nothing`."),
        "Int64 Int Bool": ("Nothing is converted.", "A function of your own, as `number(b::Bool) = b ? 1 : 0`."),
        "wait": ("There is no `wait`.", "`fetch(t)` waits for the value of a task."),
        "sleep yield time rand nthreads threadid": ("There is no `{0}`.", "A run's text depends on the script and the order of its tasks alone."),
        "show": ("`show` is not built in.", "Define it without a stream: `show(p::P) = print(p.x)`."),
        "zero one": ("`{0}` is not built in.", "`0`, `1`."),
        "zeros ones fill Vector Dict Set Array": ("There are no arrays, sets and dictionaries.", LIST),
        "which delete_method": ("`{0}` is built in only as a part of a deletion.", DELETION),
        "new": ("A struct has fields and no constructor of its own.", "A function after it: `make(x) = P(x, 0)`."),
    },
    "UnknownName": {
        "pi π Inf NaN": ("All numbers are whole.", "Whole numbers, scaled where need be."),
        "missing": ("There is no `missing`.", "`nothing`."),
    },
}

# What is known of built-in functions that have no method for some arguments.
FUNCTIONS = {
    "== !=": (
        "`==` and `!=` compare two numbers, or two truth values.",
        "`===` and `!==`, which compare the contents of any two values; or a method of your own: `Base.:==(a::P, b::P) = a.x == b.x`.",
    ),
    "+ - * div rem < <= > >=": (
        "The built-in functions of numbers take `Int64` alone, and nothing is converted.",
        "A method for these types: `Base.:+(a::P, b::P) = ..`, `Base.div(a::P, b::P) = ..`.",
    ),
    "!": ("`!` takes a truth value.", "A comparison: `x == 0`, `x === nothing`."),
}
