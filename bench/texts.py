"""The texts that bench/run.py front measures: each is at most 1,048,576 bytes, and has a status that front_speed is to end with."""

LIMIT = 1_048_576
TAKEN, REFUSED = 0, 1
STAGES = ["text", "tokens", "tree", "bodies", "totals", "program"]


def repeated(head, piece, tail, most=LIMIT):
    """One piece again and again between a head and a tail."""
    return head + piece * ((most - len(head) - len(tail)) // len(piece)) + tail


def numbered(line, most=LIMIT, last=""):
    """Lines of which each has its number and the next, and a last one with the number behind the last."""
    text, size, n = [], len(last) + 8, 0
    while size + len(line(n)) <= most:
        text.append(line(n))
        size += len(text[-1])
        n += 1
    return "".join(text) + last.replace("@", str(n))


def function(n, most):
    head = "int f%d(int a) {\n  int b = %s;\n" % (n, "f%d(a)" % (n // 2) if n else "a")
    return repeated(head, "  b = b * 3 + a;\n", "  return b;\n}\n", most)


def functions(most):
    """A thousand functions, each of which calls one of half its number."""
    return "".join(function(n, most // 1000) for n in range(1000))


def chain(most):
    """Helpers each of which calls the next; the last calls none."""
    return numbered(lambda n: "int f%d(int a) { return f%d(a); }\n" % (n, n + 1), most - 24, "int f@(int a) { return a; }\n")


def backward(most):
    """Helpers each of which calls the one before it."""
    return "int f(int a) { return a; }\n" + numbered(
        lambda n: "int f%d(int a) { return f%s(a); }\n" % (n, n - 1 if n else ""), most - 40)


def wide(most):
    """Helpers each of which calls the first."""
    return "int f(int a) { return a; }\n" + numbered(lambda n: "int f%d(int a) { return f(a); }\n" % n, most - 40)


def fan(most):
    """One helper that calls each of the others, of which there are as many as there is room for."""
    helpers = numbered(lambda n: "int f%d(int a){return a;}\n" % n, most * 2 // 3)
    calls = numbered(lambda n: "a=f%d(a);\n" % n, most * 27 // 100)
    return helpers + "int g(int a) {\n" + calls + "return a;\n}\n"


def pairs(most):
    """Helpers each of which calls the next twice."""
    return numbered(lambda n: "int f%d(int a) { return f%d(a) + f%d(a); }\n" % (n, n + 1, n + 1), most - 24, "int f@(int a) { return a; }\n")


def plain(most):
    """Helpers without calls."""
    return numbered(lambda n: "int f%d(int a) { return a + %d; }\n" % (n, n), most)


def comments(most):
    return repeated("kernel void k(global int *p) { p[0] = 1; }\n", "/* a comment, of which nothing is left */ // and another\n", "", most)


def sum_of(most):
    """One expression: a sum of as many numbers as a file has room for, deeper than any that is accepted."""
    return repeated("int f(int a) { return a", "+a", "; }\n", most)


def deep(most):
    """Sums as deep as an expression may be, again and again."""
    line = "  a = a" + " + a" * 100 + ";\n"
    return repeated("int f(int a) {\n", line, "  return a;\n}\n", most)


def parens(most):
    """Parentheses that open and never close."""
    return repeated("int f(int a) { return ", "(", "", most)


def blocks(most):
    """Statements in blocks as deep as they are accepted."""
    return repeated("void f(int a) {\n", "{" * 20 + "a = 1;" + "}" * 20 + "\n", "}\n", most)


def declared(most):
    """One function of as many variables as there is room for, all in one scope."""
    return "int f(int a) {\n" + numbered(lambda n: "int v%d = a;\n" % n, most - 40) + "return a;\n}\n"


def in_scopes(most):
    """Variables of one name, each in a block of its own."""
    return repeated("void f(int a) {\n", "{ int b = a; b = b + a; }\n", "}\n", most)


def params(most):
    """A function of as many parameters as there is room for, of which it has too many."""
    return "int f(" + numbered(lambda n: "int v%d, " % n, most - 60) + "int z) { return z; }\n"


def arguments(most):
    """Calls of a function of 16 parameters."""
    head = "int g(" + ", ".join("int p%d" % n for n in range(16)) + ") { return p0; }\nvoid f(int a) {\n"
    return repeated(head, "a = g(%s);\n" % ", ".join(["a"] * 16), "}\n", most)


def kernels(most):
    """Small kernels."""
    return numbered(lambda n: "kernel void k%d(global int *p) { p[get_global_id(0)] = %d; }\n" % (n, n), most)


def of_kernel(most):
    """A kernel of more nodes than one may have."""
    return repeated("kernel void k(global int *p) {\n", "p[0] = p[1] + 3;\n", "}\n", most)


def program(most):
    """Statements of one function, which use what is not declared."""
    return repeated("void f() {\n", "  if (a < b) { c[a] = (b + 1) * d(a, 2); }\n", "}", most)


def cycle(most):
    """Helpers each of which calls the next, and the last the first."""
    return numbered(lambda n: "int f%d(int a) { return f%d(a); }\n" % (n, n + 1), most - 24, "int f@(int a) { return f0(a); }\n")


def last_cycle(most):
    """Helpers each of which calls the next; the last calls itself."""
    return numbered(lambda n: "int f%d(int a) { return f%d(a); }\n" % (n, n + 1), most - 24, "int f@(int a) { return f@(a); }\n")


def twos(most):
    """Pairs of helpers that call each other."""
    return numbered(lambda n: "int f%d(int a) { return f%d(a); }\n" % (n, n ^ 1), most)


def selves(most):
    """Helpers that call themselves."""
    return numbered(lambda n: "int f%d(int a) { return f%d(a); }\n" % (n, n), most)


def twice(most):
    """Helpers of which the last has the name of the first."""
    return plain(most - 40) + "int f0(int a) { return a; }\n"


def unknown(most):
    """Helpers of which the last uses a name that stands for nothing."""
    return plain(most - 40) + "int g(int a) { return b; }\n"


def mismatch(most):
    """Helpers of which the last gives no number to a function of one parameter."""
    return plain(most - 40) + "int g(int a) { return f0(); }\n"


def unexpected(most):
    """Helpers, and then half of one."""
    return plain(most - 40) + "int g(int a) { return"


def subset(most):
    """Helpers, and then one of a type that is not in the subset."""
    return plain(most - 40) + "float g(int a) { return a; }\n"


def bad_byte(most):
    """Names, and then a byte that begins no token."""
    return repeated("", "ab cd_1\n", "$", most)


def bad_number(most):
    return repeated("", "ab cd_1\n", "08", most)


def bad_directive(most):
    return repeated("", "ab cd_1\n", "#elif\n", most)


def open_comment(most):
    return repeated("/*", "ab cd_1\n", "", most)


def doubled(most):
    """Macros each of which is the one before it twice: more tokens than a file may have."""
    lines = "#define m0 a a\n" + "".join("#define m%d m%d m%d\n" % (n, n - 1, n - 1) for n in range(1, 30))
    return repeated(lines, "m29 ", "\n", most)


def names(most):
    return repeated("", "ab cd_1\n", "", most)


def marks(most):
    return repeated("", "-- ;", "", most)


def uses(most):
    """Uses of a macro that uses another."""
    return repeated("#define A B\n#define B c\n", "A  ", "", most)


def nested(most):
    """Macros each of which uses the next, and a use of the first."""
    return numbered(lambda n: "#define m%d m%d\n" % (n, n + 1), most - 2) + "m0"


def undefs(most):
    """Macros that are all undefined again."""
    count = most // 30
    return "".join("#define m%d\n" % n for n in range(count)) + "".join("#undef m%d\n" % n for n in range(count))


def conditions(most):
    """Lines between conditions that do not hold."""
    return repeated("", "#ifdef A\nb b b b\n#endif\n", "", most)


# how far each is taken, what it is to end with, and what it is
TEXTS = (
    [("tokens", TAKEN, make) for make in (names, marks, uses, nested, undefs, conditions)]
    + [("program", TAKEN, make) for make in (functions, chain, backward, wide, fan, pairs, plain, comments, deep, blocks,
                                             declared, in_scopes, arguments, kernels)]
    + [("program", REFUSED, make) for make in (program, sum_of, parens, params, of_kernel, cycle, last_cycle, twos, selves,
                                               twice, unknown, mismatch, unexpected, subset, bad_byte, bad_number,
                                               bad_directive, open_comment, doubled)]
)
