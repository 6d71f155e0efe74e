"""Kernels for bench/run.py passes: a family of bodies of loops, branches, breaks, checks and stores, three deep, filled to the most nodes that a kernel
may have."""
import itertools

HEAD = "kernel void k(global int *p, global int *q, int n) { int a = n, b = 1, c = 2;\n"
TAIL = "p[0] = a + b + c; }\n"
HELPER = "int h(int a) { return a * 3 + a; }\nint g(int a) { if (a > 3) return h(a); return a; }\n"

# what a body may hold, by the number that stands for the body that it holds
OUTER = {
    "for": "for (int i@ = 0; i@ < n; i@++) { # }",
    "while": "while (a < b) { # }",
    "do": "do { # } while (b < c);",
    "for ever": "for (;;) { # }",
    "if": "if (a < p[b]) { # }",
    "if else": "if (a) { # } else { b++; # }",
    "test and": "if (a && b < 3 || p[c]) { # }",
    "break": "while (1) { if (p[a] == b) break; # }",
    "continue": "while (a < n) { a++; if (q[a]) continue; # }",
}
INNER = {
    "nothing": "",
    "break": "if (a == 3) break;",
    "store": "p[a] = q[b];",
    "stores": "p[a] += q[b] + 1; q[c]++;",
    "leave": "if (a > n) return; p[b] = a;",
    "choose": "a = b ? c : p[c];",
    "call": "a = g(b);",
    "local": "int d@ = a; d@ = d@ * b + 100000; c = d@;",
    "barrier": "barrier(CLK_LOCAL_MEM_FENCE);",
    "none": ";",
}


def body(names, inner):
    """Three forms around each other, and what stands in them."""
    text = INNER[inner]
    for depth, name in enumerate(names):
        text = OUTER[name].replace("#", text, 1).replace("#", "").replace("@", str(depth))
    return text


def family():
    """The bodies, each of three of the forms and one of what they hold. A `break` stands in a loop."""
    for names in itertools.product(OUTER, repeat=3):
        for inner in INNER:
            if inner != "break" or names[0] not in ("if", "if else", "test and"):
                yield "%s / %s" % (" / ".join(reversed(names)), inner), body(names, inner)


def kernel(piece, count):
    """A kernel of a body so many times, each time in a block of its own."""
    return HELPER + HEAD + "".join("{ %s }\n" % piece for _ in range(count)) + TAIL


def backward(variables, nodes):
    """A kernel whose variables lose their marks one in each sweep, the last declared first, with statements up to some nodes."""
    names = ["v%d" % n for n in range(variables)]
    head = "kernel void k(global int *p) {\n" + "".join("int %s = 0;\n" % name for name in names)
    chain = "".join("%s = %s;\n" % pair for pair in zip(names, names[1:])) + names[-1] + " = get_global_id(0);\n"
    filler = "v0 = v0 + 3;\n"
    # (a declaration has 2 nodes, an assignment of a variable at most 4, and the filler 5)
    return head + chain + filler * ((nodes - 6 * variables - 16) // 5) + "p[0] = v0; }\n"
