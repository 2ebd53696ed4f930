"""The numbers of the library's operations, as c/rezunkai.h has them, and the word of each in a script."""

X = ...  # stands for what a call isn't given

(D_GET, D_GETD, D_SET, D_DEL, D_POP, D_POPD, D_POPITEM, D_SETDEFAULT, D_HAS, D_LEN, D_ITEMS, D_UPDATE, D_CLEAR, D_COPYTO,
 D_EQ, D_ITER) = range(16)
(L_APPEND, L_INSERT, L_GET, L_SET, L_DEL, L_POP, L_POP_AT, L_REMOVE, L_INDEX, L_COUNT, L_HAS, L_REVERSE, L_EXTEND,
 L_SLICE, L_CLEAR, L_LEN, L_ITEMS, L_EQ, L_ITER) = range(32, 51)
(S_ADD, S_DISCARD, S_REMOVE, S_POP, S_HAS, S_LEN, S_ITEMS, S_EQ, S_OR, S_AND, S_SUB, S_XOR, S_SUBSET, S_DISJOINT, S_CLEAR,
 S_ITER) = range(64, 80)
NEXT, BEGIN, BEGIN2, END, QUIESCE = range(96, 101)

# The word of an operation, and what comes after the container: k key, v value, i index, e second index, o other container,
# c cursor.
FORMS = {
    D_GET: ("get", "k"), D_GETD: ("getd", "kv"), D_SET: ("set", "kv"), D_DEL: ("del", "k"), D_POP: ("pop", "k"),
    D_POPD: ("popd", "kv"), D_POPITEM: ("popitem", ""), D_SETDEFAULT: ("setdefault", "kv"), D_HAS: ("has", "k"),
    D_LEN: ("len", ""), D_ITEMS: ("items", ""), D_UPDATE: ("update", "o"), D_CLEAR: ("clear", ""), D_COPYTO: ("copyto", "o"),
    D_EQ: ("eq", "o"), D_ITER: ("iter", "c"),
    L_APPEND: ("append", "v"), L_INSERT: ("insert", "iv"), L_GET: ("get", "i"), L_SET: ("set", "iv"), L_DEL: ("del", "i"),
    L_POP: ("pop", ""), L_POP_AT: ("pop", "i"), L_REMOVE: ("remove", "v"), L_INDEX: ("index", "v"), L_COUNT: ("count", "v"),
    L_HAS: ("has", "v"), L_REVERSE: ("reverse", ""), L_EXTEND: ("extend", "o"), L_SLICE: ("slice", "ie"),
    L_CLEAR: ("clear", ""), L_LEN: ("len", ""), L_ITEMS: ("items", ""), L_EQ: ("eq", "o"), L_ITER: ("iter", "c"),
    S_ADD: ("add", "k"), S_DISCARD: ("discard", "k"), S_REMOVE: ("remove", "k"), S_POP: ("pop", ""), S_HAS: ("has", "k"),
    S_LEN: ("len", ""), S_ITEMS: ("items", ""), S_EQ: ("eq", "o"), S_OR: ("or", "o"), S_AND: ("and", "o"), S_SUB: ("sub", "o"),
    S_XOR: ("xor", "o"), S_SUBSET: ("subset", "o"), S_DISJOINT: ("disjoint", "o"), S_CLEAR: ("clear", ""),
    S_ITER: ("iter", "c"),
}
