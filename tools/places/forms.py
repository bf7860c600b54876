"""The forms that document 01 names for its code places: each check answers what is not so, place by place."""

import re

from .calls import lines_of, parameters

REDUCING = ["reduce", "measure_row", "compare", "equivalent", "program reduce", "program amplitudes"]
COMPOSING = ["gate", "cz", "measure", "measure_row", "complement", "image", "compare", "compare_records", "run",
             "amplitude", "reduce", "group_gate", "group_cz", "group_measure", "group_complement",
             "program reduce", "program job", "program amplitudes"]
ROWS = "[ [ u64 ; 2 ] ; 64 ]"
ARITHMETIC = {"+", "-", "*", "/", "%", "^", "|", "<<", ">>"}
LETTERS = {"I": (0, 0), "X": (0, 1), "Z": (1, 0), "Y": (1, 1)}
CLASSES = ["XZ", "YZ", "ZX", "XY", "YX", "ZY"]


# ---- the table

def product(a, b):
    """Two letters multiplied: the power of i, and the letter."""
    if "I" in (a, b) or a == b:
        return 0, b if a == "I" else a if b == "I" else "I"
    third = next(letter for letter in "XYZ" if letter not in (a, b))
    return (1 if a + b in ("XY", "YZ", "ZX") else 3), third


def sent(code, letter):
    """Where a code sends a letter: the power of i, and the letter."""
    x, z = CLASSES[code // 4]
    sx, sz = code // 2 % 2, code % 2
    if letter == "Y":
        turns, image = product(x, z)
        return (1 + turns + 2 * sx + 2 * sz) % 4, image
    return (2 * sx, x) if letter == "X" else (2 * sz, z)


def composed(a, b):
    """First a, then b, by document 01's definition."""
    found = []
    for letter in "XZ":
        turns, middle = sent(a, letter)
        more, image = sent(b, middle)
        found.append(((turns + more) % 4 // 2, image))
    (sx, x), (sz, z) = found
    return 4 * CLASSES.index(x + z) + 2 * sx + sz


def numbers(item):
    """The numbers of a constant array."""
    return [int(token.text) for token in item.tokens[item.value[0]:item.value[1]] if token.kind == "number"]


def tables(world):
    return [item for item in world.sources.all("const") if item.fields == ["[", "u8", ";", "576", "]"]]


def table(world):
    """'stands in a composition table of 576 entries': one constant array of 576 codes, at 24a + b."""
    found = tables(world)
    if len(found) != 1:
        return [f"{len(found)} constant arrays of 576 codes"]
    wrong = [] if found[0] in world.reached else ["no call reads the composition table"]
    if numbers(found[0]) != [composed(a, b) for a in range(24) for b in range(24)]:
        wrong.append(f"{lines_of(found[0])} is not the composition of codes")
    return wrong


def bracket(body, i):
    """The words in the bracket at place i."""
    depth = 0
    for k in range(i, len(body)):
        depth += (body[k] in "([{") - (body[k] in ")]}")
        if depth == 0:
            return body[i + 1:k]
    return body[i + 1:]


def table_readers(world):
    """The functions that read the table at an index that is not a number alone."""
    names, found = {item.name for item in tables(world)}, []
    for item in world.functions:
        body = item.body()
        for i, word in enumerate(body[:-1]):
            if word in names and body[i + 1] == "[" and any(re.match(r"[a-z]", one) for one in bracket(body, i + 1)):
                found.append(item)
    return found


def table_read(world):
    """The table is read at a variable index, on the way of every call and program that composes codes."""
    found = table_readers(world)
    if not found:
        return ["no function that a call reaches reads the composition table at a variable index"]
    return world.missing(COMPOSING, found, "the composition table, read at a variable index")


# ---- the code struct

def methods(world):
    """The methods then, inverse and image of the one struct that has them."""
    owners = [{item.owner: item for item in world.sources.methods.get(name, [])} for name in ("then", "inverse", "image")]
    shared = set(owners[0]) & set(owners[1]) & set(owners[2])
    return {name: own[min(shared)] for name, own in zip(("then", "inverse", "image"), owners)} if len(shared) == 1 else {}


def code_struct(world):
    """'first a, then b': a code struct with methods by value, then, inverse and image of a letter."""
    found = methods(world)
    if not found:
        return ["there is no one struct with the methods then, inverse and image"]
    wrong, owner = [], found["then"].owner
    structs = [item for item in world.sources.all("struct") if item.name == owner]
    if len(structs) != 1 or [one[-1] for one in structs[0].fields] != ["u8"]:
        wrong.append(f"{owner} is not a struct of one code")
    for name, item in found.items():
        given = parameters(item)
        if given.get("self") != "self" or any(kind.startswith("&") for kind in given.values()):
            wrong.append(f"{lines_of(item)} does not take its values by value")
        if len(world.sources.methods[name]) != 1:
            wrong.append(f"two types have a method {name}")
    if list(parameters(found["then"]).values())[1:] != [owner] or found["then"].function.answer != owner:
        wrong.append(f"{lines_of(found['then'])} is not of two codes and answers one")
    return wrong


def then_reads(world):
    """`then` looks up and does not reckon, and every call and program that composes reaches it."""
    found = methods(world).get("then")
    if not found:
        return ["there is no method then"]
    wrong = []
    if not set(table_readers(world)) & world.way(found):
        wrong.append(f"{lines_of(found)} does not read the composition table")
    if ARITHMETIC & set(found.body()):
        wrong.append(f"{lines_of(found)} reckons: {' '.join(sorted(ARITHMETIC & set(found.body())))}")
    return wrong + world.missing(COMPOSING, [found], "then")


def given_to_codes(body):
    """What is written into `codes[..]`, outside of the brackets of calls and places."""
    for i, word in enumerate(body[:-1]):
        if word == "codes" and body[i + 1] == "[":
            k = i + 3 + len(bracket(body, i + 1))
            if k < len(body) and body[k] == "=":
                k, words = k + 1, []
                while k < len(body) and body[k] != ";":
                    words.append(body[k])
                    k += len(bracket(body, k)) + 2 if body[k] in "([" else 1
                yield words


def one_composition(world):
    """No other composition: what promises a composed code reaches the table; no code is reckoned into a record."""
    then, inverse = world.promises.definition("then"), world.promises.definition("inverse")
    wrong = [
        f"{lines_of(item)} promises a composed code and does not read the composition table"
        for item in world.ensured(then, tables(world), but=inverse)
        if not re.search(r"\. ?post\b", " ".join(item.clauses("ensures")))  # it promises what the step given to it does
    ]
    for item in world.functions:
        for words in given_to_codes(item.body()):
            if ARITHMETIC & set(words):
                wrong.append(f"{lines_of(item)} reckons a code: {' '.join(words)}")
    return wrong


def inverse_reached(world):
    """Comparison takes the inverse of a code from the method; nothing else promises the code of an inverse."""
    found = methods(world).get("inverse")
    if not found:
        return ["there is no method inverse"]
    wrong = world.missing(["compare", "compare_records", "equivalent", "equivalent_records"], [found], "inverse")
    for item in world.promising(world.promises.definition("inverse")):
        if "code_of" in " ".join(item.clauses("ensures")) and found not in world.way(item):
            wrong.append(f"{lines_of(item)} promises the code of an inverse and does not ask the method inverse")
    return wrong


def image_reached(world):
    """Measurements take the image of a letter from the method, which asks the match on the class."""
    found = methods(world).get("image")
    if not found:
        return ["there is no method image"]
    wrong = world.missing(["measure", "group_measure", "run", "program job"], [found], "image of a letter")
    if not set(class_matches(world)) & world.way(found):
        wrong.append(f"{lines_of(found)} does not ask the match on the class")
    image, read_off = world.promises.definition("image"), world.promises.definition("ReadOff")
    told = [item for item in world.promising(image) if item.function.answer == "bool"] + world.promising(read_off)
    for item in told:
        if found not in world.sources.named(item):
            wrong.append(f"{lines_of(item)} tells where a code sends a letter without the method image")
    return wrong


# ---- the class

def arms(body, parameter):
    """The patterns of a match on this parameter."""
    for i in range(len(body) - 2):
        if body[i:i + 3] == ["match", parameter, "{"]:
            inside = bracket(body, i + 2)
            return [inside[k - 1] for k, word in enumerate(inside) if word == "=>"]
    return []


def class_matches(world):
    """The functions that match a class from 0 to 5 and answer a struct of two letters."""
    letters = [item for item in world.sources.all("enum") if {one[0] for one in item.fields} == set(LETTERS)]
    pairs = {
        item.name for item in world.sources.all("struct")
        if letters and [one[-1] for one in item.fields] == [letters[0].name] * 2
    }
    found = []
    for item in world.functions:
        given = list(parameters(item))
        if item.function.answer in pairs and given and arms(item.body(), given[0]) in (list("01234_"), list("012345")):
            found.append(item)
    return found


def class_match(world):
    """'The class gives the letters': a match on the class, and from its letters the bits C and D."""
    found = class_matches(world)
    if len(found) != 1:
        return [f"{len(found)} functions match the class from 0 to 5 for the two image letters"]
    wrong = []
    for name in ("c_bit", "d_bit"):
        own = world.sources.methods.get(name, [])
        if len(own) != 1 or own[0] not in world.reached:
            wrong.append(f"no call reaches {name}")
        elif found[0] not in world.sources.named(own[0]) or ARITHMETIC - {"/"} & set(own[0].body()):
            wrong.append(f"{lines_of(own[0])} does not take its bit from the letters of the class alone")
    for item in world.promising(*world.promises.bits_of_a_code()):
        if found[0] not in world.way(item):
            wrong.append(f"{lines_of(item)} promises a bit C or D of a code and does not ask the match on the class")
    return wrong


def image_bits(world):
    """The image rule begins with the bits C and D of the match, at each vertex."""
    rule = world.promising(world.promises.definition("image_list", "moves"))
    tracked = {item.function.answer for item in rule}
    starts = [
        item for item in world.functions
        if item.function.answer in tracked and not tracked & set(parameters(item).values())
    ]
    starts = [item for item in starts if not set(starts) & world.sources.named(item)]
    wrong = [] if starts else ["no function begins the image rule"]
    for item in starts:
        names = {one.name for one in world.sources.named(item) if one.owner}
        if not {"c_bit", "d_bit"} <= names:
            wrong.append(f"{lines_of(item)} begins the image rule without asking c_bit and d_bit")
    return wrong + world.missing(["image", "compare", "compare_records"], starts, "C and D of the match on the class")


# ---- words

def rows_held(world, item):
    """The variables of a function that hold the array of the reduction."""
    makers = [one.name for one in world.sources.all("fn") if one.function.answer == ROWS]
    body = " ".join(item.body())
    held = {name for name, kind in parameters(item).items() if kind == ROWS}
    if makers:
        held |= set(re.findall(rf"let (?:mut )?(\w+) = (?:\w+ :: )*(?:{'|'.join(makers)}) \(", body))
    return sorted(held | set(re.findall(r"let (?:mut )?(\w+) = \[ \[ \w+ , \w+ \] ; 64 \]", body)))


def lent_rows(world):
    """References to the array of the reduction: in a type, or of a variable that holds it."""
    wrong = []
    for item in world.functions:
        if any(re.match(r"& (?:mut )?\[ \[ u64 ; 2 \] (?:; 64 )?\]", kind) for kind in parameters(item).values()):
            wrong.append(f"{lines_of(item)} is lent the rows of the reduction")
        for name in rows_held(world, item):
            if re.search(rf"& (?:mut )?{name}\b", " ".join(item.body())):
                wrong.append(f"{lines_of(item)} lends {name}, the rows of the reduction")
    return wrong


def reductions(world):
    """The functions that take the array of the reduction by value with one word of signs, work on it, and promise the
    reduced record."""
    reduced = world.promises.definition("reduced", "with_hadamard")
    found = []
    for item in world.promising(reduced):
        given = parameters(item)
        words = {name: kind for name, kind in given.items() if kind == "u64"}
        if ROWS in given.values() and len(words) == 1 and "while" in item.body():
            found.append(item)
    return found


def reduction(world):
    """'a sign bit, a z word and an x word': reduction by value on an array of 64 arrays of two words, one sign word."""
    found = reductions(world)
    if len(found) != 1:
        wrong = f"{len(found)} functions reduce an array of 64 rows of two words by value beside one word of signs"
        return [wrong, *lent_rows(world)]
    wrong = lent_rows(world)
    if re.search(r"\[ (?:0\w*|false) ; 64 \]", " ".join(found[0].body())) or "& mut u64" in parameters(found[0]).values():
        wrong.append(f"{lines_of(found[0])} keeps signs beside its one word")
    return wrong + world.missing(REDUCING, found, "the reduction by value")


def commutation(world):
    """'even in number': a count of ones gives the parity of commutation."""
    counting = [item for item in world.functions if "count_ones" in item.body()]
    anti = world.promises.definition("anticommute", "mul", "letter")
    wrong = [] if counting else ["no call reaches a count of ones"]
    own = world.promising(anti)
    for item in own:
        if not set(counting) & world.way(item):
            wrong.append(f"{lines_of(item)} promises commutation without a count of ones")
    if not own:
        wrong.append("no call reaches a test of commutation")
    both = [item for item in own if set(counting) & world.way(item)]
    return wrong + world.missing(["check", "reduce", "compare", "program reduce"], both, "commutation by a count of ones")


def smallest(world):
    """Trailing zeros find the smallest vertex of a word: in the image rule, and on the way of every rewriting."""
    own = [item for item in world.functions if "trailing_zeros" in item.body()]
    if not own:
        return ["no call reaches trailing zeros"]
    wrong = []
    for item in world.promising(world.promises.definition("moves", "image_list")):
        if not set(own) & ({item} | world.sources.named(item)):
            wrong.append(f"{lines_of(item)} finds the smallest vertex without trailing zeros")
    return wrong + world.missing(["image", "complement", "gate", "reduce", "measure"], own, "trailing zeros")


def edge_flips(world):
    """'bit q of a word belongs to qubit q': edges are flipped by an xor of words, a bit of a word is found by a shift."""
    flip = r"neighbours \[ (\w+) \] (?:= neighbours \[ \1 \] \^|\^ ?=)"
    flips = [item for item in world.functions if re.search(flip, " ".join(item.body()))]
    complementing = world.promising(world.promises.definition("complement", "Simple"))
    wrong = [
        f"{lines_of(item)} flips edges without an xor of words"
        for item in complementing if not set(flips) & world.way(item)
    ]
    shifting = [item for item in world.functions if {"<<", ">>"} & set(item.body())]
    shifts = [item for item in shifting if item.function.answer in ("bool", "u64")]
    wrong += world.missing(["complement", "image", "cz"], flips, "edges flipped by an xor of words")
    return wrong + world.missing(["check", "reduce", "complement", "image"], shifts, "a shift of a word")


# ---- amplitudes

def amplitude_enum(world):
    """'nothing, or a value on the real axis, or ..': an enum, taken apart by match on the way of the plots."""
    kinds = [
        item for item in world.sources.all("enum")
        if [" ".join(one) for one in item.fields] == ["Nothing", "Real ( f64 )", "Imag ( f64 )"]
    ]
    if len(kinds) != 1 or kinds[0].name != "Amplitude":
        return ["there is no enum Amplitude of Nothing, Real(f64) and Imag(f64)"]
    apart = []
    for item in world.functions:
        taken = [name for name, kind in parameters(item).items() if kind == "Amplitude"]
        body = " ".join(item.body())
        cases = all(f"Amplitude :: {one}" in body for one in ("Nothing", "Real", "Imag"))
        if taken and cases and f"match {taken[0]} {{" in body:
            apart.append(item)
    wrong = world.missing(["amplitude", "program amplitudes"], apart, "Amplitude taken apart by match")
    lines = {item.name for item in three_floats(world)}
    for item in world.functions:
        if item.function.answer in lines and not set(apart) & world.way(item):
            wrong.append(f"{lines_of(item)} makes a line of the plot without taking Amplitude apart")
    return wrong


def three_floats(world):
    return [item for item in world.sources.all("struct") if [one[-1] for one in item.fields] == ["f64"] * 3]


def plot_line(world):
    """'Each plot line holds three floats': a struct of three f64, passed by value."""
    found = three_floats(world)
    if len(found) != 1:
        return [f"{len(found)} structs of three f64"]
    name, wrong = found[0].name, []
    for item in world.functions:
        if re.search(rf"& (?:mut )?{name}\b", " ".join(parameters(item).values())):
            wrong.append(f"{lines_of(item)} is lent a line of the plot")
    makers = [item for item in world.functions if item.function.answer == name]
    return wrong + world.missing(["amplitude", "program amplitudes"], makers, "a line of three floats by value")


# ---- steps

def step_struct(world):
    """The struct of an operation, two qubits and a value."""
    enums = {item.name for item in world.sources.all("enum")}
    found = [
        item for item in world.sources.all("struct")
        if len(item.fields) == 4 and item.fields[0][-1] in enums and all(one[-1] == "u16" for one in item.fields[1:])
    ]
    return found[0].name if len(found) == 1 else ""


def handed(world, item, slices):
    """The functions to which this one hands a lent slice of steps, and those to which they hand it on whole."""
    found, rest = set(), [item]
    while rest:
        for one in world.sources.named(rest.pop()) - found:
            given = [name for name, kind in parameters(one).items() if kind == slices]
            if given:
                found.add(one)
                if not re.search(rf"\b{given[0]} \[", " ".join(one.body())):
                    rest.append(one)
    return found


def lends_whole(world, item, arrays, slices, runners):
    """Whether a function is given a struct with the array of all steps and lends the first of them to a runner."""
    given = [(name, field) for name, kind in parameters(item).items() for own, field in arrays if own == kind]
    lent = any(re.search(rf"& {name} \. {field} \[ \.\. [\w .]+ \]", " ".join(item.body())) for name, field in given)
    return lent and bool(set(runners) & handed(world, item, slices))


def job_steps(world):
    """'The steps read are kept together': one array of step structs, lent whole to one thin runner."""
    step, job = step_struct(world), world.root_of("program job")
    if not step or job is None:
        return ["there is no program job, or no struct of an operation, two qubits and a value"]
    on_way, slices = [item for item in world.way(job) if item.kind == "fn"], f"& [ {step} ]"
    runners = [item for item in on_way if slices in parameters(item).values() and {"for", "while"} & set(item.body())]
    wrong = [] if len(runners) == 1 else [f"{len(runners)} functions on the way of job run a lent slice of steps"]
    structs = [item for item in world.way(job) if item.kind == "struct"]
    whole = ["[", step, ";", "4096", "]"]
    arrays = [(item.name, one[-7]) for item in structs for one in item.fields if one[-5:] == whole]
    if not arrays:
        wrong.append("job does not keep the steps that it reads in one array of structs")
    if not any(lends_whole(world, item, arrays, slices, runners) for item in on_way):
        wrong.append("job does not lend one array of 4,096 steps to the runner")
    for item in on_way:
        if sum(kind in ("& [ u16 ]", "& mut [ u16 ]") for kind in parameters(item).values()) > 1:
            wrong.append(f"{lines_of(item)} takes the steps of a job as parallel slices")
    return wrong


PLACES = {
    "constant array of 576 codes": table,
    "table read at a variable index": table_read,
    "code struct with methods by value": code_struct,
    "then": then_reads,
    "one composition": one_composition,
    "inverse": inverse_reached,
    "image of a letter": image_reached,
    "match on the class, bits C and D": class_match,
    "bits C and D of the image rule": image_bits,
    "reduction by value": reduction,
    "count of ones": commutation,
    "trailing zeros": smallest,
    "shifts, masks and xor": edge_flips,
    "Amplitude taken apart by match": amplitude_enum,
    "struct of three floats": plot_line,
    "lent slice of step structs": job_steps,
}


def faults(world):
    """What is not so, each with its place."""
    return [f"{place}: {one}" for place, check in PLACES.items() for one in check(world)]
