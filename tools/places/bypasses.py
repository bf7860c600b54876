"""Edits of the source that leave a named form out, for each place at least one: the check must find each of them.

An edit is a list of (old text, new text); each old text stands exactly once in all source files, wherever that is.
"""

BYPASSES = [
    ("constant array of 576 codes", "an entry of the table is another code", [
        ("2, // 4 then 4", "3, // 4 then 4"),
    ]),
    ("constant array of 576 codes", "the table is kept as words", [
        ("pub const THEN: [u8; 576] = [", "pub const THEN: [u64; 576] = ["),
    ]),
    ("table read at a variable index", "an entry is reckoned", [
        ("    THEN[24 * a + b]\n", "    packed_entry(a, b)\n"),
    ]),
    ("table read at a variable index", "an entry is read at a fixed place", [
        ("    THEN[24 * a + b]\n", "    THEN[24]\n"),
    ]),
    ("code struct with methods by value", "then is lent its code", [
        ("pub fn then(self, next: Code) -> Code", "pub fn then(&self, next: Code) -> Code"),
    ]),
    ("code struct with methods by value", "no method inverse", [
        ("    pub fn inverse(self) -> Code", "    pub fn undone(self) -> Code"),
    ]),
    ("then", "then reckons", [
        ("            index: entry(self.index, next.index),\n", "            index: self.index ^ next.index,\n"),
    ]),
    ("then", "then has another function for some codes", [
        (
            "            index: entry(self.index, next.index),\n",
            "            index: if self.index % 2 == 1 { after_one(next.index) } else { entry(self.index, next.index) },\n",
        ),
    ]),
    ("one composition", "a gate reckons its code", [
        ("    codes[q] = compose(codes[q], k);\n", "    codes[q] = codes[q] ^ k;\n"),
    ]),
    ("one composition", "the code of a reduced vertex is written down", [
        (
            "    let turned = Code { index }.then(Code { index: 8 });\n",
            "    let turned = Code { index: 8 + 2 * (minus as u8) };\n",
        ),
    ]),
    ("one composition", "a Hadamard comes before a code without the table", [
        ("    compose(8 + 2 * sign_digit(t), code)\n", "    packed(t, code)\n"),
    ]),
    ("one composition", "a complementation has a row of its own", [
        (
            "    let turned = before_each(k);\n    let mut rest = vertices;\n",
            "    let turned = row_of_six();\n    let mut rest = vertices;\n",
        ),
    ]),
    ("inverse", "the codes that undo a record's are not asked for", [
        ("        let undone = code.inverse();\n", "        let undone = undone_by_digits(code);\n"),
    ]),
    ("inverse", "an induced code is reckoned from words", [
        ("    let undone = Code { index: second }.inverse();\n", "    let undone = undone_by_digits(second);\n"),
    ]),
    ("image of a letter", "where a code sends a letter is told by digits", [
        ("    Code { index: code }.image(from).letter == to\n", "    by_digits(code, from) == to\n"),
    ]),
    ("image of a letter", "a measurement is read off by digits", [
        (
            "    let own = Code { index: codes[q] }.image(Letter::X);\n",
            "    let own = by_digits(codes[q], Letter::X);\n",
        ),
    ]),
    ("match on the class, bits C and D", "C by the number of the code", [
        (
            "        x_bit(image_letters(self.index / 4).z)\n",
            "        x_bit(image_letters(self.index / 4).z) | (8 <= self.index)\n",
        ),
    ]),
    ("match on the class, bits C and D", "D without the match", [
        ("        x_bit(image_letters(self.index / 4).x)\n", "        self.index < 8\n"),
    ]),
    ("match on the class, bits C and D", "the letters by digits", [
        ("        4 => ImageLetters { x: y, z: x },\n", ""),
    ]),
    ("match on the class, bits C and D", "CZ takes C from the number of the code", [
        ("    if own.c_bit() { word } else { single(a) }\n", "    if 8 <= code { word } else { single(a) }\n"),
    ]),
    ("match on the class, bits C and D", "crossed codes by their numbers", [
        ("    own.c_bit() & own.d_bit()\n", "    (12 <= code) & (code < 20)\n"),
    ]),
    ("match on the class, bits C and D", "an amplitude takes C from the number of the code", [
        ("        all = flip_where(all, i, !Code { index }.c_bit());\n", "        all = flip_where(all, i, index < 8);\n"),
    ]),
    ("bits C and D of the image rule", "the image rule takes C from the number of the code", [
        ("        c = flip_where(c, q, Code { index }.c_bit());\n", "        c = flip_where(c, q, 8 <= index);\n"),
    ]),
    ("bits C and D of the image rule", "the image rule takes its bits from words of digits", [
        (
            "    run_rule(words, bytes, list, begin(bytes))\n",
            "    run_rule(words, bytes, list, by_words(action_of(bytes)))\n",
        ),
    ]),
    ("reduction by value", "the rows are lent", [
        (
            "    mut rows: [[u64; 2]; 64],\n    mut signs: u64,\n",
            "    rows: &mut [[u64; 2]; 64],\n    mut signs: u64,\n",
        ),
        (
            "    reduce_tableau(rows, minuses, n, neighbours, codes)\n",
            "    reduce_tableau(&mut rows, minuses, n, neighbours, codes)\n",
        ),
    ]),
    ("reduction by value", "a sign word for each row", [
        (
            "    mut rows: [[u64; 2]; 64],\n    mut signs: u64,\n",
            "    mut rows: [[u64; 2]; 64],\n    mut signs: [u64; 64],\n",
        ),
    ]),
    ("reduction by value", "a pass is lent the rows", [
        (
            "    let mut pivots = 0;\n    let mut hadamards = 0;\n",
            "    pass(&mut rows);\n    let mut pivots = 0;\n    let mut hadamards = 0;\n",
        ),
    ]),
    ("reduction by value", "lists are reduced elsewhere", [
        ("    reduce_tableau(rows, minuses, n, neighbours, codes)\n", "    reduce_words(n, neighbours, codes)\n"),
    ]),
    ("count of ones", "commutation by folding", [
        ("    odd((z & x2) ^ (x & z2))\n", "    folded((z & x2) ^ (x & z2))\n"),
    ]),
    ("count of ones", "ones are counted in a loop", [
        ("    w.count_ones() % 2 == 1\n", "    counted(w) % 2 == 1\n"),
    ]),
    ("trailing zeros", "the image rule looks for its vertex in a loop", [
        ("list, at, smallest(both)));\n", "list, at, first_bit(both)));\n"),
        ("    let k = smallest(neighbours[j] & c);\n", "    let k = first_bit(neighbours[j] & c);\n"),
    ]),
    ("trailing zeros", "the smallest bit in a loop", [
        ("    w.trailing_zeros() as usize\n", "    first_bit(w)\n"),
    ]),
    ("shifts, masks and xor", "edges are flipped one by one", [
        (
            "        neighbours[i] ^= flips(i);\n        rest = without_smallest(rest);\n    }\n}",
            "        flip_each(neighbours, i, flips(i));\n        rest = without_smallest(rest);\n    }\n}",
        ),
    ]),
    ("Amplitude taken apart by match", "a line of the plot from the turns", [
        (
            "    plot_line(answer, count(kept(codes)))\n",
            "    PlotLine { re: 0.0, im: 0.0, p: halves(count(kept(codes))) }\n",
        ),
    ]),
    ("Amplitude taken apart by match", "an answer of another kind", [
        ("    Imag(f64),\n", "    Imag(i8),\n"),
    ]),
    ("struct of three floats", "a line of the plot is lent", [
        ("fn print_point(y: u16, line: PlotLine,", "fn print_point(y: u16, line: &PlotLine,"),
    ]),
    ("struct of three floats", "the floats in an array", [
        ("    pub re: f64,\n    pub im: f64,\n    pub p: f64,\n", "    pub all: [f64; 3],\n"),
    ]),
    ("lent slice of step structs", "the steps of a job in four arrays", [
        (
            "    pub steps: [Step; 4096],\n",
            "    pub ops: [u8; 4096],\n    pub a: [u16; 4096],\n    pub b: [u16; 4096],\n    pub value: [u16; 4096],\n",
        ),
    ]),
    ("lent slice of step structs", "a job is run from parallel slices", [
        (
            "    let used = run_lent(n, neighbours, codes, 0, steps, 0, answers);\n",
            "    let used = run_numbers(n, neighbours, codes, 0, count, ops, a, b, values, answers);\n",
        ),
    ]),
    ("lent slice of step structs", "a job is lent to the runner 64 steps at a time", [
        (
            "    let used = run_lent(n, neighbours, codes, 0, steps, 0, answers);\n",
            "    let mut used = 0;\n    for (k, part) in steps.chunks(64).enumerate() {\n"
            "        used = run_lent(n, neighbours, codes, used, part, 64 * k, answers);\n    }\n",
        ),
    ]),
]


def edited(texts, edits):
    """The sources with these edits, and a fault where a text does not stand exactly once."""
    texts = dict(texts)
    for old, new in edits:
        places = [path for path, text in texts.items() if old in text]
        if len(places) != 1 or texts[places[0]].count(old) != 1:
            return None, f"stands {sum(text.count(old) for text in texts.values())} times: {old.strip()!r}"
        texts[places[0]] = texts[places[0]].replace(old, new)
    return texts, ""
