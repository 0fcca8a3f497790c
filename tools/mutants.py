#!/usr/bin/env python3
"""Edits the model's definitions one at a time, and shows which edits no example refuses.

usage: tools/mutants.py [-j N] [-k TEXT] [--list] [--every]

  -j N     so many checks at once (default 1)
  -k TEXT  only the mutants with TEXT in their file or in the lines that they change
  --list   print the mutants and check none
  --every  print what becomes of each mutant, and not only of the survivors

The judges are specs/Examples.antt and specs/Guards.antt alone: the copy that is checked has no laws, demands or proofs.
A mutant is refused if a table of theirs no longer computes to its answers. One that does not type-check is counted apart.
Exit status: 0 if every survivor is listed as equivalent; 1 if another survives, if one that is listed does not, or if a
listed edit does not fit the model; 2 if rt is missing or the unedited copy does not check. All of the mutants together
take some hours of one processor.
"""
import argparse, concurrent.futures, pathlib, queue, re, shutil, subprocess, sys, tempfile

ROOT = pathlib.Path(__file__).resolve().parent.parent
CRATES = {"model": "Limits Plans Queues Interval Handlers State Commands Lists".split(), "base": "Choice Lists Sort Bytes".split()}
JUDGES = ["Examples", "Guards"]
UNUSED = ("copies ", "within ")  # of base, and of no definition of the model

# ---- edits of one place, found by rule

CONDITIONS = "no_space unknown_queue no_such_item wrong_length unknown_program unknown_terminal not_unique not_found end_of_data".split()
WORDS = {
    "leb": ["ltb"], "ltb": ["leb"], "eqb": ["leb"], "any": ["all"], "all": ["any"], "take": ["drop"], "drop": ["take"],
    "true": ["false"], "false": ["true"], "not": [""], "suc": [""], "Unset": ["Ignore"], "Ignore": ["Unset"], "bad": ["(good 0 [])"],
    "exactly": ["at_least"], "at_least": ["exactly"], "never": ["(at_least 0)"], "anyone": ["sys", "task"], "sys": ["anyone", "task"],
    "task": ["anyone", "sys"], ".program": [".terminal"], ".terminal": [".program"], ".programs": [".terminals"],
    ".terminals": [".programs"], "invalid_request": ["7"], "normal": ["1"], **{c: ["77"] for c in CONDITIONS},
}
IMPORTS = {"Rattle.std.specs.Prelude": "leb ltb eqb true false not ◌&&◌ ◌||◌ ◌++◌ take drop", "Rattle.base.specs.Lists": "any all"}  # so that an edit may bring them in
TOKEN = re.compile(r"&&|\|\||\+\+|[∷+(){};=λ]|\.?[\w·′]+|\S")
NUMBER = re.compile(r"0x[0-9a-fA-F]+|[0-9][0-9_]*")
NO_DEFINITION = re.compile(r"\s*(--|use |abbrev |unfoldable |pub |module |unfolding |infix|$)|\s+\w+ : ")


def tokens(text):
    """(start, end, word) of what stands right of the definitions' equals signs, with a ";" between two of them."""
    out, at = [], 0
    for line in text.splitlines(keepends=True):
        equals = re.search(r" =(?= |$)", line.rstrip("\n"))
        if NO_DEFINITION.match(line) or equals and not line.startswith("    "):
            out.append((at, at, ";"))
        if not NO_DEFINITION.match(line):
            out += [(at + m.start(), at + m.end(), m.group()) for m in TOKEN.finditer(line, equals.end() if equals else 0)]
        at += len(line)
    return out + [(at, at, ";")]


def operand(toks, i, step, stops):
    """The last index, in a direction, of what begins at i and ends at a stop or at a bracket that it has not opened."""
    depth, last = 0, None
    while toks[i][2] != ";":
        depth += step * {"(": 1, "{": 1, ")": -1, "}": -1}.get(toks[i][2], 0)
        if depth < 0 or depth == 0 and toks[i][2] in stops:
            break
        last, i = i, i + step
    return last


def arguments(toks, i, n):
    """(first, last) of each of the n arguments behind the function at i, or nothing: names or brackets, with their fields."""
    found = []
    for _ in range(n):
        first = i = i + 1
        if toks[i][2] in ";)}∷":
            return None
        if toks[i][2] == "(":
            i = operand(toks, i + 1, 1, ()) + 1
        while re.match(r"\.\w", toks[i + 1][2]):
            i += 1
        found.append((first, i))
    return found


def edits(text):
    """(start, end, new) for every edit that a rule makes of the text."""
    toks, given = tokens(text), set()  # the conditions that checks give: a check that never holds says more

    def put(first, last, new):
        return toks[first][0], toks[last][1], new

    def said(first, last):
        return text[toks[first][0]:toks[last][1]]

    for i, (_, _, word) in enumerate(toks):
        if NUMBER.fullmatch(word):
            n = int(word.replace("_", ""), 0)
            yield from (put(i, i, str(m)) for m in (n + 1, n - 1) if m >= 0)
        yield from (put(i, i, new) for new in WORDS.get(word, []) if i not in given)
        if word in ("&&", "||", "+"):  # one side dropped
            stops = {"&&", "||", "∷", "=", "."} | ({"++", "+"} if word == "+" else set())
            left, right = operand(toks, i - 1, -1, stops), operand(toks, i + 1, 1, stops)
            yield put(left, right, said(i + 1, right))
            yield put(left, right, said(left, i - 1))
        if word == "eqb" and (args := arguments(toks, i, 2)):  # at least, as the words have at most
            yield put(i, args[1][1], f"leb {said(*args[1])} {said(*args[0])}")
        if word == "pick" and (args := arguments(toks, i, 3)):  # one branch only, or the two swapped
            yield put(*args[0], "true")
            yield put(*args[0], "false")
            yield put(args[1][0], args[2][1], f"{said(*args[2])} {said(*args[1])}")
        if word == "check" and (args := arguments(toks, i, 2)):  # never, or behind the next
            yield put(*args[0], "false")
            given.add(args[1][0])
            j = args[1][1] + 2
            if toks[j][2] == "check" and (more := arguments(toks, j, 2)):
                yield put(i, more[1][1], f"{said(j, more[1][1])} ∷ {said(i, args[1][1])}")


# ---- edits that no rule finds: (file, old, new)

LISTED = [
    # base
    ("base/Choice", "pick c a b = cond c a b", "pick c a b = cond c b b"),
    ("base/Choice", "pick c a b = cond c a b", "pick c a b = cond c a a"),
    # what is a word of the library is written out to be edited
    ("base/Lists", "keep p l = filter p l", "keep p [] = []\n  keep p (x ∷ xs) = pick (p x) (keep p xs ++ (x ∷ [])) (keep p xs)"),
    ("base/Lists", "keep p l = filter p l", "keep p [] = []\n  keep p (x ∷ xs) = pick (p x) (keep p xs) (x ∷ keep p xs)"),
    ("base/Lists", "keep p l = filter p l", "keep p l = l"),
    ("base/Lists", "keep p l = filter p l", "keep p l = []"),
    ("base/Lists", "all p l = list_all p l", "all p [] = false\n  all p (x ∷ xs) = p x && all p xs"),
    ("base/Lists", "all p l = list_all p l", "all p [] = true\n  all p (x ∷ xs) = p x"),
    ("base/Lists", "all p l = list_all p l", "all p [] = true\n  all p (x ∷ xs) = p x && any p xs"),
    ("base/Lists", "all p l = list_all p l", "all p l = true"),
    ("base/Lists", "over ks l = ks ++ drop (length ks) l", "over ks l = ks"),
    ("base/Lists", "over ks l = ks ++ drop (length ks) l", "over ks l = ks ++ l"),
    ("base/Sort", "sort le (x ∷ xs) = place le x (sort le xs)", "sort le (x ∷ xs) = x ∷ sort le xs"),
    ("base/Sort", "pick (le x y) (x ∷ y ∷ ys) (y ∷ place le x ys)", "pick (le y x) (y ∷ place le x ys) (x ∷ y ∷ ys)"),
    ("base/Bytes", "bytes_of n (x / 256) ++ (x % 256 ∷ [])", "(x % 256 ∷ []) ++ bytes_of n (x / 256)"),
    ("base/Bytes", "num_from (a * 256 + x) l", "num_from a l * 256 + x"),
    # Plans: what a refusal leaves, what a cut gives
    ("model/Plans", "obey s (suc c) o = fault s (suc c)", "obey s (suc c) o = fault o.state (suc c)"),
    ("model/Plans", "obey s (suc c) o = fault s (suc c)", "obey s (suc c) o = o"),
    ("model/Plans", "fault s c = record { condition = c; number = 0; bytes = []", "fault s c = record { condition = c; number = 0; bytes = 0 ∷ []"),
    ("model/Plans", "done s n = record { condition = normal; number = n; bytes = []", "done s n = record { condition = normal; number = n; bytes = 0 ∷ []"),
    ("model/Plans", "done s n = record { condition = normal; number = n;", "done s n = record { condition = normal; number = 0;"),
    ("model/Plans", "number = length b; bytes = take room b", "number = room; bytes = take room b"),
    ("model/Plans", "number = length b; bytes = take room b", "number = length (take room b); bytes = take room b"),
    ("model/Plans", "number = length b; bytes = take room b", "number = length b; bytes = b"),
    ("model/Plans", "number = length b; bytes = take room b", "number = length b; bytes = pick (ltb room (length b)) [] b"),
    ("model/Plans", "condition = o.condition; number = o.number; bytes = o.bytes; state = put", "condition = o.condition; number = o.condition; bytes = o.bytes; state = put"),
    ("model/Plans", "first_of (k ∷ l) = pick k.when k.gives (first_of l)", "first_of (k ∷ l) = pick (eqb (first_of l) 0) (pick k.when k.gives 0) (first_of l)"),
    # Queues
    ("model/Queues", "items = q.items ++ (b ∷ []) }", "items = (b ∷ []) ++ q.items }"),
    ("model/Queues", "longer b q = record { name = q.name; pointer = q.pointer;", "longer b q = record { name = q.name; pointer = 0;"),
    ("model/Queues", "(fault (made l n) no_space)", "(fault l no_space)"),
    ("model/Queues", "(done (at_queue n (longer b) (made l n))", "(done (at_queue n (longer b) l)"),
    ("model/Queues", "(done (at_queue n (longer b) (made l n))", "(done (made l n)"),
    ("model/Queues", "pick (leb may (items_in l))", "pick (leb may (length (queue_of l n).items))"),
    ("model/Queues", "point_at p q = record { name = q.name; pointer = p; items = q.items }", "point_at p q = record { name = q.name; pointer = q.pointer; items = q.items }"),
    ("model/Queues", "point_at p q = record { name = q.name; pointer = p; items = q.items }", "point_at p q = record { name = q.name; pointer = p + 1; items = q.items }"),
    ("model/Queues", "point_at p q = record { name = q.name; pointer = p; items = q.items }", "point_at p q = record { name = q.name; pointer = 0; items = set q.items (p - 1) [] }"),
    ("model/Queues", "(cut (at_queue n (point_at p) l) room", "(cut (pick (ltb room (length (item_at (queue_of l n) p))) l (at_queue n (point_at p) l)) room"),
    ("model/Queues", "(cut (at_queue n (point_at p) l) room", "(cut (map (point_at p) l) room"),
    ("model/Queues", "read_at l n p room = reading l n p room", "read_at l n p room = plan (reading l n p room).checks (cut l room (item_at (queue_of l n) p))"),
    ("model/Queues", "read_at l n p room = reading l n p room", "read_at l n p room = reading l n (p + 1) room"),
    ("model/Queues", "reading l n ((queue_of l n).pointer + 1) room", "reading l n (length (queue_of l n).items) room"),
    ("model/Queues", "pointer = q.pointer; items = set q.items (p - 1) b }", "pointer = p; items = set q.items (p - 1) b }"),
    ("model/Queues", "pointer = q.pointer; items = set q.items (p - 1) b }", "pointer = q.pointer; items = q.items }"),
    ("model/Queues", "pointer = q.pointer; items = set q.items (p - 1) b }", "pointer = q.pointer; items = q.items ++ (b ∷ []) }"),
    ("model/Queues", "(done (keep (λ (q : Queue). not (eqb q.name n)) l)", "(done l"),
    ("model/Queues", "(done (keep (λ (q : Queue). not (eqb q.name n)) l)", "(done []"),
    ("model/Queues", "(done (keep (λ (q : Queue). not (eqb q.name n)) l)", "(done (at_queue n (λ q. no_items n) l)"),
    ("model/Queues", "n)) l) (length (queue_of l n).items))", "n)) l) (items_in l))"),
    # Interval: the line
    ("model/Interval", "is_due c (Waiting d) = leb d c", "is_due c (Waiting d) = leb (d % 2 ^ 32) (c % 2 ^ 32)"),
    ("model/Interval", "no_later (Waiting d) (Waiting e) = leb d e", "no_later (Waiting d) (Waiting e) = leb (d % 2 ^ 32) (e % 2 ^ 32)"),
    ("model/Interval", "no_later (Waiting d) (Waiting e) = leb d e", "no_later (Waiting d) (Waiting e) = leb e d"),
    ("model/Interval", "no_later (Waiting d) (Waiting e) = leb d e", "no_later (Waiting d) (Waiting e) = true"),
    ("model/Interval", "sort (λ (q p : Request). no_later q.phase p.phase) (newly c l)", "sort (λ (q p : Request). leb q.name p.name) (newly c l)"),
    ("model/Interval", "(sort (λ (q p : Request). no_later q.phase p.phase) (newly c l))", "(newly c l)"),
    ("model/Interval", "keep (λ (q : Request). not (is_due c q.phase)) l\n    ++ map (in_phase Expired) (sort (λ (q p : Request). no_later q.phase p.phase) (newly c l))", "map (in_phase Expired) (sort (λ (q p : Request). no_later q.phase p.phase) (newly c l)) ++ keep (λ (q : Request). not (is_due c q.phase)) l"),
    ("model/Interval", "keep (λ (q : Request). not (is_due c q.phase)) l\n    ++ map (in_phase Expired) (sort (λ (q p : Request). no_later q.phase p.phase) (newly c l))", "sort (λ (q p : Request). leb q.name p.name) (keep (λ (q : Request). not (is_due c q.phase)) l ++ map (in_phase Expired) (newly c l))"),
    ("model/Interval", "keep (λ (q : Request). not (is_due c q.phase)) l\n    ++ map (in_phase Expired) (sort (λ (q p : Request). no_later q.phase p.phase) (newly c l))", "map (λ (q : Request). pick (is_due c q.phase) (in_phase Expired q) q) l"),
    ("model/Interval", "(done i (i.clock % 2 ^ 32))", "(done i i.clock)"),
    ("model/Interval", "line i = keep expired i.requests", "line i = i.requests"),
    ("model/Interval", "line i = keep expired i.requests", "line i = sort (λ (q p : Request). leb q.name p.name) (keep expired i.requests)"),
    ("model/Interval", "line i = keep expired i.requests", "line i = keep (λ (q : Request). not (active q)) i.requests"),
    # dispatch
    ("model/Interval", "number = passed;", "number = 0;"),
    ("model/Interval", "bytes_of 8 q.name ++ bytes_of 4 q.program ++ bytes_of 4 q.terminal", "bytes_of 8 q.name ++ bytes_of 4 q.terminal ++ bytes_of 4 q.program"),
    ("model/Interval", "bytes_of 8 q.name ++ bytes_of 4 q.program ++ bytes_of 4 q.terminal", "bytes_of 8 q.name"),
    ("model/Interval", "state = with_requests i (at_request q.name (in_phase (Active false)) i.requests);", "state = i;"),
    ("model/Interval", "state = with_requests i (at_request q.name (in_phase (Active false)) i.requests);", "state = remove i q.name;"),
    ("model/Interval", "number = length (line i); bytes = []", "number = length i.requests; bytes = []"),
    ("model/Interval", "number = length (line i); bytes = []", "number = 0; bytes = []"),
    ("model/Interval", "(first_at (startable i) (line i))", "(first_at (startable i) i.requests)"),
    ("model/Interval", "(first (startable i) no_request (line i))", "(first (startable i) no_request i.requests)"),
    ("model/Interval", "(first (startable i) no_request (line i))", "(first expired no_request (line i))"),
    # start, cancel, retrieve
    ("model/Interval", "begun c zero = Expired", "begun c zero = Waiting c"),
    ("model/Interval", "(i.requests ++ (accepted i.clock a ∷ []))", "((accepted i.clock a ∷ []) ++ i.requests)"),
    ("model/Interval", "(done (with_requests i (i.requests ++ (accepted i.clock a ∷ []))) 0)", "(done i 0)"),
    ("model/Interval", "leb L.requests (length i.requests)", "leb L.requests (length (line i))"),
    ("model/Interval", "(done (remove i n) 0)", "(done i 0)"),
    ("model/Interval", "(done (remove i n) 0)", "(done (with_requests i []) 0)"),
    ("model/Interval", "(cut (took_own i n) room t.bytes)", "(cut i room t.bytes)"),
    ("model/Interval", "(cut (took_own i n) room t.bytes)", "(cut (pick (ltb room (length t.bytes)) i (took_own i n)) room t.bytes)"),
    ("model/Interval", "(cut (remove i (server i t).name) room", "(cut i room"),
    ("model/Interval", "(cut (remove i (server i t).name) room", "(cut (pick (ltb room (length (server i t).bytes)) i (remove i (server i t).name)) room"),
    ("model/Interval", "(cut (remove i (server i t).name) room", "(cut (remove i n) room"),
    ("model/Interval", "server i t = first (serves t) no_request i.requests", "server i t = first (serves t) no_request (sort (λ (q p : Request). leb q.name p.name) i.requests)"),
    ("model/Interval", "remove i n = with_requests i (drop_request n i.requests)", "remove i n = i"),
    ("model/Interval", "with_requests i l = record { clock = i.clock;", "with_requests i l = record { clock = 0;"),
    ("model/Interval", "with_programs i l = record { clock = i.clock;", "with_programs i l = record { clock = 0;"),
    ("model/Interval", "with_terminals i l = record { clock = i.clock;", "with_terminals i l = record { clock = 0;"),
    ("model/Interval", "with_programs i l = record { clock = i.clock; programs = l; terminals = i.terminals; requests = i.requests }", "with_programs i l = record { clock = i.clock; programs = l; terminals = i.terminals; requests = [] }"),
    ("model/Interval", "with_terminals i l = record { clock = i.clock; programs = i.programs; terminals = l; requests = i.requests }", "with_terminals i l = record { clock = i.clock; programs = i.programs; terminals = l; requests = [] }"),
    ("model/Interval", "phase = p; bytes = q.bytes }", "phase = p; bytes = [] }"),
    ("model/Interval", "(cut (remove i (server i t).name) room", "(cut (took_own (remove i (server i t).name) n) room"),
    ("model/Interval", "(in_phase (Active false))", "(λ (x : Request). in_phase (Active (not (some x.bytes))) x)"),
    ("model/Interval", "begun c (suc n) = Waiting (c + suc n)", "begun c (suc n) = Waiting ((c + suc n) % 2 ^ 32)"),
    ("model/Interval", "(known ++ (n ∷ []))", "((n ∷ []) ++ known)"),
    # Handlers
    ("model/Handlers", "or_else Ignore general = Ignore", "or_else Ignore general = general"),
    ("model/Handlers", "or_else (Label n) general = Label n", "or_else (Label n) general = general"),
    ("model/Handlers", "or_else (get_or (settings_of l n) c Unset) (get_or (settings_of l n) 0 Unset)", "or_else (get_or (settings_of l n) 0 Unset) (get_or (settings_of l n) c Unset)"),
    ("model/Handlers", "or_else (get_or (settings_of l n) c Unset) (get_or (settings_of l n) 0 Unset)", "get_or (settings_of l n) c Unset"),
    ("model/Handlers", "settings = set t.settings c x }", "settings = set t.settings 0 x }"),
    ("model/Handlers", "settings = set t.settings c x }", "settings = set all_unset c x }"),
    ("model/Handlers", "(done (set_to l n c Unset) 0)", "(done (keep (λ (t : Task). not (eqb t.name n)) l) 0)"),
    ("model/Handlers", "(done (set_to l n c (Label label)) 0)", "(done (set_to l n c (Label c)) 0)"),
    ("model/Handlers", "forget l n = keep (λ (t : Task). not (eqb t.name n)) l", "forget l n = []"),
    ("model/Handlers", "forget l n = keep (λ (t : Task). not (eqb t.name n)) l", "forget l n = l"),
    # State
    ("model/State", "empty_at c = record { interval = idle_at c;", "empty_at c = record { interval = idle_at 0;"),
    ("model/State", "with_interval s i = record { interval = i; queues = s.queues; tasks = s.tasks }", "with_interval s i = record { interval = i; queues = []; tasks = s.tasks }"),
    ("model/State", "with_interval s i = record { interval = i; queues = s.queues; tasks = s.tasks }", "with_interval s i = record { interval = i; queues = s.queues; tasks = [] }"),
    ("model/State", "with_queues s l = record { interval = s.interval; queues = l; tasks = s.tasks }", "with_queues s l = record { interval = s.interval; queues = l; tasks = [] }"),
    ("model/State", "with_tasks s l = record { interval = s.interval; queues = s.queues; tasks = l }", "with_tasks s l = record { interval = s.interval; queues = []; tasks = l }"),
    ("model/State", "interval = remove s.interval n; queues = s.queues; tasks = forget s.tasks n }", "interval = s.interval; queues = s.queues; tasks = forget s.tasks n }"),
    ("model/State", "interval = remove s.interval n; queues = s.queues; tasks = forget s.tasks n }", "interval = remove s.interval n; queues = s.queues; tasks = s.tasks }"),
    ("model/State", "interval = remove s.interval n; queues = s.queues; tasks = forget s.tasks n }", "interval = remove s.interval n; queues = []; tasks = forget s.tasks n }"),
    # Commands
    ("model/Commands", "state = without_task o.state n }", "state = o.state }"),
    ("model/Commands", "settled o n (Label l) = record { answer = says o 1 l; state = o.state }", "settled o n (Label l) = record { answer = says o 1 0; state = o.state }"),
    ("model/Commands", "settled o n (Label l) = record { answer = says o 1 l; state = o.state }", "settled o n (Label l) = record { answer = says o 1 l; state = without_task o.state n }"),
    ("model/Commands", "settled o n Ignore = record { answer = says o 0 0; state = o.state }", "settled o n Ignore = record { answer = says o 0 0; state = without_task o.state n }"),
    ("model/Commands", "label = label; number = o.number; bytes = o.bytes }", "label = label; number = pick (eqb action 0) o.number 0; bytes = o.bytes }"),
    ("model/Commands", "label = label; number = o.number; bytes = o.bytes }", "label = label; number = o.number; bytes = pick (eqb action 0) o.bytes [] }"),
    ("model/Commands", "settle s n o =\n    pick (eqb o.condition normal || eqb n (blank 8))\n    (settled o n Ignore)\n    (settled o n (decides s.tasks n o.condition))", "settle s n o = pick (eqb o.condition normal || eqb n (blank 8)) (settled o n Ignore) (settled (record { condition = o.condition; number = o.number; bytes = o.bytes; state = s }) n (decides s.tasks n o.condition))"),
    ("model/Commands", "decides s.tasks n o.condition", "decides s.tasks (blank 8) o.condition"),
    ("model/Commands", "plan (check (wrong_kind w.who (issuer r)) invalid_request ∷ (w.plans L s r).checks)", "plan ((w.plans L s r).checks ++ (check (wrong_kind w.who (issuer r)) invalid_request ∷ []))"),
    ("model/Commands", "plan (check (wrong_kind w.who (issuer r)) invalid_request ∷ (w.plans L s r).checks)", "plan (w.plans L s r).checks"),
    ("model/Commands", "pick (formed r) (pick (allowed s r) (settle s (issuer r) (obeyed L s r)) (refused s 34)) (refused s 33)", "pick (allowed s r) (pick (formed r) (settle s (issuer r) (obeyed L s r)) (refused s 33)) (refused s 34)"),
    ("model/Commands", "step_any L s r = pick (sound L s) (step L s r) (refused s 32)", "step_any L s r = pick (formed r) (pick (sound L s) (step L s r) (refused s 32)) (refused s 33)"),
    ("model/Commands", "finish s n = plan [] (done (without_task s n) 0)", "finish s n = plan [] (done s 0)"),
    ("model/Commands", "retrieve i (issuer r) (operand 0 1 r)", "retrieve i (issuer r) 64"),
    ("model/Commands", "read_next l (operand 0 8 r) (operand 8 1 r)", "read_at l (operand 0 8 r) 1 (operand 8 1 r)"),
    # Lists
    ("model/Lists", "behind r (good v rs) = good v (r ∷ rs)", "behind r (good v rs) = good v (rs ++ (r ∷ []))"),
    ("model/Lists", "answers_from L (step L s r).state rs", "answers_from L s rs"),
    ("model/Lists", "state_after L s (r ∷ rs) = state_after L (step L s r).state rs", "state_after L s (r ∷ rs) = s"),
    ("model/Lists", "(a.condition ∷ a.action ∷ [])", "(a.action ∷ a.condition ∷ [])"),
    ("model/Lists", "bytes_of 2 a.label ++ bytes_of 4 a.number", "bytes_of 4 a.number ++ bytes_of 2 a.label"),
    ("model/Lists", "bytes_of 2 (8 + length a.bytes)", "bytes_of 2 (10 + length a.bytes)"),
    ("model/Lists", "encoded_all (a ∷ l) = encoded a ++ encoded_all l", "encoded_all (a ∷ l) = encoded_all l ++ encoded a"),
    ("model/Lists", "written = length (encoded_all l); buffer = over (encoded_all l) b }", "written = length b; buffer = over (encoded_all l) b }"),
    ("model/Lists", "written = length (encoded_all l); buffer = over (encoded_all l) b }", "written = length (encoded_all l); buffer = encoded_all l }"),
    ("model/Lists", "refusal c b = record { code = c; written = 0; buffer = b }", "refusal c b = record { code = c; written = 0; buffer = [] }"),
    ("model/Lists", "(answered (answers_from L (empty_at v) rs) b)", "(answered (answers_from L (empty_at 0) rs) b)"),
    ("model/Lists", "(leb (74 * length rs) (length b))", "(leb (length (encoded_all (answers_from L (empty_at v) rs))) (length b))"),
]

# ---- survivors that are no mistakes: (file, a part of the line as it becomes, reason)

EQUIVALENT = [
    ("model/Queues", "no_place q p = leb p 0 ||", "0 is the only number that is at most 0"),
    ("model/Interval", "not_taken (Waiting d) = true", "only the issuer's request is asked, and it is active"),
    ("model/Interval", "not_taken Expired = true", "only the issuer's request is asked, and it is active"),
    ("model/Interval", "no_later (Waiting d) Expired = false", "only what is newly expired is sorted, and it was waiting"),
    ("model/Interval", "no_later (Waiting d) (Active t) = false", "only what is newly expired is sorted, and it was waiting"),
    ("model/Interval", "no_later Expired p = false", "only what is newly expired is sorted, and it was waiting"),
    ("model/Interval", "no_later (Active t) p = false", "only what is newly expired is sorted, and it was waiting"),
    ("model/Interval", "no_request = record", "it is looked at only where no request passes, and then its values are not"),
    ("model/Interval", "plan (check (has n known) not_unique ∷ check (eqb n (blank 4)) invalid_request", "a blank name is never known"),
    ("model/Handlers", "(settings_of l n) c Ignore)", "a task has a setting for each condition, so the default is never read"),
    ("model/Handlers", "(settings_of l n) 0 Ignore)", "a task has a setting for each condition, so the default is never read"),
    ("model/Handlers", "(check (ltb invalid_request c || leb label 0) invalid_request", "0 is the only number that is at most 0"),
    ("model/Commands", "command r = get_or r 0 1", "an empty record is malformed whatever its command"),
    ("model/Commands", "no_row = row never", "no record has the size of this row, so nothing else of it is looked at"),
    ("model/Commands", "(operand 0 5 r)", "nothing stands behind the operand"),
    ("model/Commands", "cancel i (operand 0 9 r)", "nothing stands behind the operand"),
    ("model/Commands", "retrieve i (issuer r) (operand 0 2 r)", "nothing stands behind the operand"),
    ("model/Commands", "read_next l (operand 0 8 r) (operand 8 2 r)", "nothing stands behind the operand"),
    ("model/Commands", "(operand 8 2 r) (operand 10 2 r)", "nothing stands behind the operand"),
    ("model/Commands", "delete l (operand 0 9 r)", "nothing stands behind the operand"),
    ("model/Commands", "(operand 0 1 r) (operand 1 3 r)", "nothing stands behind the operand"),
    ("model/Commands", "ignore l (issuer r) (operand 0 2 r)", "nothing stands behind the operand"),
    ("model/Commands", "reset l (issuer r) (operand 0 2 r)", "nothing stands behind the operand"),
    ("model/Commands", "pick (leb o.condition normal || eqb n (blank 8))", "0 is the only number that is at most 0"),
    ("model/Lists", "whole l = leb 1 (length l) &&", "the last test asks for 2 bytes and more"),
    ("model/Lists", "whole l = leb 3 (length l) &&", "the last test asks for 2 bytes and more, and the second for 9"),
    ("model/Lists", "whole l = ltb 2 (length l) &&", "the last test asks for 2 bytes and more, and the second for 9"),
    ("model/Lists", "whole l = leb 9 (num 0 2 l) &&", "the last test asks for 2 bytes and more"),
    ("model/Lists", "records v zero l =", "the list has more bytes than records, so this clause decides nothing"),
    ("model/Lists", "pick (leb (length l) 0) (good v [])", "0 is the only number that is at most 0"),
    ("base/Lists", "first_at p [] = 1", "dispatch reads it only where one in the line is startable"),
]

# ---- the run


def spec(root, file):
    return root / "crates" / file.split("/")[0] / "specs" / (file.split("/")[1] + ".antt")


def prepare(folder):
    """A repository of the definitions alone, and its texts."""
    texts = {}
    for crate, names in CRATES.items():
        source = folder / "crates" / crate / "src" / "lib.rt"
        source.parent.mkdir(parents=True)
        source.write_text("// Definitions only.\n")  # base's functions have proofs, which are no judges
        (folder / "crates" / crate / "specs").mkdir()
        spec(folder, f"{crate}/Lib").write_text("".join(f"pub mod {n}\n" for n in names))
        for file in (f"{crate}/{n}" for n in names):
            texts[file] = spec(ROOT, file).read_text()
            for module, words in IMPORTS.items():
                widened = lambda m: f"use {module}.{{{', '.join(dict.fromkeys(m[1].split(', ') + words.split()))}}}"
                texts[file] = re.sub(rf"^use {re.escape(module)}\.{{(.*)}}$", widened, texts[file], flags=re.M)
            spec(folder, file).write_text(texts[file])
    (folder / "crates.txt").write_text("base:\nmodel: base\n")
    return texts


def judged(folder):
    """By the judges in turn: kept, refused where one no longer computes to its answers, ill-typed, or unclear; and the first error."""
    for name in JUDGES:
        spec(folder, f"model/{name}").unlink(missing_ok=True)
    for k, name in enumerate(JUDGES):
        shutil.copy(spec(ROOT, f"model/{name}"), spec(folder, f"model/{name}"))
        spec(folder, "model/Lib").write_text("".join(f"pub mod {n}\n" for n in CRATES["model"] + JUDGES[:k + 1]))
        try:
            run = subprocess.run(["rt", "check"], cwd=folder / "crates" / "model", capture_output=True, text=True, timeout=600)
        except subprocess.TimeoutExpired:
            return "unclear", "no result in time"
        errors = [line for line in (run.stdout + run.stderr).splitlines() if ": error: " in line]
        if run.returncode == 0:
            continue
        if not errors or "step limit" in errors[0]:
            return "unclear", (errors or [run.stdout + run.stderr])[0][:300]
        return "refused" if pathlib.Path(errors[0].split(":")[0]).stem in JUDGES else "ill-typed", errors[0][:300]
    return "kept", ""


def main():
    ask = argparse.ArgumentParser(usage=__doc__[__doc__.index("tools/"):])
    ask.add_argument("-j", type=int, default=1)
    ask.add_argument("-k", default="")
    ask.add_argument("--list", action="store_true")
    ask.add_argument("--every", action="store_true")
    want = ask.parse_args()
    with tempfile.TemporaryDirectory() as temp, concurrent.futures.ThreadPoolExecutor(want.j) as pool:
        folders = queue.Queue()
        for k in range(want.j):
            folders.put(pathlib.Path(temp) / str(k))
            texts = prepare(folders.queue[k])
        edited, bad = [], 0
        for file, old, new in LISTED:
            at = texts[file].find(old)
            if texts[file].count(old) == 1:
                edited.append((file, at, at + len(old), new))
            else:
                print(f"{file}: fits {texts[file].count(old)} places: {old}")
                bad += 1
        for file, text in texts.items():
            edited += [(file, *e) for e in edits(text) if not text.startswith(UNUSED, text.rfind("\n", 0, e[0]) + 1)]
        mutants = {}
        for file, start, end, new in edited:  # by the text that each makes: its file, the lines that it changes, and what they become
            text = texts[file]
            first, last = text.rfind("\n", 0, start) + 1, text.index("\n", end)
            was, now = (" ".join((text[first:start] + x + text[end:last]).split()) for x in (text[start:end], new))
            if want.k in f"{file} {was} {now}":
                mutants.setdefault(text[:start] + new + text[end:], (file, was, now))

        def tried(text, mutant):
            folder = folders.get()
            spec(folder, mutant[0]).write_text(text)
            result = judged(folder)
            spec(folder, mutant[0]).write_text(texts[mutant[0]])
            folders.put(folder)
            return result

        if want.list:
            print("".join(f"{file}: {was}\n    becomes {now}\n" for file, was, now in mutants.values()) + f"{len(mutants)} mutants")
            return bad
        unedited = judged(folders.queue[0]) if shutil.which("rt") else ("", "rt is not on the PATH")
        if unedited[0] != "kept":
            print("the unedited copy does not check:", unedited[1])
            return 2
        counts, unused = {}, set(EQUIVALENT)
        for (file, was, now), (result, why) in zip(mutants.values(), pool.map(tried, mutants, mutants.values())):
            same = [e for e in EQUIVALENT if e[0] == file and e[1] in now]
            unused -= set(same)
            counts[result] = counts.get(result, 0) + 1
            wrong = result in ("kept", "unclear") and not same or result == "refused" and same
            bad += bool(wrong)
            if wrong or result == "kept" or want.every:
                print(f"{result}{', unexpectedly' if wrong else ''}: {file}: {was}\n    becomes {now}\n    {same[0][2] if same else why}", flush=True)
        for e in unused if not want.k else ():
            print("listed as equivalent, but no such mutant:", *e)
            bad += 1
        print(len(mutants), "mutants:", ", ".join(f"{n} {result}" for result, n in sorted(counts.items())))
    return 1 if bad else 0


if __name__ == "__main__":
    sys.exit(main())
