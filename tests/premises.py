#!/usr/bin/env python3
"""No promise of a public function stands under a premise that some argument does not meet, so that of that argument nothing is promised.

Read are the ensures of each public function (`pub fn`, the methods of a trait and of its impls) and the ghost members of an impl that say what a method
gives, with the facts of specs/ that they cite: the fields of a record and the body of an abbreviation, and what those cite in turn. Found is a fact before
an arrow, also one that has a name, `(h : a ≡ b) →`; a binder of a value, `(q m : List ℕ) →`, is not. A word of the library that says something of one
case alone, as IfSome, is found too. Each function that has a premise, or the definition that the premise stands in, is in tests/premises.txt with the reason why
every argument is covered; a row that nothing needs is an error too."""
import os
import re
import sys

os.chdir(os.path.dirname(os.path.dirname(os.path.abspath(__file__))))
RELATIONS = {'≡', '≤', '<', '≥', '>', '≢', '↔', '∈', '≤ℤ', '<ℤ'}
ONE_CASE = {'IfSome', 'IfNone', 'IfOk', 'IfErr', 'OnOk', 'OnErr', 'OnSome', 'OnNone'}
LIBRARY_FACTS = ONE_CASE | {'IsTrue', 'IsFalse', 'All', 'Contains', 'EachIndex', 'MatchOption', 'MatchResult', '⊥'}
OPENS, CLOSES = '({[', ')}]'


def without_comments(text):
    return re.sub(r'(?:^|(?<=\s))--.*', '', text, flags=re.M)


def without_texts(text):
    """A .rt file without comments, and with nothing in its texts and characters, where a bracket may stand alone."""
    return re.sub(r'//.*|"(?:\\.|[^"\\])*"|\'(?:\\.|[^\'\\])\'', lambda m: '' if m[0][0] == '/' else m[0][0] * 2, text)


def closing(text, at):
    """The place of the bracket that closes the one at a place."""
    depth = 0
    for i in range(at, len(text)):
        depth += (text[i] in OPENS) - (text[i] in CLOSES)
        if depth == 0:
            return i
    raise ValueError('a bracket that nothing closes: ' + text[at:at + 80])


# ---- specs/: the facts that are defined, by module and name

class Fact:
    """A definition whose values are types. It is a fact where what it is made of says one; else it is a type of values."""

    def __init__(self, module, name):
        crate, _, rest = module.partition('.')
        self.place = 'crates/%s/%s.antt:%s' % (crate, rest.replace('.', '/'), name)
        self.module, self.name, self.bodies, self.cases, self.says = module, name, [], [], False


class Module:
    def __init__(self):
        self.facts, self.uses, self.named = {}, {}, {}


def uses(module, text, line):
    """What a file brings in: names of items, and names of modules."""
    for path, items, alias in re.findall(line + r'use Rattle\.([\w.-]+?)(?:\.\{([^}]*)\})?(?: as ([\w-]+))?;?$', text, re.M):
        if items:
            for item in items.split(','):
                name, _, other = item.strip().partition(' as ')
                module.uses[other or name] = (path, name)
        else:
            module.named[alias or path.split('.')[-1]] = path


def statements(text):
    """The statements of a file by their layout: (indent, text)."""
    found = []
    for line in text.split('\n'):
        if not line.strip():
            continue
        indent = len(line) - len(line.lstrip())
        if found and indent > found[-1][0] and not found[-1][2]:
            found[-1][1] += ' ' + line.strip()
        else:
            found.append([indent, line.strip(), False])
        # what stands in a record or a module are statements of their own
        found[-1][2] = found[-1][1].endswith(' where') and re.match(r'(pub )?(record|data|module)\b', found[-1][1]) is not None
    return [(indent, said) for indent, said, _ in found]


def read_specs(crate, path, modules):
    with open(path, encoding='utf-8') as f:
        text = without_comments(f.read())
    name = crate + '.' + path.split(crate + '/', 1)[1][:-len('.antt')].replace('/', '.')
    module = modules[name] = Module()
    uses(module, text, r'^')
    record, inside = None, 0
    for indent, said in statements(text):
        if record is not None and indent <= inside:
            record = None
        head = re.match(r'(?:pub )?(record|data) ([^\s({:]+).*: Type', said)
        if head:
            fact, inside = module.facts.setdefault(head[2], Fact(name, head[2])), indent
            # one case of a data is one way to hold, so what stands before its arrows is no premise
            record = fact.bodies if head[1] == 'record' else fact.cases
            continue
        if re.match(r'(pub )?(module|use|infix)', said):
            continue
        if record is not None:
            field = re.match(r'(?:pub )?\S+ : (.*)', said)
            if field:
                record.append(field[1])
            continue
        signature = re.match(r'(?:(?:abbrev|unfoldable|pub) )*([^\s({:]+) : (.*)', said)
        if signature and ' = ' not in said.split(':')[0]:
            if re.search(r'(^|→ ?)Type( 0)?$', signature[2].strip()):
                module.facts[signature[1]] = Fact(name, signature[1])
            continue
        equation = re.match(r'([^\s({:]+)(?: .*?)? = (.*)', said)
        if equation and equation[1] in module.facts:
            module.facts[equation[1]].bodies.append(equation[2])


def weigh(modules):
    """Which definitions are facts: those that a fact is in."""
    changed = True
    while changed:
        changed = False
        for module in modules.values():
            for fact in module.facts.values():
                if not fact.says and any(says_a_fact(b, module, modules) for b in fact.bodies + fact.cases):
                    fact.says = changed = True


def fact_named(word, module, modules):
    """The definition of a name as a file has it."""
    first, _, rest = word.partition('.')
    if rest and first in module.named and module.named[first] in modules:
        return modules[module.named[first]].facts.get(rest)
    if word in module.facts:
        return module.facts[word]
    path, name = module.uses.get(word, ('', ''))
    return modules[path].facts.get(name) if path in modules else None


# ---- a term: its words, and its premises

def words(term):
    return re.findall(r'[^\s(){}\[\],;]+', term)


def segments(term):
    """The term between its own arrows."""
    parts, depth, begin = [], 0, 0
    for i, c in enumerate(term):
        depth += (c in OPENS) - (c in CLOSES)
        if c == '→' and depth == 0:
            parts.append(term[begin:i])
            begin = i + 1
    return parts + [term[begin:]]


def groups(term):
    """What stands in its own brackets."""
    i, found = 0, []
    while i < len(term):
        if term[i] in OPENS:
            j = closing(term, i)
            found.append((term[i], term[i + 1:j]))
            i = j
        i += 1
    return found


def binder(inside):
    """The type of what a bracket binds, if it binds."""
    m = re.match(r"\s*[^\s:(){}]+(?:\s+[^\s:(){}]+)*\s+:\s+(.*)", inside, re.S)
    return m[1] if m else None


def says_a_fact(term, module, modules):
    for word in words(term):
        fact = fact_named(word, module, modules)
        if word in RELATIONS or word in LIBRARY_FACTS or fact and fact.says:
            return True
    return False


def premises(term, is_fact, of_value=False):
    """The facts before an arrow. The type of a value that is bound may be that of a function: what stands before its arrows are no facts."""
    found = []
    parts = segments(term)
    for part in parts[:-1]:
        # a λ before it binds, and is no part of it
        part = re.sub(r'^\s*λ.*?\.(?=\s)', '', part, flags=re.S).strip()
        bound = [binder(inside) for _, inside in groups(part)]
        if bound and all(bound) and not re.sub(r'\(.*\)|\{.*\}', '', part, flags=re.S).strip():
            found += [b for b in bound if is_fact(b)]
        elif is_fact(part) or not of_value:
            found.append(part)
    for part in parts:
        for _, inside in groups(part):
            kind = binder(inside)
            found += premises(kind, is_fact, True) if kind else premises(inside, is_fact, of_value)
    return found


def cited(term, module, modules, seen, way):
    """The premises of a term and of the facts that it cites, each with the way to it."""
    found = [(way, p) for p in premises(term, lambda t: says_a_fact(t, module, modules))]
    found += [(way, w) for w in words(term) if w in ONE_CASE]
    for word in words(term):
        fact = fact_named(word, module, modules)
        if fact and id(fact) not in seen:
            seen.add(id(fact))
            for body in fact.bodies:
                found += cited(body, modules[fact.module], modules, seen, way + [fact])
    return found


# ---- src/: the public functions and their clauses

def clauses(text, at):
    """The ensures behind the name of a function at a place, up to its body."""
    i, depth = at, 0
    # what is generic, with the bounds of closures in it; an arrow is no bracket
    while text[i] != '(' or depth:
        depth += (text[i] == '<') - (text[i] == '>' and text[i - 1] != '-')
        i += 1
    i = closing(text, i) + 1
    found = []
    while True:
        # a result may be an array, `[u8; 20]`
        m = re.compile(r'[\[{;]|\b(?:requires|ensures|ghost)\b').search(text, i)
        if m and m[0] == '[':
            i = closing(text, m.start()) + 1
            continue
        if not m or m[0] in '{;':
            return found
        begin = text.index('{', m.end())
        i = closing(text, begin) + 1
        if m[0] == 'ensures':
            found.append(text[begin + 1:i - 1])


def public(text):
    """(name, clause) of all that is promised publicly."""
    inside = []
    for m in re.finditer(r'^(?:pub )?(?:unsafe )?(trait|impl)\b[^;{]*', text, re.M):
        block = m.end()
        while text[block] != '{':
            block += 1
        # the clauses of a generic impl stand before its block
        if m[1] == 'trait' or re.search(r'\bfor\b', m[0]):
            inside.append((block, closing(text, block), re.sub(r'\s+', ' ', m[0]).strip()))
    for m in re.finditer(r'\bfn ([a-z_]\w*)', text):
        before = text[text.rfind('\n', 0, m.start()) + 1:m.start()]
        where = [w for begin, end, w in inside if begin < m.start() < end]
        if not re.fullmatch(r'\s*(?:#\[[^\]]*\]\s*)*(?:pub )?(?:const )?(?:unsafe )?(?:extern "C" )?', before):
            continue
        if not where and not re.search(r'\bpub ', before):
            continue
        for clause in clauses(text, m.end()):
            yield m[1], clause
    for begin, end, where in inside:
        for m in re.finditer(r'\bghost (\w+) = \{', text[begin:end]):
            i = begin + m.end() - 1
            yield re.sub(r'.*\bfor ', '', where).split('<')[0] + '::' + m[1], text[i + 1:closing(text, i)]


def main():
    modules, found = {}, {}
    crates = sorted(os.listdir('crates'))
    for crate in crates:
        for folder, inside, names in os.walk('crates/%s/specs' % crate):
            for name in sorted(names):
                if name.endswith('.antt') and name != 'Lib.antt':
                    read_specs(crate, os.path.join(folder, name), modules)
    weigh(modules)
    count = 0
    for crate in crates:
        for folder, inside, names in os.walk('crates/%s/src' % crate):
            for name in sorted(n for n in names if n.endswith('.rt')):
                path = os.path.join(folder, name)
                with open(path, encoding='utf-8') as f:
                    text = without_texts(f.read())
                module = Module()
                uses(module, text, r'^\s*(?:pub )?ghost ')
                for function, clause in public(text):
                    count += 1
                    for way, premise in cited(clause, module, modules, set(), []):
                        found.setdefault('%s:%s' % (path, function), []).append((way, ' '.join(premise.split())))
    known = {}
    with open('tests/premises.txt', encoding='utf-8') as f:
        for line in f:
            if line.strip() and not line.startswith('#'):
                function, _, reason = line.strip().partition(' ')
                known[function] = reason.strip()
    wrong = ['%s: without a reason' % f for f, reason in known.items() if not reason]
    needed = set()
    for function in sorted(found):
        for way, premise in found[function]:
            row = way[-1].place if way and way[-1].place in known else function
            needed.add(row)
            if row not in known:
                by = ' (by %s)' % ' of '.join(fact.name for fact in reversed(way)) if way else ''
                wrong.append('%s: promises nothing where `%s` does not hold%s' % (function, premise, by))
    wrong += ['%s: nothing has a premise by it any more' % row for row in known if row not in needed]
    for line in wrong:
        print(line)
    if not wrong:
        print('ok: of %d public promises %d are under a premise, each with its reason in tests/premises.txt' % (count, len(found)))
    sys.exit(1 if wrong else 0)


main()
