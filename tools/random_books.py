"""Random records for the tests, within the counts that they are given."""
import book_format as f


def concepts(rng, classes, roles, individuals, atomics, others):
    """So many Atomics, and others of several shapes over them."""
    out = [(f.ATOMIC, rng.randrange(classes)) for _ in range(atomics)]
    for _ in range(others):
        n, role = len(out), rng.randrange(2 * roles)
        out.append(rng.choice([
            (f.NOMINAL, rng.randrange(individuals)) if individuals else (f.BOT,), (f.SOME, role, rng.randrange(n)), (f.TOP,),
            (f.AND, *(rng.randrange(n) for _ in range(rng.randrange(4)))), (f.OR, rng.randrange(n)), (f.ALL, role, rng.randrange(n))]))
    return out


def statement(rng, roles, concept_count, individuals, kinds=tuple(f.STATEMENT_MAPS)):
    """One of these kinds, as far as the counts allow them; roles in both polarities."""
    kind = rng.choice([kind for kind in kinds if individuals or kind not in (f.SAME, f.CLASS_ASSERTION, f.ROLE_ASSERTION, f.DIFFERENT, f.DENIAL)])
    map_ = rng.choice(f.STATEMENT_MAPS[kind])
    role = 2 * roles
    limits = (role, role, role, role, concept_count, concept_count, individuals, individuals)
    return kind, *(rng.randrange(limits[bit]) for bit in range(8) if map_ >> bit & 1)
