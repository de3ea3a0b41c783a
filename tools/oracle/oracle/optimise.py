"""The optimisers: fold_constants, share_terms, drop_dead, optimise; the marking."""
from .cells import Overflow
from .mal import Instr, Out, Plan, FUNCTIONS, FAULTING, const, var, run_op, bat_flags


def _front(plan, fold, share):
    """One pass from the front; at each instruction folding, then sharing."""
    instrs, place, seen = [], [], {}

    def rename(a):
        return a if a[0] == 'c' else place[a[1]]

    for instr in plan.instrs:
        new = Instr(instr.op, tuple(rename(a) for a in instr.args))
        if fold and new.op in FUNCTIONS and all(a[0] == 'c' for a in new.args):
            try:
                v, _ = run_op(new.op, [a[1] for a in new.args])
                place.append(const(v))
                continue
            except Overflow:
                pass
        if share and new in seen:
            place.append(seen[new])
            continue
        instrs.append(new)
        place.append(var(len(instrs) - 1))
        seen.setdefault(new, place[-1])
    out = plan.out
    return Plan(instrs, Out([rename(c) for c in out.cols],
                            None if out.keep is None else rename(out.keep),
                            out.order, out.limit))


def fold_constants(plan):
    return _front(plan, True, False)


def share_terms(plan):
    return _front(plan, False, True)


def drop_dead(plan):
    n = len(plan.instrs)
    live = [i.op in FAULTING for i in plan.instrs]
    for a in plan.out.cols + ([] if plan.out.keep is None else [plan.out.keep]):
        if a[0] == 'v':
            live[a[1]] = True
    for k in range(n - 1, -1, -1):
        if live[k]:
            for a in plan.instrs[k].args:
                if a[0] == 'v':
                    live[a[1]] = True
    place, kept = {}, []

    def rename(a):
        return a if a[0] == 'c' else var(place[a[1]])

    for k, instr in enumerate(plan.instrs):
        if live[k]:
            kept.append(Instr(instr.op, tuple(rename(a) for a in instr.args)))
            place[k] = len(kept) - 1
    out = plan.out
    return Plan(kept, Out([rename(c) for c in out.cols],
                          None if out.keep is None else rename(out.keep),
                          out.order, out.limit))


def optimise(plan):
    return drop_dead(_front(plan, True, True))


def marks(plan):
    flags, out = bat_flags(plan), []
    for n, instr in enumerate(plan.instrs):
        out.append(flags[n] and all(out[a[1]] for a in instr.args if a[0] == 'v'))
    return out
