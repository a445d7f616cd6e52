"""Random scripts, made from a seed: datasets with fixed and record variables, and ranks that put, get, post and wait, together and alone."""
import random

TYPES = ("byte", "short", "int", "float", "double")
BUFFERS = (1, 3, 16, 40, 96, 512)


class Script:
    """A script under way: its variables, and the calls of each rank."""

    def __init__(self, seed):
        self.random = random.Random(seed)
        self.ranks = self.random.randint(1, 4)
        self.lengths = [self.random.randint(1, 9) for _ in range(2)]
        self.vars = []
        self.calls = [[] for _ in range(self.ranks)]
        self.ids = [0] * self.ranks

    def text(self):
        head = [f"create {self.random.choice((1, 2, 5))}", f"ranks {self.ranks}", *self.hints()]
        head += ["fill"] * (self.random.random() < 0.15) + ["dim t unlimited", *(f"dim d{k} {n}" for k, n in enumerate(self.lengths))]
        head += [self.variable(number) for number in range(self.random.randint(1, 4))]
        for _ in range(self.random.randint(1, 5)):
            self.stage()
        return "\n".join([*head, "data", *(f"{rank} {call}" for rank, calls in enumerate(self.calls) for call in calls), "end", ""])

    def hints(self):
        """Small buffers and units, so that there are many windows."""
        for name in ("cb_buffer_size", "ind_rd_buffer_size", "ind_wr_buffer_size"):
            if self.random.random() < 0.7:
                yield f"hint {name} {self.random.choice(BUFFERS)}"
        for name, values in (("cb_nodes", (1, 2, 3, 7)), ("striping_unit", (4, 24, 64)), ("nc_var_align_size", (4, 64)), ("overlap", ("serial",))):
            if self.random.random() < 0.4:
                yield f"hint {name} {self.random.choice(values)}"

    def variable(self, number):
        dims = self.random.choice((["d0"], ["d1"], ["d0", "d1"], ["t"], ["t", "d0"], ["t", "d1", "d0"]))
        self.vars.append((f"v{number}", self.random.choice(TYPES), dims))
        return f"var {self.vars[-1][1]} v{number} [{','.join(dims)}]"

    def region(self, dims, is_put):
        """Start, count and stride within the lengths, and of records within a few."""
        parts = []
        for dim in dims:
            length = self.random.randint(1, 4) if dim == "t" else self.lengths[int(dim[1:])]
            stride = self.random.choice((1, 1, 2, 3))
            start = self.random.randrange(length)
            count = self.random.randint(0 if is_put else 1, (length - 1 - start) // stride + 1)
            parts.append((start, count, stride))
        return parts

    def access(self, verb, suffix, post=""):
        """A put or a get of a random variable and region, often a refused one."""
        name, kind, dims = self.random.choice(self.vars)
        parts = self.region(dims, verb.endswith("put"))
        form = "vars" if any(stride > 1 for _, _, stride in parts) else "vara"
        lists = [f"[{','.join(str(part[k]) for part in parts)}]" for k in range(3 if form == "vars" else 2)]
        count = 1
        for _, many, _ in parts:
            count *= many
        values = f" {'seqx' if kind in ('float', 'double') else 'seq'} {count} {'x1 x1' if kind in ('float', 'double') else '1 1'}" if verb.endswith("put") else ""
        return f"{verb}_{form}{suffix} {post}{name} {' '.join(lists)}{values}"

    def stage(self):
        self.random.choice((self.together, self.together, self.posted, self.alone))()

    def together(self):
        for calls in self.calls:
            calls.append(self.access("put", "_all"))
        for calls in self.calls:
            calls.append(self.access("get", "_all"))

    def posted(self):
        for rank, calls in enumerate(self.calls):
            for _ in range(self.random.randint(0, 3)):
                calls.append(self.access(self.random.choice(("iput", "iput", "iget")), "", f"{self.ids[rank]} "))
                self.ids[rank] += 1
            calls.append("wait_all all")

    def alone(self):
        for calls in self.calls:
            calls.append("begin_indep_data")
            for _ in range(self.random.randint(0, 3)):
                calls.append(self.access(self.random.choice(("put", "put", "get")), ""))
            calls.append("end_indep_data")


def random_script(seed):
    return Script(seed).text()
