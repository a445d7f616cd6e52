"""The scripts of the benchmark's rows: the lines from `create` or `open` up to the last call, of n and of so many ranks. Those that read end with the get of one
element, which is the last that a run asks the file for."""

BAND_ROWS, COLUMNS, COLUMN_STEP, ATTACHED = 180, 360, 45, 2 ** 19     # a record of a field, and the bytes that all ranks attach
BLOCK = (128, 128, 64)     # a field of 4 MiB
DOUBLES = 2 ** 17          # a row of 1 MiB
STEP = 512                 # of so many doubles of it one is read
NARROW, WIDE = 32, 1024    # rows of 256 bytes, and of 8 KiB
RECORD = 1024              # floats of a record
POSTS, SHARE = 100, 256    # posts of a step, and floats of a rank's post
PARTS, PART = 1000, 8      # regions of a call, and floats of one
LINE = 2 ** 20             # numbers of a call
COLUMN = 3                 # the column that is read


def of_ranks(ranks, calls):
    """The lines of all ranks: `calls` gives those of one."""
    return [f"{rank} {call}" for rank in range(ranks) for call in calls(rank)]


def share(total, ranks, rank):
    """The first of a rank's share of so many, and how many they are."""
    first = total * rank // ranks
    return first, total * (rank + 1) // ranks - first


# ---- many calls

def vector(n):
    """The definitions of a new dataset with one variable of n ints, and one rank."""
    return ["create 1", "ranks 1", f"dim x {n}", "var int v [x]", "data"]


def calls(n, _):
    """n collective puts of one element each."""
    return vector(n) + [f"0 put_var1_all v [{k}] {k}" for k in range(n)]


def waits(n, _):
    """n puts of one element each that are posted, and then waited for one by one, in order of posting."""
    return vector(n) + [f"0 iput_var1 {k} v [{k}] {k}" for k in range(n)] + [f"0 wait_all {k}" for k in range(n)]


def small(n, ranks):
    """n variables, of which each rank writes an element by one collective put a variable."""
    return (["create 1", f"ranks {ranks}", f"dim x {ranks}"] + [f"var int v{k} [x]" for k in range(n)] + ["data"]
            + of_ranks(ranks, lambda rank: [f"put_vara_all v{k} [{rank}] [1] {ranks * k + rank}" for k in range(n)]))


def variables(n, ranks):
    """The same over records, of which one is written."""
    return (["create 1", f"ranks {ranks}", "dim t unlimited", f"dim x {ranks}"] + [f"var int v{k} [t,x]" for k in range(n)] + ["data"]
            + of_ranks(ranks, lambda rank: [f"put_vara_all v{k} [0,{rank}] [1,1] {ranks * k + rank}" for k in range(n)]))


def steps(n, ranks):
    """n records of 4 KiB, each by one collective put of all ranks."""
    def puts(rank):
        first, count = share(RECORD, ranks, rank)
        return [f"put_vara_all v [{t},{first}] [1,{count}] seqx {count} x{0x3F000000 + RECORD * t + first:X} x1" for t in range(n)]
    return ["create 1", f"ranks {ranks}", "dim t unlimited", f"dim x {RECORD}", "var float v [t,x]", "data"] + of_ranks(ranks, puts)


def posted(n, ranks):
    """n records of a hundred variables: each rank posts its share of each, and waits for all of a record by one call."""
    def posts(rank):
        lines = []
        for t in range(n):
            lines += [f"iput_vara {POSTS * t + k} f{k} [{t},{SHARE * rank}] [1,{SHARE}] seqx {SHARE} x{0x3F000000 + k + SHARE * rank:X} x1" for k in range(POSTS)]
            lines.append("wait_all all")
        return lines
    return (["create 1", f"ranks {ranks}", "dim t unlimited", f"dim x {SHARE * ranks}"] + [f"var float f{k} [t,x]" for k in range(POSTS)] + ["data"]
            + of_ranks(ranks, posts))


def independent(n, ranks):
    """n puts of one element by each rank alone, in independent data mode."""
    def puts(rank):
        return ["begin_indep_data"] + [f"put_var1 v [{rank},{k}] {n * rank + k}" for k in range(n)] + ["end_indep_data"]
    return ["create 1", f"ranks {ranks}", f"dim r {ranks}", f"dim x {n}", "var int v [r,x]", "data"] + of_ranks(ranks, puts)


# ---- headers, and values of the script and of the format

def attributes(n, _):
    """n attributes that are added to the variable of a dataset."""
    return ["open", "ranks 1"] + [f"att v a{k} int {k}" for k in range(n)] + ["data"]


def header(_, __):
    """A dataset of n variables is opened, and an element of the first is read."""
    return ["open", "ranks 1", "data", "0 get_var1_all v0 [0]"]


def fill(n, ranks):
    """A variable of n MiB whose values are all fill values."""
    return ["create 1", f"ranks {ranks}", "fill", f"dim x {n * 2 ** 18}", "var int v [x]", "data"]


def numbers(n, _):
    """n puts of 2^20 numbers that stand in the script."""
    row = " ".join(str(1000 + k * 7919 % 9000) for k in range(LINE))
    return (["create 1", "ranks 1", f"dim y {n}", f"dim x {LINE}", "var int v [y,x]", "data"]
            + [f"0 put_vara_all v [{k},0] [1,{LINE}] {row}" for k in range(n)])


# ---- fields

def fields(n, ranks):
    """The calls of the made run: each rank posts its band of a field of floats and of one of shorts, waits for both, record after record, and then
    reads a column of each field in all n records."""
    def of_rank(rank):
        first, rows = share(BAND_ROWS, ranks, rank)
        band, size = f"{first},0] [1,{rows},{COLUMNS}]", rows * COLUMNS
        lines = [f"buffer_attach {ATTACHED // ranks}"]
        for t in range(n):
            lines.append(f"bput_vara {2 * t} temp [{t},{band} seqx {size} x{0x3F800000 + BAND_ROWS * COLUMNS * t + COLUMNS * first:X} x1")
            lines.append(f"bput_vara {2 * t + 1} precip [{t},{band} seq {size} {t - 4140} 1")
            lines.append("wait_all all")
        lines += [f"get_vara_all {name} [0,0,{COLUMN_STEP * rank}] [{n},{BAND_ROWS},1]" for name in ("temp", "precip")]
        return lines + ["buffer_detach", "get_var1_all temp [0,0,0]"]
    return (["create 1", f"ranks {ranks}", "dim t unlimited", f"dim y {BAND_ROWS}", f"dim x {COLUMNS}", "var float temp [t,y,x]", "var short precip [t,y,x]", "data"]
            + of_ranks(ranks, of_rank))


def box(ranks, rank):
    """The region of a rank's block: the first two dimensions are halved where the ranks can be, and the third is divided among what is left."""
    first = 1 if ranks % 2 else 2
    second = 1 if ranks // first % 2 else 2
    third = ranks // first // second
    places = rank // third // second, rank // third % second, rank % third
    shares = [share(size, parts, place) for size, parts, place in zip(BLOCK, (first, second, third), places)]
    return ["[" + ",".join(map(str, numbers)) + "]" for numbers in zip(*shares)], shares[0][1] * shares[1][1] * shares[2][1]


def blocks(n, ranks):
    """n fields of 4 MiB, each by one collective put of a block of three dimensions by each rank."""
    def puts(rank):
        region, size = box(ranks, rank)
        return [f"put_vara_all v{k} {' '.join(region)} seqx {size} x{0x3F000000 + (rank << 20):X} x1" for k in range(n)]
    sizes = [f"dim {name} {size}" for name, size in zip("zyx", BLOCK)]
    return ["create 1", f"ranks {ranks}", *sizes] + [f"var float v{k} [z,y,x]" for k in range(n)] + ["data"] + of_ranks(ranks, puts)


def block_reads(n, ranks):
    """The same blocks, read."""
    return ["open", f"ranks {ranks}", "data"] + of_ranks(
        ranks, lambda rank: [f"get_vara_all v{k} {' '.join(box(ranks, rank)[0])}" for k in range(n)] + ["get_var1_all v0 [0,0,0]"])


# ---- rows and columns that are dealt to the ranks in turn

def dealt_rows(n, width, ranks, rank):
    """The start, count and stride of a rank's rows, and how many elements they have."""
    count = len(range(rank, n, ranks))
    return f"[{rank if count else 0},0] [{count},{width}] [{ranks},1]", count * width


def put_rows(name, n, width, ranks, rank):
    region, size = dealt_rows(n, width, ranks, rank)
    return f"put_vars_all {name} {region} seqx {size} x{rank << 32:X} x1"


def get_steps(n, ranks, rank):
    """An element of each 4 KiB of a rank's rows, and then one more."""
    count = len(range(rank, n, ranks))
    return [f"get_vars_all field [{rank if count else 0},0] [{count},{DOUBLES // STEP}] [{ranks},{STEP}]", "get_var1_all field [0,0]"]


def cyclic_rows(n, ranks):
    """n rows of 256 bytes, by one collective put."""
    return (["create 1", f"ranks {ranks}", f"dim y {n}", f"dim x {NARROW}", "var double v [y,x]", "data"]
            + of_ranks(ranks, lambda rank: [put_rows("v", n, NARROW, ranks, rank)]))


def cyclic_columns(n, ranks):
    """n elements of 8 bytes, neighbours of which are of different ranks, by one collective put."""
    def puts(rank):
        count = len(range(rank, WIDE, ranks))
        return [f"put_vars_all v [0,{rank}] [{n // WIDE},{count}] [1,{ranks}] seqx {n // WIDE * count} x{rank << 32:X} x1"]
    return ["create 1", f"ranks {ranks}", f"dim y {n // WIDE}", f"dim x {WIDE}", "var double v [y,x]", "data"] + of_ranks(ranks, puts)


def aggregators(n, ranks):
    """n rows of 1 MiB, by one collective put, and an element of each 4 KiB of them read, so that all of it is."""
    return (["create 1", f"ranks {ranks}", f"dim y {n}", f"dim x {DOUBLES}", "var double field [y,x]", "data"]
            + of_ranks(ranks, lambda rank: [put_rows("field", n, DOUBLES, ranks, rank), *get_steps(n, ranks, rank)]))


def reads(n, ranks):
    """The same rows, read alone."""
    return ["open", f"ranks {ranks}", "data"] + of_ranks(ranks, lambda rank: get_steps(n, ranks, rank))


def reads_by_mib(n, ranks):
    """The same by windows of 1 MiB."""
    lines = reads(n, ranks)
    lines.insert(lines.index("data"), "hint cb_buffer_size 1048576")
    return lines


# ---- single pieces

def varn(n, ranks):
    """n collective puts of a thousand regions of 32 bytes by each rank, each in a row of its own."""
    def puts(rank):
        return [f"put_varn_all v {PARTS} " + " ".join(f"[{k * ranks + rank},{(k * 13 + call * 7) % (WIDE // PART) * PART}] [1,{PART}]" for k in range(PARTS))
                + f" seqx {PARTS * PART} x{0x3F000000 + PARTS * PART * call:X} x1" for call in range(n)]
    return ["create 1", f"ranks {ranks}", f"dim y {PARTS * ranks}", f"dim x {WIDE}", "var float v [y,x]", "data"] + of_ranks(ranks, puts)


def column(n, _):
    """A get of a column of n elements, each of which lies alone in the file."""
    return ["open", "ranks 1", "data", f"0 get_vara_all v [0,{COLUMN}] [{n},1]", "0 get_var1_all v [0,0]"]
