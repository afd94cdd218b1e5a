"""Link maps over two objects, one of which has many stubs; and over one whose check takes long."""
from limits_objects import *
from limits_rows import *
from limits_chains import passed_products

MOST = 65536
OTHER = "module other\nexport go 0\n"


def link_row(name, what, full, unit, make, want):
    add(f"link-{name}", what, ["link", "map"], full, unit, make, want)


def put_map(text, data=None):
    put("map", text)
    put("object", data or spell(memory(), HALT))
    put("other", spell(memory(), HALT))


def stubs(n, code_before):
    """A block with this code and a `halt`, followed by n stubs."""
    length = len(code_before) // 16 + 1
    return spell(memory(), code_before + HALT * (n + 1), blocks=b"".join(pair(k and length + k - 1, 0) for k in range(n + 1)))


def imports(n):
    return "module object\n" + "".join(f"import go {k}\n" for k in range(1, n + 1)) + OTHER


link_row("beyond", "bytes of a map, one over the limit, and half of that", MOST + 1, "bytes", lambda n: put_map("x" * n),
         lambda n: (13, f"link 11 {MOST}" if n > MOST else "link 1 1"))
link_row("lines", "lines of one export", 4096, "lines", lambda n: put_map("module object\n" + "export go 0\n" * n), same(13, "link 2 3"))
link_row("exports", "names of one block", 4096, "names",
         lambda n: put_map("module object\n" + "".join(f"export n{k} 0\n" for k in range(n))), same(0, None))
link_row("imports", "imported blocks", 4096, "blocks", lambda n: put_map(imports(n), stubs(n, b"")), same(0, None))
link_row("moves", "moves of addresses of 4,096 imported blocks", 61000, "moves", lambda n: put_map(
    imports(4096), stubs(4096, b"".join(mov(k % 64, GREEN, n + 2 + k % 4096, code(0)) for k in range(n)))), same(0, None))
link_row("modules", "modules of blocks of one instruction", 64, "modules", lambda n: put_map(
    "module object\n" * n, spell(memory(), HALT * 1024, blocks=b"".join(pair(k, 0) for k in range(1024)))), same(0, None))
link_row("checks", "modules of 128 branches that each pass another of as many products", 64, "modules",
         lambda n: put_map("module object\n" * n, passed_products(128)), same(0, None))
