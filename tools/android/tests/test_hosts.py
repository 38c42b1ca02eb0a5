"""What the parts about libbinder are made of, as far as it needs no host."""
import pathlib
import sys

import pytest

sys.path.insert(0, str(pathlib.Path(__file__).resolve().parents[1]))
from beside.backends import BACKENDS  # noqa: E402
from beside.base import HOSTS  # noqa: E402
from beside.calls import rows_of_table as requests  # noqa: E402
from beside.damaged import Case, matches, nodes, reading, said  # noqa: E402
from beside.family import Family  # noqa: E402
from beside.hosts import TREES, Host  # noqa: E402
from beside.reader import Row, rows_of_table  # noqa: E402
from beside.schema import Type, read_tree  # noqa: E402

VALUES = read_tree(TREES / "values")


@pytest.mark.parametrize("row", rows_of_table(), ids=lambda row: row.name)
def test_an_example_is_read_as_its_row_says(row: Row) -> None:
    data = nodes(33) if row.bytes.endswith("in one another") else bytes.fromhex(row.bytes)
    for name in row.hosts:
        host = Host(pathlib.Path("host"), name, TREES / "values", VALUES)
        rows = tuple(one.name for one in rows_of_table() if name in one.hosts)
        read, may_want_memory = reading(host, Case(row.type, data), rows)
        if row.libbinder == "read to its end":
            assert isinstance(read, tuple) and read[1] == len(data)
        elif row.libbinder == "out of memory":
            assert may_want_memory
        else:
            wanted = said(row.libbinder, len(data))
            assert wanted is not None and matches(wanted, read)
        lenient = said(row.lenient, len(data))
        assert lenient is not None and matches(lenient, reading(host, Case(row.type, data), ())[0])


def test_every_host_is_known_and_has_rows() -> None:
    assert tuple(BACKENDS) == HOSTS
    assert {name for row in rows_of_table() for name in row.hosts} == set(HOSTS) == {name for row in requests() for name in row.stubs}


@pytest.mark.parametrize("seed", range(5))
def test_a_family_is_read_back_as_it_was_drawn(seed: int, tmp_path: pathlib.Path) -> None:
    family = Family(seed)
    family.write(tmp_path / "old", False)
    family.write(tmp_path / "new", True)
    assert read_tree(tmp_path / "new").declarations == family.schema.declarations
    old = read_tree(tmp_path / "old").declarations
    for name, one in family.schema.declarations.items():
        for members in ("fields", "methods"):
            kept = [member for member in getattr(one, members) if (name, member.name) not in family.added]
            assert getattr(old[name], members) == kept


def test_a_type_is_named_as_a_host_names_it() -> None:
    assert Type.named("utf8[]?") == Type("String", "array", True, True)
    assert Type.named("List<f.P>").text == "List<f.P>"
