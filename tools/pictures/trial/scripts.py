"""Scripts on which pages are tried: a long one, one of hostile words, and one of nothing."""

from __future__ import annotations

from collections.abc import Iterable


HOUSES = 60

# Words that are HTML, or the parts of a page, wherever a script takes them.
HOSTILE = """# </script><script>document.title = "caught"</script> <!-- %%DATA%% ]]> &amp;\x20
house 1 00000000000a
house 2 00000000000b
root 1 2
deliver 1
create 1 1 <script>
create 1 1 "'onerror=alert(1)
create 1 1 %%SCRIPT%%
create 1 1 &lt;b&gt;
create 1 1 __proto__
link 1 1 <a /.:/<script>/<img
add 1 1 <script> Place 3c2f7363726970743e
mkdir 1 1 <b> 2
create 2 2 constructor
deliver 2
read 2 low /.:/<script>/</script> Place
delete 1 1 <script>
dump 1 1
"""

# Each thing that a table may say: a missed update, a value that is there alone, and what one of two houses has purged.
SIGNS = """house 1 00000000000a
house 2 00000000000b
house 3 00000000000c
root 1 s2 3
deliver 1
deliver 2
create 1 1 lpr
add 1 1 lpr Place 68616c6c
add 2 1 lpr Place 6162
create 2 1 fax
put 1 1 lpr Place 6263
clear 1 1 lpr Place
delete 2 1 fax
create 2 1 fax
add 2 1 fax Note 01
skulk 1 1
deliver 29
deliver 30
crash 3
deliver 31
start 3
epoch 1 1 2
epoch 1 1 2 s3
"""


class Long:
    """A long script as it grows; it counts the messages that it posts."""

    def __init__(self) -> None:
        others = " ".join(f"{'s' if it == 2 else ''}{it}" for it in range(2, HOUSES + 1))
        self.lines = [f"house {it} {it:012x}" for it in range(1, HOUSES + 1)] + [f"root 1 {others}"]
        self.serial = 0
        self.deliver(it for it in self.post() if it != 12)

    def post(self, count: int = HOUSES - 1) -> range:
        """The serials of so many messages."""
        self.serial += count
        return range(self.serial - count + 1, self.serial + 1)

    def deliver(self, serials: Iterable[int]) -> None:
        """Delivers messages."""
        self.lines += [f"deliver {it}" for it in serials]

    def update(self, number: int) -> None:
        """An entry and its value at one of two houses, of which some hear; each ninth is deleted again."""
        house = 1 + number % 2
        self.lines.append(f"create {house} 1 e{number}")
        self.deliver(self.post()[number % 5 :: 7])
        self.lines.append(f"add {house} 1 e{number} Place {number:04x}")
        self.deliver(self.post()[number % 3 :: 9])
        if number % 9 == 0:
            self.lines.append(f"delete {house} 1 e{number}")
            self.lines.append(f"lose {self.post()[0]}")

    def skulk(self) -> None:
        """A skulk that is not complete."""
        self.lines.append("skulk 1 1")
        self.deliver(self.post()[:10])
        self.post(10)


def long_script(lines: int = 2000) -> str:
    """A script of so many lines, of sixty houses."""
    script, number = Long(), 0
    while len(script.lines) < lines - 200:
        number += 1
        script.update(number)
        if number % 20 == 0:
            script.skulk()
    for at in range(len(script.lines), lines):
        script.lines.append(f"read {1 + at % HOUSES} low /.:/e{1 + at % 30} Place")
    return "".join(f"{it}\n" for it in script.lines)
