"""Writes texts to measure with into a folder:

    texts.py FOLDER                two files: modules.f90, a project of 2000 modules in one file, as crates/gen_project makes
                                   it of seed 1999; and long.f90, about 4 MB of plain statements
    texts.py FOLDER modules COUNT  a project of so many modules, each in a file of its own, and a main program
    texts.py FOLDER long BYTES     a project of so many bytes or a little less, in files of up to 4194304 bytes, with
                                   statements of all common kinds
"""
import random
import sys

MOST = 4_194_304


def modules(seed):
    count = 1 + seed % 2000
    for i in range(count):
        yield (f"module m{i}\n  implicit none\n  integer :: v{i} = {(seed + 7 * i) % 1000}\ncontains\n"
               f"  subroutine s{i}(x)\n    integer, intent(inout) :: x\n    x = x + v{i}\n"
               f"  end subroutine s{i}\nend module m{i}\n")
    yield from main_program(count)


def main_program(count):
    yield "program main\n"
    for i in range(count):
        yield f"  use m{i}\n"
    yield "  implicit none\n  integer :: t\n  t = 0\n"
    for i in range(count):
        yield f"  call s{i}(t)\n"
    yield "  print *, t\nend program main\n"


NAMES = ["count", "total", "x", "index", "pressure", "temp_old", "n", "flux_left", "i", "j", "k", "buffer"]


def long(size):
    chance = random.Random(1)

    def name():
        return chance.choice(NAMES)

    yield "subroutine long\n  implicit integer (a-z)\n"
    done, i = 42, 0
    while done < size:
        i += 1
        line = (
            f"! block {i}: a comment of some length about what follows here\n",
            f"  {name()} = {name()} + {name()} - {i}\n",
            f"  if ({name()} == {i} .and. {name()} /= 3) then\n",
            f"    {name()} = {name()} + {name()} * ({i} - {name()}) &\n      & - {name()} / 7\n",
            f"    print *, 'value of it''s number {i}', {name()}\n",
            "  end if\n",
            "\n",
            f"  call sub_{i % 100}({name()}, {name()}, 3)   ! a call\n",
            f"  do step = 1, {i}; {name()} = {name()} + step; end do\n",
            f"  {name()} = {name()} + {name()} - {i}\n",
        )[i % 10]
        done += len(line)
        yield line
    yield "end subroutine long\n"


def module_of(i):
    """A module that uses up to three modules before it."""
    used = sorted({i // 2, i * 2 // 3, i - 1} - {i, -1})
    uses = "".join(f"  use m{j}, only : v{j}, add => s{j}\n" if j == i - 1 else f"  use m{j}, only : v{j}, s{j}\n"
                   for j in used)
    calls = "".join(f"    call {'add' if j == i - 1 else f's{j}'}(x)\n" for j in used)
    total = " + ".join(["x", f"v{i}", *(f"v{j} * {j % 9 + 1}" for j in used)])
    return (f"! the module {i} of a project\nmodule m{i}\n{uses}  implicit none\n  private\n  public :: v{i}, s{i}\n"
            f"  integer :: v{i} = {i % 1000}\n  integer, parameter :: most{i} = {i + 100}\n  integer, save :: times{i} = 0\ncontains\n"
            f"  subroutine s{i}(x)\n    integer, intent(inout) :: x\n    integer :: step\n    times{i} = times{i} + 1\n"
            f"    if (times{i} > most{i}) return\n{calls}    do step = 1, 3\n      x = {total} - step   ! one step more\n"
            f"    end do\n    x = small(x)\n  end subroutine s{i}\n\n  integer function small(x)\n"
            f"    integer, intent(in) :: x\n    select case (x)\n    case (:-1)\n      small = 0\n    case (0 : 99)\n      small = x\n"
            f"    case default\n      small = x - 100 * (x / 100)\n    end select\n  end function small\nend module m{i}\n")


FIRST = """program first
  implicit none
  integer :: n = 1, row(20) = 0
  call work_0_0(n, row, .true.)
  print *, n
end program first

subroutine outer(x, y, z, w)
  implicit none
  integer, intent(inout) :: x, z(20)
  integer, intent(in) :: y
  logical, intent(in) :: w
  if (w) x = y + z(1)
end subroutine outer

"""
OUTER = ["  external outer\n", """  interface
    subroutine outer(x, y, z, w)
      integer, intent(inout) :: x, z(20)
      integer, intent(in) :: y
      logical, intent(in) :: w
    end subroutine outer
  end interface
"""]


class Work:
    """External procedures of plain statements, each made from its number and chance."""

    SCALARS = ["total", "pressure", "temp_old", "flux_left", "i", "j", "k", "n", "weight", "cells"]
    LINES = "add", "add", "sum", "sum", "text", "print", "branch", "branch", "single", "loop", "named", "case", "wide", "call", "other"

    def __init__(self, seed):
        self.chance = random.Random(seed)
        self.loops = 0

    def name(self):
        return self.chance.choice(self.SCALARS)

    def number(self):
        return self.chance.randrange(10, 10_000)

    def operand(self):
        return self.chance.choice((self.name, self.name, lambda: str(self.number()), lambda: f"row({self.name()})",
                                   lambda: f"grid({self.name()}, {self.name()} + 1)", lambda: f"mod({self.name()}, 17)",
                                   lambda: f"({self.name()} - {self.name()} * 3)"))()

    def sum(self, count):
        return self.operand() + "".join(f" {self.chance.choice('+-*/')} {self.operand()}" for _ in range(count))

    def test(self):
        both = self.chance.choice((" .and. ", " .or. "))
        return self.chance.choice((f"{self.name()} < {self.sum(1)}", f"done .or. {self.name()} >= {self.number()}",
                                   f"{self.name()} == {self.number()}{both}.not. ({self.name()} /= {self.name()} .and. ready)"))

    def block(self, deep, count):
        pad = "  " * deep
        return "".join(self.statement(pad, deep, self.chance.choice(self.LINES)) for _ in range(count))

    def statement(self, pad, deep, kind):
        inner, i = "  " * (deep + 1), self.number()
        if deep > 4 and kind in ("branch", "loop", "named", "case"):
            kind = "add"
        if kind == "add":
            return f"{pad}{self.name()} = {self.name()} + {self.name()} - {i}\n"
        if kind == "sum":
            return f"{pad}row({self.chance.randrange(1, 20)}) = {self.sum(2)}   ! entry {i}\n"
        if kind == "text":
            return f"{pad}label = 'it''s step ' // label(1:{i % 9 + 1}) // \"; number {i}\"\n"
        if kind == "print":
            return f"{pad}print *, 'value of number {i} is', {self.name()}, row({self.name()}), label\n"
        if kind == "single":
            return f"{pad}if ({self.test()}) &\n{inner}{self.name()} = {self.sum(1)}\n"
        if kind == "branch":
            return (f"{pad}if ({self.test()}) then\n{self.block(deep + 1, 2)}{pad}else if ({self.test()}) then\n"
                    f"{self.block(deep + 1, 1)}{pad}else\n{inner}done = .not. ready .eqv. {self.name()} > {i}\n{pad}end if\n")
        if kind == "loop":
            return (f"{pad}do while ({self.name()} < {i} .and. .not. done)\n{self.block(deep + 1, 2)}"
                    f"{inner}{self.name()} = {self.name()} * 2; {self.name()} = {i}\n{pad}end do\n")
        if kind == "named":
            self.loops += 1
            each = f"each_{self.loops}"
            return (f"{pad}{each}: do step{deep} = 1, {self.name()}, {i % 7 + 1}\n{inner}if (row(step{deep}) == {i}) cycle {each}\n"
                    f"{self.block(deep + 1, 2)}{inner}if ({self.test()}) exit {each}\n{pad}end do {each}\n")
        if kind == "case":
            return (f"{pad}select case ({self.name()} - {self.name()})\n{pad}case (:-{i}, {i}:)\n{self.block(deep + 1, 1)}"
                    f"{pad}case (0, 2 : 5)\n{self.block(deep + 1, 1)}{pad}case default\n{inner}continue\n{pad}end select\n")
        if kind == "wide":
            return (f"{pad}{self.name()} = {self.sum(2)} &\n{pad}  & + {self.sum(2)} & ! goes on\n{pad}  - {self.sum(2)}\n\n"
                    f"{pad}! after {i} comes the next part; its statements don't know of this one\n")
        if kind == "call":
            return f"{pad}call outer({self.name()}, {self.sum(1)}, row, ready)\n"
        return f"{pad}write (*, *) label, {self.sum(1)}, done .and. {self.name()} <= {self.name()} + {i}\n"

    def procedure(self, place):
        steps = ", ".join(f"step{deep}" for deep in range(1, 5))
        return (f"! procedure {place}: what it does is of no use, but all of it is read\nsubroutine work_{place}(n, row, ready)\n"
                f"  implicit none\n  integer, intent(inout) :: n\n  integer, dimension(20), intent(inout) :: row\n"
                f"  logical, intent(in) :: ready\n  integer :: total, pressure, temp_old = {self.number()}, flux_left, cells\n"
                f"  integer :: i, j, k, {steps}, grid(-2 : 40, 12)\n  integer, parameter :: weight0 = {self.number()}\n"
                f"  integer weight, pool_a, pool_b(9)\n  logical :: done = .false.\n  character (len = 40) :: label\n"
                f"  common /pool/ pool_a, pool_b\n{self.chance.choice(OUTER)}  save grid, label\n\n  weight = weight0 + pool_a - pool_b(2)\n"
                f"{self.block(1, 12)}  if (done) return\n  call inside(total)\ncontains\n  subroutine inside(x)\n"
                f"    integer, intent(inout) :: x\n    integer :: step1, step2, step3, step4\n{self.block(2, 4)}    x = x + 1\n"
                f"  end subroutine inside\nend subroutine work_{place}\n\n")


def long_file(index, size):
    """A text of so many bytes or a little less, and filled up with comments."""
    work, texts = Work(index), [FIRST] if index == 0 else ["! more of it\n"]
    done = len(texts[0])
    while True:
        text = work.procedure(f"{index}_{len(texts) - 1}")
        if done + len(text) > size:
            break
        texts.append(text)
        done += len(text)
    while size - done > 81:
        texts.append("! " + "-" * 77 + "\n")
        done += 80
    return "".join(texts)


def write(folder, name, texts):
    with open(f"{folder}/{name}", "w", encoding="ascii") as file:
        file.writelines(texts)


def main(folder, kind=None, amount=0):
    if kind is None:
        write(folder, "modules.f90", modules(1999))
        write(folder, "long.f90", long(4_190_000))
    elif kind == "modules":
        for i in range(amount):
            write(folder, f"m{i:04}.f90", [module_of(i)])
        write(folder, "main.f90", main_program(amount))
    else:
        for index in range(0, -(-amount // MOST)):
            write(folder, f"long{index}.f90", [long_file(index, min(MOST, amount - index * MOST))])


if __name__ == "__main__":
    main(*sys.argv[1:3], *map(int, sys.argv[3:]))
