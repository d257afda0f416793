"""calling: what is quoted of a small crate, and what is told of pages that have drifted."""

import os
import re
import tempfile
import unittest

import helping
import calling
from abuflib.report import Fault

LIB = """//! A crate for tests.
#![tactic(auto)]

pub mod laws;
mod shape;
#[cfg(test)]
mod tests;

pub use abuf_uses::{Given, given};
pub use shape::half::halved;
pub use shape::{Shape, double};
"""
HALF = """// Halves.

/// Half a number.
pub fn halved(n: u32) -> u32
{
    n / 2
}
"""
SHAPE = """// Shapes.
ghost use Rattle.std.specs.Prelude.{◌≡◌, ◌*◌, IsTrue, List as Items};
ghost use Rattle.abuf_one.specs.Sides.{sides_of};

use std::marker::Model;

/// A shape. Its sides are { and }.
#[derive(Clone, Copy)]
pub struct Shape {
    /// How wide it is.
    pub width: u32,
    // How high it is.
    height: u32,
    pub ghost wide: { width ≡ 3 },
    ghost high: { height ≡ 4 },
}

impl Model for Shape {
    ghost use Rattle.abuf_one.specs.Sides.{Seen};

    ghost Value = { Seen };

    ghost view = { λ s. record { width = s.width } };
}

impl Shape {
    /// How many sides it has: '{', "}" or b'{'.
    #[inline(always)]
    pub fn sides(&self) -> u32
        ensures value { result ≡ sides_of self.now }
    {
        let _ = ('{', "}", b'{'); // }
        self.hidden()
    }

    fn hidden(&self) -> u32 {
        4
    }
}

impl Default for Shape {
    ghost is_default = { λ s. s ≡ s };

    fn default() -> Shape {
        Shape { width: 3, height: 4 }
    }
}

/// Twice a number.
#[tactic(auto, using(
    crate::proofs::Doubles::doubles
))]
pub fn double(
    n: u32,
) -> u32
    requires { IsTrue (n ≡ n) }
    ensures { let m : ℕ = n in
        result ≡ 2 * m }
{
    2 * n
}

pub fn unnamed() {}
"""
LAWS = """// Laws.
ghost use Rattle.std.specs.Prelude.{◌≡◌};

/// It tells nothing.
pub fn law(n: u32)
    ensures { n ≡ n }
{
}
"""
TESTS = """use crate::{Shape, double};
use std::test::Fail;
use std::thread::Threads;

// Four.
const FOUR: u32 = 4;

// Twice two.
#[test]
fn twice_two(rt: HostRuntime) -> Result<(), Fail> {
    assert_eq!(rt; double(2), FOUR);
    Ok(())
}
"""
SIDES = """-- Sides.
use Rattle.std.specs.Prelude.{ℕ}

-- What is seen | of a shape.
pub record Seen : Type 0 where
  pub width : ℕ

abbrev pub sides_of : Seen → ℕ
sides_of s = 4
"""
PAGE = """# Calling `abuf_one`

<!-- quote abuf_one/src/tests.rt: FOUR twice_two -->
<!-- end -->

<!-- quote contracts -->
<!-- end -->

<!-- quote words -->
<!-- end -->
"""
CALLER = """```rust
use crate::{Shape, double};
use std::test::Fail;

// Four.
const FOUR: u32 = 4;

// Twice two.
#[test]
fn twice_two(rt: HostRuntime) -> Result<(), Fail> {
    assert_eq!(rt; double(2), FOUR);
    Ok(())
}
```
"""
SHOWN = """### `halved`

From [abuf_one/src/shape/half.rt](src/shape/half.rt).

```rust
/// Half a number.
pub fn halved(n: u32) -> u32
```

### `Shape`, `double`

From [abuf_one/src/shape.rt](src/shape.rt).

```rust
/// A shape. Its sides are { and }.
#[derive(Clone, Copy)]
pub struct Shape {
    /// How wide it is.
    pub width: u32,
    pub ghost wide: { width ≡ 3 },
    // private fields
}

impl Model for Shape {
    ghost Value = { Seen };
}

impl Shape {
    /// How many sides it has: '{', "}" or b'{'.
    pub fn sides(&self) -> u32
        ensures value { result ≡ sides_of self.now }
}

impl Default for Shape {
    ghost is_default = { λ s. s ≡ s };

    fn default() -> Shape
}

/// Twice a number.
pub fn double(
    n: u32,
) -> u32
    requires { IsTrue (n ≡ n) }
    ensures { let m : ℕ = n in
        result ≡ 2 * m }
```
"""
WORDS = """| Word | What its definition says | File |
|---|---|---|
| `Seen` | What is seen \\| of a shape. (fields `width`) | [abuf_one/specs/Sides.antt](specs/Sides.antt) |
| `sides_of` | `sides_of s = 4` | [abuf_one/specs/Sides.antt](specs/Sides.antt) |
"""


class OfACheckout(unittest.TestCase):
    """A checkout of one crate, in which the script is called."""

    def setUp(self):
        place = tempfile.TemporaryDirectory()
        self.addCleanup(place.cleanup)
        self.top = place.name
        self.forget()
        self.addCleanup(self.forget)
        for name, value in (("TOP", self.top), ("CRATES", os.path.join(self.top, "crates"))):
            self.addCleanup(setattr, calling, name, getattr(calling, name))
            setattr(calling, name, value)
        for path, text in (("crates.txt", "# Crates.\nabuf_one: abuf_uses\nabuf_uses:\n"), ("README.md", "# One\n"), ("crates/abuf_one/src/lib.rt", LIB),
                           ("crates/abuf_one/src/shape/half.rt", HALF), ("crates/abuf_one/src/shape.rt", SHAPE), ("crates/abuf_one/src/laws.rt", LAWS),
                           ("crates/abuf_one/src/tests.rt", TESTS), ("crates/abuf_one/specs/Sides.antt", SIDES),
                           ("crates/abuf_one/CALLING.md", PAGE)):
            self.put(path, text)

    def forget(self):
        for cached in (calling.text_of, calling.source, calling.sources, calling.crates):
            cached.cache_clear()

    def put(self, path, text):
        place = os.path.join(self.top, path)
        os.makedirs(os.path.dirname(place), exist_ok=True)
        helping.write(place, text.encode())
        self.forget()

    def page(self):
        return helping.read(os.path.join(self.top, "crates/abuf_one/CALLING.md")).decode()

    def call(self, *words):
        self.forget()
        done = helping.call(calling, *words, folder=self.top)
        return done.returncode, (done.stdout + done.stderr).decode()

    def assert_wrong(self, text, *words):
        status, out = self.call(*words)
        self.assertEqual(status, 1, out)
        self.assertIn(text, out)


class Pages(OfACheckout):
    def test_a_page_is_written_and_then_agrees(self):
        self.assert_wrong("calling.py --write fixes it")
        self.assertEqual(self.page(), PAGE)
        status, out = self.call("--write")
        self.assertEqual((status, out), (0, "crates/abuf_one/CALLING.md is written anew\ncalling: 2 pages for callers, 0 failed\n"))
        for part in (CALLER, SHOWN, WORDS, "### `laws`\n"):
            self.assertIn(part, self.page())
        self.assertNotIn("hidden", self.page())
        self.assertNotIn("unnamed", self.page())
        self.assertIn("\n\nOf the toolchain: of `Rattle.std.specs.Prelude` `IsTrue`.\n", self.page())
        written = self.page()
        self.assertEqual(self.call(), (0, "calling: 2 pages for callers, 0 failed\n"))
        self.assertEqual(self.call("--write")[0], 0)
        self.assertEqual(self.page(), written)

    def test_what_drifts_is_told(self):
        self.call("--write")
        for path, old, new, told in (
                ("crates/abuf_one/src/shape.rt", SHAPE.replace("ensures value { result ≡ sides_of self.now }", ""), SHAPE, "sides_of"),
                ("crates/abuf_one/src/shape.rt", SHAPE.replace("/// Twice a number.", "/// Two of a number."), SHAPE, "Two of a number."),
                ("crates/abuf_one/src/tests.rt", TESTS.replace("double(2)", "double(3)"), TESTS, "double(3)"),
                ("crates/abuf_one/specs/Sides.antt", SIDES.replace("sides_of s = 4", "sides_of s = 5"), SIDES, "sides_of s = 5")):
            self.put(path, old)
            self.assert_wrong(told)
            self.put(path, new)
            self.assertEqual(self.call()[0], 0)

    def test_a_body_may_change(self):
        self.call("--write")
        self.put("crates/abuf_one/src/shape.rt", SHAPE.replace("    2 * n\n", "    n + n\n"))
        self.assertEqual(self.call()[0], 0)

    def test_what_a_page_lacks(self):
        self.put("crates/abuf_one/CALLING.md", "# Calling\n")
        self.assert_wrong("the page lacks <!-- quote contracts -->, <!-- quote words -->, a caller")
        os.remove(os.path.join(self.top, "crates/abuf_one/CALLING.md"))
        self.assert_wrong("WRONG crates/abuf_one/CALLING.md: isn't there")

    def test_code_that_nothing_proves(self):
        self.call("--write")
        self.put("crates/abuf_one/CALLING.md", self.page() + "\n```rust\ndouble(2)\n```\n")
        self.assert_wrong("a block of Rattle isn't quoted")

    def test_parts_that_quote_nothing(self):
        for part, told in (("abuf_one/src/tests.rt: thrice_two", "has no thrice_two"), ("abuf_two/src/tests.rt: twice_two", "is no source"),
                           ("abuf_one/README.md: Shape", "is no source"), ("everything", "nothing is quoted by 'everything'")):
            self.put("crates/abuf_one/CALLING.md", PAGE.replace("abuf_one/src/tests.rt: FOUR twice_two", part))
            before = self.page()
            self.assert_wrong(told, "--write")
            self.assertEqual(self.page(), before)
        self.put("README.md", "<!-- quote contracts -->\n<!-- end -->\n")
        self.assert_wrong("in the folder of none")
        self.put("README.md", "<!-- quote contracts -->\n")
        self.assert_wrong("a part that is quoted has no end")
        self.put("README.md", "<!-- quote contracts -->\n<!-- quote words -->\n<!-- end -->\n")
        self.assert_wrong("has no end")

    def test_items_without_use_lines(self):
        for what, count in (("item abuf_one", 0), ("abuf_one", 2)):
            self.put("README.md", f"<!-- quote {what}/src/tests.rt: FOUR twice_two -->\n<!-- end -->\n")
            self.call("--write")
            written = helping.read(os.path.join(self.top, "README.md")).decode()
            self.assertIn("fn twice_two", written)
            self.assertEqual(len(re.findall(r"(?m)^use ", written)), count)

    def test_names_that_are_no_crates(self):
        self.assertEqual(self.call("abuf_two")[0], 2)
        self.assertEqual(self.call("--help")[0], 0)

    def test_a_name_that_is_not_public(self):
        self.put("crates/abuf_one/src/lib.rt", LIB.replace("double", "hidden"))
        self.assert_wrong("has no public hidden", "abuf_one")

    def test_a_word_without_a_definition(self):
        self.put("crates/abuf_one/specs/Sides.antt", SIDES.replace("sides_of", "edges_of"))
        self.assert_wrong("doesn't define sides_of")


class Items(unittest.TestCase):
    def test_items_of_a_text(self):
        found = list(calling.items(SHAPE))
        self.assertEqual([(item.kind, item.name) for item in found if item.kind not in ("ghost use", "use")],
                         [("struct", "Shape"), ("impl", "Model"), ("impl", "Shape"), ("impl", "Default"), ("fn", "double"), ("fn", "unnamed")])
        self.assertTrue(found[-2].docs.endswith("))]\n"))
        self.assertEqual(found[-1].code, "pub fn unnamed() {}")

    def test_clauses_with_braces_and_bodies_without_clauses(self):
        text = "fn f(a: [u8; 2])\n    ensures a { IsRun (record {\n      x = y;\n    }) }\n    requires* { b }\n{\n    g()\n}\n"
        item, = calling.items(text)
        self.assertEqual(item.head.count("\n"), 5)
        self.assertEqual(item.body, "{\n    g()\n}")

    def test_what_has_no_end_or_no_kind(self):
        with self.assertRaisesRegex(Fault, "has no end"):
            list(calling.items("fn f() {\n"))
        with self.assertRaisesRegex(Fault, "no known kind"):
            list(calling.items("what is this\n"))

    def test_what_an_impl_is_of(self):
        for head, wanted in (("impl Pass ", ("", "Pass")), ("impl<'a> Iterator for Lines<'a> ", ("Iterator", "Lines")),
                             ("impl<T: Drop> From<AllocFailed<T>> for NoMemory ", ("From<AllocFailed<T>>", "NoMemory")),
                             ("unsafe impl Sync for SyncTable ", ("Sync", "SyncTable")),
                             ("impl<R: Files> Shelf for FolderShelf<'_, R> ", ("Shelf", "FolderShelf"))):
            item = calling.Item("impl", "", False, "", "", head, "{}")
            self.assertEqual(calling.type_of(item), wanted)


class OfThisCheckout(unittest.TestCase):
    def test_all_pages_agree(self):
        done = helping.run("calling.py")
        self.assertEqual(done.returncode, 0, done.stdout + done.stderr)


if __name__ == "__main__":
    unittest.main()
