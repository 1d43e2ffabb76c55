//! Texts that are generated: conditions, conditions with a change, and parts in any order.

/// What stands in the texts of parts, and what a change puts into a condition.
const PARTS: &[&str] = &[
    "all(",
    "any(",
    "not(",
    ")",
    ",",
    "=",
    "\"",
    "unix",
    "windows",
    "test",
    "debug_assertions",
    "proc_macro",
    "feature",
    "feature = \"x\"",
    "feature=\"\"",
    "target_os",
    "target_os = \"linux\"",
    "target_os=\"zzz\"",
    "target_arch=\"x86_64\"",
    "target_pointer_width = \"64\"",
    "target_pointer_width=\"+032\"",
    "target_pointer_width=\"256\"",
    "target_has_atomic = \"8\"",
    "target_has_atomic=\"ptr\"",
    "target_has_atomic=\"p\"",
    "target_has_atomic",
    "target_endian=\"big\"",
    "target_endian=\"bi\"",
    "target_family = \"unix\"",
    "target_env=\"\"",
    "target_abi=\"eabihf\"",
    "target_vendor=\"apple\"",
    "target_vendor=\"é\"",
    "target_feature=\"sse2\"",
    "target_feature=\"\"",
    "target_foo=\"a\"",
    "panic=\"abort\"",
    "panic",
    "key",
    "key = \"value\"",
    "k=\"é, (\"",
    " ",
    "\t",
    "\n",
    "\u{3000}",
    "é",
    "8",
    "a",
    "_b9",
    "all",
    "any",
    "not",
    "-",
    "cfg",
    "cfg(",
    "allx",
];

/// The predicates of conditions.
const PREDICATES: &[&str] = &[
    "unix",
    "a",
    "b",
    "test",
    "feature = \"x\"",
    "target_os = \"linux\"",
    "target_os=\"zzz\"",
    "key = \"é\"",
    "target_arch=\"arm\"",
    "target_pointer_width = \"64\"",
    "target_has_atomic=\"ptr\"",
    "target_env=\"\"",
    "panic=\"unwind\"",
    "windows",
    "target_endian=\"little\"",
];

/// The same texts in each run.
pub struct Texts {
    /// The state of a generator of numbers by shifts, which is never 0
    state: u64,
}

impl Texts {
    pub fn new() -> Texts {
        Texts {
            state: 0x1234_5678_9abc_def1,
        }
    }

    /// Returns a number below `count`.
    fn below(&mut self, count: usize) -> usize {
        self.state ^= self.state << 13;
        self.state ^= self.state >> 7;
        self.state ^= self.state << 17;
        usize::try_from(self.state >> 33).unwrap_or(0) % count
    }

    fn one_of<'a>(&mut self, items: &[&'a str]) -> &'a str {
        items[self.below(items.len())]
    }

    /// Returns the next text, which stands in `cfg( )` each fourth time on average.
    pub fn next_text(&mut self) -> String {
        let text = match self.below(3) {
            0 => self.parts(),
            1 => self.condition(5),
            _ => self.changed(),
        };
        if self.below(4) == 0 {
            format!("cfg({text})")
        } else {
            text
        }
    }

    fn parts(&mut self) -> String {
        let count = self.below(9);
        (0..count).map(|_| self.one_of(PARTS)).collect()
    }

    /// Returns a condition with at most as many functions around a predicate.
    fn condition(&mut self, depth: usize) -> String {
        match if depth == 0 { 0 } else { self.below(8) } {
            0..4 => String::from(self.one_of(PREDICATES)),
            4 => format!(
                "not({}{}",
                self.condition(depth - 1),
                self.one_of(&[")", ",)"])
            ),
            _ => self.list(depth),
        }
    }

    fn list(&mut self, depth: usize) -> String {
        let mut text = String::from(self.one_of(&["all(", "any( "]));
        for _ in 0..self.below(6) {
            text += &self.condition(depth - 1);
            text += self.one_of(&[",", ", ", " ,,"]);
        }
        text + ")"
    }

    /// Returns a condition in which a character is left out, or a part is put, once or twice.
    fn changed(&mut self) -> String {
        let mut text = self.condition(5);
        for _ in 0..=self.below(2) {
            let places: Vec<usize> = text.char_indices().map(|(place, _)| place).collect();
            if places.is_empty() {
                break;
            }
            let place = places[self.below(places.len())];
            if self.below(2) == 0 {
                text.remove(place);
            } else {
                text.insert_str(place, self.one_of(PARTS));
            }
        }
        text
    }
}
