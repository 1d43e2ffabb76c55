//! Generated conditions, and their values by a model of its own.

use cfgx::expr::Logic;

/// The predicates that conditions are made of, as they are spelled.
const PREDICATES: &[&str] = &[
    "a",
    "loom",
    "test",
    "debug_assertions",
    "proc_macro",
    "key = \"\"",
    "key = \"é, (\"",
    "feature = \"x\"",
    "target_feature = \"sse4.2\"",
    "target_family = \"unix\"",
    "target_os = \"linux\"",
    "target_env = \"\"",
    "target_endian = \"big\"",
    "target_has_atomic = \"ptr\"",
    "target_pointer_width = \"64\"",
    "panic = \"abort\"",
];

/// Numbers from a seed.
pub struct Numbers(pub u64);

impl Numbers {
    /// Returns a number below `bound`.
    pub fn below(&mut self, bound: usize) -> usize {
        self.0 ^= self.0 << 13;
        self.0 ^= self.0 >> 7;
        self.0 ^= self.0 << 17;
        (self.0 >> 11) as usize % bound
    }

    /// Returns false, true or unknown.
    pub fn answer(&mut self) -> Option<bool> {
        [Some(false), Some(true), None][self.below(3)]
    }
}

/// A condition.
pub enum Tree {
    Literal(bool),
    /// A predicate, as it is spelled.
    Ask(&'static str),
    Not(Box<Tree>),
    All(Vec<Tree>),
    Any(Vec<Tree>),
}

impl Tree {
    /// Returns a condition in which at most `depth` functions stand in one another.
    pub fn generate(numbers: &mut Numbers, depth: usize) -> Tree {
        let kind = numbers.below(if depth == 0 { 4 } else { 10 });
        match kind {
            0 => Tree::Literal(numbers.below(2) == 0),
            1..4 => Tree::Ask(PREDICATES[numbers.below(PREDICATES.len())]),
            4..6 => Tree::Not(Box::new(Tree::generate(numbers, depth - 1))),
            6..8 => Tree::All(Tree::members(numbers, depth)),
            _ => Tree::Any(Tree::members(numbers, depth)),
        }
    }

    /// Returns up to five members of a function.
    fn members(numbers: &mut Numbers, depth: usize) -> Vec<Tree> {
        let count = numbers.below(6);
        (0..count)
            .map(|_| Tree::generate(numbers, depth - 1))
            .collect()
    }

    /// Returns a text of the condition, with some white space and commas.
    pub fn text(&self, numbers: &mut Numbers) -> String {
        let space = ["", " ", "\t", "\u{3000}"][numbers.below(4)];
        match self {
            Tree::Literal(truth) => format!("{space}{truth}"),
            Tree::Ask(predicate) => format!("{space}{predicate}"),
            Tree::Not(member) => format!("not({space}{})", member.text(numbers)),
            Tree::All(members) => format!("all{space}({})", texts(members, numbers)),
            Tree::Any(members) => format!("any({}{space})", texts(members, numbers)),
        }
    }

    /// Returns the members of a function, or none for a predicate or a literal.
    fn members_of(&self) -> &[Tree] {
        match self {
            Tree::Not(member) => std::slice::from_ref(member),
            Tree::All(members) | Tree::Any(members) => members,
            _ => &[],
        }
    }

    /// Returns whether this is a predicate or a literal.
    fn is_leaf(&self) -> bool {
        matches!(self, Tree::Literal(_) | Tree::Ask(_))
    }

    /// Pushes the predicates in the order in which they are asked.
    pub fn push_asked(&self, asked: &mut Vec<&'static str>) {
        if let Tree::Ask(predicate) = self {
            asked.push(predicate);
        }
        let (leaves, functions): (Vec<&Tree>, Vec<&Tree>) =
            self.members_of().iter().partition(|tree| tree.is_leaf());
        functions.iter().for_each(|tree| tree.push_asked(asked));
        leaves.iter().for_each(|tree| tree.push_asked(asked));
    }

    /// Returns the value over answers, which are taken in the order in which they are asked.
    pub fn value<T: Logic>(&self, answers: &mut impl Iterator<Item = T>) -> T {
        let (leaves, functions): (Vec<&Tree>, Vec<&Tree>) =
            self.members_of().iter().partition(|tree| tree.is_leaf());
        let functions: Vec<T> = functions.iter().map(|tree| tree.value(answers)).collect();
        let leaves: Vec<T> = leaves.iter().map(|tree| tree.value(answers)).collect();
        let mut joined = leaves.into_iter().rev().chain(functions.into_iter().rev());
        match self {
            Tree::Literal(true) => T::top(),
            Tree::Literal(false) => T::bottom(),
            Tree::Ask(_) => answers.next().unwrap(),
            Tree::Not(_) => joined.next().unwrap().not(),
            Tree::All(_) => joined.fold(T::top(), T::and),
            Tree::Any(_) => joined.fold(T::bottom(), T::or),
        }
    }
}

impl Tree {
    /// Returns the value over answers that may be unknown, which are taken in the order in which
    /// they are asked.
    pub fn value_over(&self, answers: &mut impl Iterator<Item = Option<bool>>) -> Option<bool> {
        let (leaves, functions): (Vec<&Tree>, Vec<&Tree>) =
            self.members_of().iter().partition(|tree| tree.is_leaf());
        let trees = functions.into_iter().chain(leaves);
        let members: Vec<Option<bool>> = trees.map(|tree| tree.value_over(answers)).collect();
        // The value of one member decides, or else one that is not known leaves the value open.
        let joined = |decisive| match () {
            () if members.contains(&Some(decisive)) => Some(decisive),
            () if members.contains(&None) => None,
            () => Some(!decisive),
        };
        match self {
            Tree::Literal(truth) => Some(*truth),
            Tree::Ask(_) => answers.next().unwrap(),
            Tree::Not(_) => members[0].map(|value| !value),
            Tree::All(_) => joined(false),
            Tree::Any(_) => joined(true),
        }
    }

    /// Pushes for each predicate, in the order in which they are asked, whether it stands below an
    /// even number of `not`, if this tree does so.
    fn push_signs(&self, is_even: bool, signs: &mut Vec<bool>) {
        if let Tree::Ask(_) = self {
            signs.push(is_even);
        }
        let is_even = is_even != matches!(self, Tree::Not(_));
        let (leaves, functions): (Vec<&Tree>, Vec<&Tree>) =
            self.members_of().iter().partition(|tree| tree.is_leaf());
        for tree in functions.into_iter().chain(leaves) {
            tree.push_signs(is_even, signs);
        }
    }

    /// Returns the filling of answers that leads to this value, if any does: an unknown answer
    /// becomes the value below an even number of `not`, and the opposite below an odd one.
    pub fn filling(&self, answers: &[Option<bool>], value: bool) -> Vec<bool> {
        let mut signs = Vec::new();
        self.push_signs(true, &mut signs);
        let filled = answers.iter().zip(signs);
        filled
            .map(|(answer, is_even)| answer.unwrap_or(value == is_even))
            .collect()
    }
}

/// Returns the texts of the members, with commas between them.
fn texts(members: &[Tree], numbers: &mut Numbers) -> String {
    let texts: Vec<String> = members.iter().map(|tree| tree.text(numbers)).collect();
    let last = if members.is_empty() {
        0
    } else {
        numbers.below(3)
    };
    texts.join([",", ", ", ",,"][numbers.below(3)]) + &",".repeat(last)
}
