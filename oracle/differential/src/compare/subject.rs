//! What is counted and shown for one subject of the comparison.

use cases::floats::float_bits;
use std::fmt::{self, Arguments, Debug, Display, Formatter};

/// No more differences of one subject than this are shown.
const SHOWN: usize = 5;

#[derive(Clone, Default)]
pub struct Subject {
    pub name: String,
    /// Of legacy boards.
    pub legacy: bool,
    /// The error number that is expected, 0 for success, where a subject has the answers with one number.
    pub expected: Option<u32>,
    /// How often each of some cases comes up, for a subject that counts nothing else.
    pub cases: Vec<(String, u64)>,
    pub compared: u64,
    pub different: u64,
    shown: Vec<String>,
}

impl Subject {
    pub fn new(name: impl Into<String>) -> Self {
        Self {
            name: name.into(),
            ..Self::default()
        }
    }

    /// The answers with one number.
    pub fn of_number(name: impl Into<String>, number: u32) -> Self {
        Self {
            expected: Some(number),
            ..Self::new(name)
        }
    }

    /// Each case must come up.
    pub fn of_cases<C: Display>(
        name: impl Into<String>,
        cases: impl IntoIterator<Item = (C, u64)>,
    ) -> Self {
        let mut subject = Self::new(name);
        for (case, count) in cases {
            subject.require(count, format_args!("{case}"));
            subject.cases.push((case.to_string(), count));
        }
        subject
    }

    /// Compares one answer of each side; `asked` is the input, and is formatted only for a difference.
    pub fn check<T: PartialEq + Debug>(&mut self, ours: T, theirs: T, asked: Arguments) {
        self.compared += 1;
        if ours != theirs {
            let answers = format_args!("ours {ours:X?}, theirs {theirs:X?} (hexadecimal)");
            self.differ(format_args!("{asked}: {answers}"));
        }
    }

    /// The same for floats, by their bit patterns; all NaNs count as one.
    pub fn check_float(&mut self, ours: f32, theirs: f32, asked: Arguments) {
        self.check(float_bits(ours), float_bits(theirs), asked);
    }

    /// The same for arrays of equal length, of which the first word that differs is shown.
    pub fn check_words(&mut self, ours: &[u32], theirs: &[u32], asked: Arguments) {
        let length = ours.len().max(theirs.len());
        let different = (0..length).find(|&place| ours.get(place) != theirs.get(place));
        let [ours, theirs] =
            [ours, theirs].map(|list| different.map(|place| (place, list.get(place))));
        let asked = format_args!("first word that differs, {asked}");
        self.check(ours, theirs, asked);
    }

    /// A case that the inputs should have and that never comes up is a difference.
    pub fn require(&mut self, count: u64, case: Arguments) {
        if count == 0 {
            self.differ(format_args!("never comes up: {case}"));
        }
    }

    fn differ(&mut self, line: Arguments) {
        self.different += 1;
        if self.shown.len() < SHOWN {
            self.shown.push(line.to_string());
        }
    }
}

/// The same subjects, of legacy boards.
pub fn of_legacy_boards(mut subjects: Vec<Subject>) -> Vec<Subject> {
    for subject in &mut subjects {
        subject.legacy = true;
    }
    subjects
}

/// Subjects by their names, in the order in which they first come up.
#[derive(Default)]
pub struct Subjects(pub Vec<Subject>);

impl Subjects {
    pub fn of(&mut self, name: &str) -> &mut Subject {
        let known = self.0.iter().position(|subject| subject.name == name);
        let place = known.unwrap_or(self.0.len());
        if known.is_none() {
            self.0.push(Subject::new(name));
        }
        &mut self.0[place]
    }
}

/// The first bytes of a record, and how many there are.
pub struct Bytes<'a>(pub &'a [u8]);

impl Display for Bytes<'_> {
    fn fmt(&self, f: &mut Formatter) -> fmt::Result {
        let first = &self.0[..self.0.len().min(80)];
        write!(f, "{} bytes {first:02X?}", self.0.len())
    }
}

impl Display for Subject {
    fn fmt(&self, f: &mut Formatter) -> fmt::Result {
        let Self {
            name,
            compared,
            different,
            ..
        } = self;
        write!(f, "{name}")?;
        if let Some(number) = self.expected {
            write!(f, ", number {number}")?;
        }
        if self.legacy {
            write!(f, ", legacy boards")?;
        }
        if self.cases.is_empty() {
            writeln!(f, ": {compared} compared, {different} different")?;
        } else {
            let cases: Vec<String> = (self.cases.iter())
                .map(|(case, count)| format!("{case}: {count}"))
                .collect();
            writeln!(f, " ({}): {different} missing", cases.join(", "))?;
        }
        self.shown
            .iter()
            .try_for_each(|line| writeln!(f, "    {line}"))
    }
}
