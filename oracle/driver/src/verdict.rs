//! How a comparison ends.

/// How many are compared by chance. With fewer than by default, what is rare may not occur.
#[derive(Clone, Copy)]
pub struct Amount {
    pub count: u64,
    pub default: u64,
}

impl Amount {
    pub fn is_reduced(self) -> bool {
        self.count < self.default
    }
}

/// What a table of counts shows and must not.
#[derive(Debug)]
pub enum Fault {
    /// It can occur by chance, and did not.
    Unseen(String),
    /// Anything else: it cannot occur and did, or it must occur however few are compared.
    Wrong(String),
}

impl Fault {
    /// It occurred and cannot, or it can occur by chance and did not.
    pub fn by_chance(about: &str, occurred: bool, what: &str) -> Fault {
        if occurred {
            Fault::Wrong(format!("{about}: cannot be {what}"))
        } else {
            Fault::Unseen(format!("{about}: never {what}"))
        }
    }

    /// The same where nothing is left to chance.
    pub fn sure(about: &str, occurred: bool, what: &str) -> Fault {
        let how = if occurred { "cannot be" } else { "never" };
        Fault::Wrong(format!("{about}: {how} {what}"))
    }
}

/// Prints what differed and what is missing; whether nothing is. Where fewer are compared than by default, what did not occur by chance
/// is told and is no fault.
pub fn passes(differences: u64, faults: &[Fault], is_reduced: bool) -> bool {
    println!("differences: {differences}");
    let mut passes = differences == 0;
    for fault in faults {
        match fault {
            Fault::Unseen(what) if is_reduced => println!("did not occur: {what}"),
            Fault::Unseen(what) | Fault::Wrong(what) => {
                println!("fault: {what}");
                passes = false;
            }
        }
    }
    passes
}
