//! The self-test that every comparison has: programs with one fault each, of which every one must be
//! noticed, and the program without one, which must pass.

pub struct SelfTest<P> {
    unnoticed: Vec<(&'static str, P)>,
    all: usize,
    cases: usize,
    sound_passes: bool,
}

impl<P> SelfTest<P> {
    pub fn new(broken: Vec<(&'static str, P)>) -> SelfTest<P> {
        SelfTest { all: broken.len(), unnoticed: broken, cases: 0, sound_passes: true }
    }

    /// One case more. `difference` tells how a broken program's outcome shows, if it does. Answers
    /// whether there is anything left to notice.
    pub fn look(&mut self, sound_passes: bool, mut difference: impl FnMut(&P) -> Option<String>) -> bool {
        self.cases += 1;
        self.sound_passes &= sound_passes;
        let cases = self.cases;
        self.unnoticed.retain(|(name, program)| match difference(program) {
            None => true,
            Some(difference) => {
                println!("noticed in case {cases:>6}: {name} ({difference})");
                false
            }
        });
        !self.unnoticed.is_empty()
    }

    pub fn passed(&self, what: &str) -> bool {
        for (name, _) in &self.unnoticed {
            println!("FAILED: not noticed: {name}");
        }
        if !self.sound_passes {
            println!("FAILED: the program without a fault is taken for a different one");
        }
        println!("{} of {} broken {what} noticed", self.all - self.unnoticed.len(), self.all);
        self.unnoticed.is_empty() && self.sound_passes
    }
}
