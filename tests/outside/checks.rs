//! The named checks: how often each was made, and what went wrong first.

pub struct Check {
    name: String,
    made: u64,
    failures: u64,
    first: String,
}

#[derive(Default)]
pub struct Checks {
    checks: Vec<Check>,
    /// What is being tried, for the message of a failure.
    pub context: String,
}

/// A schedule ends at its first failure, since the two runs have parted.
#[derive(Debug)]
pub struct Parted;

impl Checks {
    fn entry(&mut self, name: &str) -> &mut Check {
        let found = self.checks.iter().position(|check| check.name == name);
        let index = found.unwrap_or_else(|| {
            self.checks.push(Check { name: name.to_string(), made: 0, failures: 0, first: String::new() });
            self.checks.len() - 1
        });
        &mut self.checks[index]
    }

    /// Makes the check once. The message is built only where it failed.
    pub fn hold(&mut self, name: &str, held: bool, message: impl FnOnce() -> String) -> Result<(), Parted> {
        let check = self.entry(name);
        check.made += 1;
        if held {
            return Ok(());
        }
        check.failures += 1;
        if check.failures == 1 {
            let message = message();
            let context = self.context.clone();
            self.entry(name).first = format!("{message} [{context}]");
        }
        Err(Parted)
    }

    /// As `hold`, where the comparison itself says what differs.
    pub fn agree(&mut self, name: &str, outcome: Result<(), String>) -> Result<(), Parted> {
        let held = outcome.is_ok();
        self.hold(name, held, || outcome.err().unwrap_or_default())
    }

    pub fn failed(&self) -> usize {
        self.checks.iter().filter(|check| check.failures > 0).count()
    }

    /// The first failing check and its message.
    pub fn first_failure(&self) -> Option<(&str, &str)> {
        let check = self.checks.iter().find(|check| check.failures > 0)?;
        Some((&check.name, &check.first))
    }

    /// Prints every check, then the line of counts. True where nothing failed.
    pub fn report(&self) -> bool {
        for check in &self.checks {
            if check.failures == 0 {
                println!("ok      {} ({} times)", check.name, check.made);
            } else {
                println!("FAILED  {} ({} of {} times): {}", check.name, check.failures, check.made, check.first);
            }
        }
        println!("{} passed, {} failed", self.checks.len() - self.failed(), self.failed());
        self.failed() == 0
    }
}
