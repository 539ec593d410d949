//! What a group of tests prints: faults as they are met, and at the end one line that `run-tests` adds up.

use std::time::Instant;

/// Counts one group's tests.
pub struct Group {
    name: &'static str,
    passed: u64,
    failed: u64,
    begun: Instant,
}

/// Faults beyond these are counted and not printed.
const PRINTED: u64 = 10;

impl Group {
    pub fn new(name: &'static str) -> Group {
        Group { name, passed: 0, failed: 0, begun: Instant::now() }
    }

    pub fn pass(&mut self) {
        self.passed += 1;
    }

    pub fn fail(&mut self, what: &str) {
        self.fail_with(|| what.to_string());
    }

    /// A fault whose words take time to find: they are asked for only if they are printed.
    pub fn fail_with(&mut self, what: impl FnOnce() -> String) {
        self.failed += 1;
        if self.failed <= PRINTED {
            println!("FAILED {}: {}", self.name, what());
        }
    }

    /// A test that passes if nothing is said against it.
    pub fn judge(&mut self, what: &str, faults: &[String]) {
        if faults.is_empty() {
            self.pass();
        } else {
            self.fail(&format!("{what}\n{}", faults.join("\n")));
        }
    }

    pub fn has_failed(&self) -> bool {
        self.failed > 0
    }

    /// The group's line. The exit status tells whether anything failed.
    pub fn end(self, remark: &str) -> std::process::ExitCode {
        let remark = if remark.is_empty() { String::new() } else { format!("; {remark}") };
        println!("{}: {} passed, {} failed ({:.1} s{remark})", self.name, self.passed, self.failed, self.begun.elapsed().as_secs_f64());
        if self.failed == 0 {
            std::process::ExitCode::SUCCESS
        } else {
            std::process::ExitCode::FAILURE
        }
    }
}
