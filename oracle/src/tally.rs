//! Lines of a check, counted.

#[derive(Default)]
pub struct Tally {
    pub passed: usize,
    pub failed: usize,
}
impl Tally {
    pub fn line(&mut self, good: bool, text: &str) {
        if good {
            self.passed += 1;
            println!("ok    {text}");
        } else {
            self.failed += 1;
            println!("WRONG {text}");
        }
    }
}
