//! Witnesses, which no search reads.
pub struct Witnesses;

pub struct Witness<'a>(&'a Witnesses);

impl Witnesses {
    pub fn between(&self, _: u32, _: u32, _: u32) -> Option<Witness<'_>> {
        None
    }
}
