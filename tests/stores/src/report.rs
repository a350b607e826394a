//! What was tried, and what became of it.

use std::collections::BTreeMap;

use oracle::image::Why;

#[derive(Default)]
pub struct Report {
    pub images: u64,
    pub tried: u64,
    pub sound: u64,
    /// By kind of damage: how often alone, and how often the store stayed sound.
    kinds: BTreeMap<&'static str, (u64, u64)>,
    /// By rule: how often the first one broken, and how often the only one.
    rules: BTreeMap<Why, (u64, u64)>,
}

impl Report {
    pub fn note(&mut self, damage: &[&'static str], broken: &[Why]) {
        self.tried += 1;
        self.sound += u64::from(broken.is_empty());
        if let [kind] = damage {
            let (alone, sound) = self.kinds.entry(kind).or_default();
            *alone += 1;
            *sound += u64::from(broken.is_empty());
        }
        if let Some(why) = broken.first() {
            let (first, only) = self.rules.entry(*why).or_default();
            *first += 1;
            *only += u64::from(broken.len() == 1);
        }
    }

    pub fn print(&self) {
        println!(
            "{} images of sound states, {} damaged stores, {} of them sound",
            self.images, self.tried, self.sound
        );
        println!("\n{:44}{:>9}{:>9}", "damage", "alone", "sound");
        for (kind, (alone, sound)) in &self.kinds {
            println!("{kind:44}{alone:9}{sound:9}");
        }
        println!("\n{:44}{:>9}{:>9}", "rule broken", "first", "only");
        for why in Why::ALL {
            let (first, only) = self.rules.get(why).copied().unwrap_or_default();
            println!("{why:44}{first:9}{only:9}");
        }
    }

    /// Rules that no store broke alone: a test without them would not have been told apart.
    pub fn untried(&self) -> Vec<Why> {
        let tried = |why: &&Why| self.rules.get(why).is_none_or(|(_, only)| *only == 0);
        Why::ALL.iter().filter(tried).copied().collect()
    }
}
