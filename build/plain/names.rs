//! The calls on each name.

use crate::script::{by_rank, Script, Verb};

/// A call on a name.
#[derive(Clone, Copy)]
pub struct NameCall {
    pub name: u32,
    pub rank: u32,
    pub number: u32,
}

/// The calls on names, but for `unpublish *`.
pub struct Names {
    /// In the order of the file.
    pub calls: Vec<NameCall>,
    /// The only publish of each name that no call unpublishes, by the name's number: its rank and
    /// its number there.
    only: Vec<Option<(u32, u32)>>,
    /// The calls of `unpublish *`, in the order of the file: rank and number.
    pub stars: Vec<(u32, u32)>,
}

impl Names {
    pub fn of(script: &Script) -> Names {
        let mut found = Names {
            calls: Vec::new(),
            only: Vec::new(),
            stars: Vec::new(),
        };
        for (rank, places) in by_rank(&script.starts, &script.places.names) {
            for place in places {
                let (call, number) = (
                    script.calls[*place as usize],
                    place - script.starts[rank as usize],
                );
                if call.verb() == Verb::UnpublishAll {
                    found.stars.push((rank, number));
                } else {
                    found.calls.push(NameCall {
                        name: call.about,
                        rank,
                        number,
                    });
                }
            }
        }
        found.find_only(script);
        found
    }

    /// Finds the names that are published once and never unpublished.
    fn find_only(&mut self, script: &Script) {
        if self.calls.is_empty() {
            return;
        }
        let mut changes = vec![0_u8; script.keys.len()];
        self.only = vec![None; script.keys.len()];
        for it in &self.calls {
            let name = it.name as usize;
            match script.call(it.rank, it.number).verb() {
                Verb::Publish => {
                    changes[name] = changes[name].saturating_add(1);
                    self.only[name] = Some((it.rank, it.number));
                }
                Verb::Unpublish => changes[name] = 2,
                _ => {}
            }
        }
        for (name, changes) in changes.into_iter().enumerate() {
            let has_star = |(rank, _)| !self.stars_of(rank).is_empty();
            if changes != 1 || self.only[name].is_some_and(has_star) {
                self.only[name] = None;
            }
        }
    }

    /// The only publish of a name that is published once and never unpublished.
    pub fn only(&self, name: u32) -> Option<(u32, u32)> {
        self.only[name as usize]
    }

    /// The calls of `unpublish *` of a rank.
    pub fn stars_of(&self, rank: u32) -> &[(u32, u32)] {
        let start = self.stars.partition_point(|it| it.0 < rank);
        let count = self.stars[start..].partition_point(|it| it.0 == rank);
        &self.stars[start..start + count]
    }
}
