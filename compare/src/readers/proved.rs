//! The proved code's answers against rkyv's, and against the model's where rkyv has none.

use crate::model::{narrow, Layout, Limits, OUTSIDE};
use crate::oracle::Checked;
use crate::ours::named::Named;
use crate::ours::{self, At};
use crate::trees::Random;
use crate::{columns, model};

use super::lent::{lent, written, BEFORE};
use super::{count, matching, same, Bounds};

/// What is asked about an archive under limits, and what is known of it: rkyv's check, the model's certify, and the list, which is empty where rkyv refuses.
pub struct Asked<'a> {
    layout: Layout,
    limits: Limits,
    bytes: &'a [u8],
    checked: &'a Checked<'a>,
    certified: Result<u32, u8>,
    list: &'a [(u64, u64)],
}

impl<'a> Asked<'a> {
    pub fn new(
        layout: Layout,
        limits: Limits,
        bytes: &'a [u8],
        checked: &'a Checked<'a>,
        list: &'a [(u64, u64)],
    ) -> Self {
        Self {
            layout,
            limits,
            bytes,
            checked,
            certified: layout.certify(limits, bytes).map(narrow),
            list,
        }
    }

    /// Every call, and that the archive stays. Gives how many calls 24 refused.
    pub fn compare_all(
        &self,
        sought: &[u64],
        ranges: &[Bounds],
        random: &mut Random,
    ) -> Result<u64, String> {
        let before = self.bytes.to_vec();
        self.compare(sought, random)?;
        self.compare_ranges(ranges, random)?;
        self.compare_columns(sought, random)?;
        let outside = self.compare_outside(sought, random)?;
        same("archive", ("before", &before[..]), ("after", self.bytes))?;
        Ok(outside)
    }

    fn ours(&self) -> At {
        ours::at(self.layout).under(self.limits)
    }

    /// Check, certify, walk and lookups.
    fn compare(&self, sought: &[u64], random: &mut Random) -> Result<(), String> {
        let (ours, bytes, certified) = (self.ours(), self.bytes, self.certified);
        let count = count(self.checked);
        same("check", ("rkyv", count), ("ours", ours.check(bytes)))?;
        let answer = ours.certify(bytes);
        same("certify", ("model", certified), ("ours", answer))?;

        let (mut keys, mut values) = lent(self.list, random);
        let (written, after) = written(self.list, &keys, &values);
        let answer = ours.walk(bytes, &mut keys, &mut values);
        same(
            "walk",
            ("rkyv", (count.map(|count| (written, count)), after)),
            ("ours", (answer, (keys, values))),
        )?;
        let found = self.compare_lookups(sought)?;

        // As many places as keys, or fewer, or more: a key without a place is not looked up.
        let mut values = vec![BEFORE; random.below(2 * sought.len() + 1)];
        let mut after = values.clone();
        let mut number = 0;
        for (place, value) in after.iter_mut().zip(&found) {
            *place = value.unwrap_or(BEFORE);
            number += u32::from(value.is_some());
        }
        let answer = ours.lookup_many(bytes, sought, &mut values);
        same(
            "lookup of many",
            ("rkyv", (count.map(|_| number), after)),
            ("ours", (answer, values)),
        )
    }

    /// Lookup in both forms; gives the values that are found.
    fn compare_lookups(&self, sought: &[u64]) -> Result<Vec<Option<u64>>, String> {
        let (ours, bytes) = (self.ours(), self.bytes);
        let mut found = Vec::new();
        for &key in sought {
            let entry = match self.checked {
                Ok(accepted) => Ok(accepted.get(key)),
                Err(number) => Err(*number),
            };
            let what = format!("lookup of {key}");
            same(&what, ("rkyv", entry), ("ours", ours.lookup(bytes, key)))?;
            let part = |(_, _, position)| &bytes[position..][..8];
            let part = entry.map(|entry| entry.map_or(&bytes[..0], part));
            let what = format!("the bytes of {key}");
            let answer = ours.lookup_bytes(bytes, key);
            same(&what, ("rkyv", part), ("ours", answer))?;
            found.push(entry.ok().flatten().map(|entry| entry.1));
        }
        Ok(found)
    }

    /// Ranges: what certify refuses is refused with the same number, and nothing is written.
    fn compare_ranges(&self, ranges: &[Bounds], random: &mut Random) -> Result<(), String> {
        for &(lower, upper) in ranges {
            let (source, entries) = match (self.checked, self.certified) {
                (Ok(accepted), Ok(_)) => matching(&**accepted, lower, upper),
                _ => ("model", Vec::new()),
            };
            let (mut keys, mut values) = lent(&entries, random);
            let (written, after) = written(&entries, &keys, &values);
            let numbers = self.certified.map(|_| (written, entries.len() as u64));
            let answer = self
                .ours()
                .range(self.bytes, lower, upper, &mut keys, &mut values);
            same(
                &format!("range from {lower:?} to {upper:?}"),
                (source, (numbers, after)),
                ("ours", (answer, (keys, values))),
            )?;
        }
        Ok(())
    }

    /// Column queries by both packings: as ranges between the keys of their ends, and by the fields of its keys; 18 comes after what certify
    /// refuses.
    fn compare_columns(&self, sought: &[u64], random: &mut Random) -> Result<(), String> {
        for &key in sought {
            for packing in model::PACKINGS {
                let column = columns::about(key, packing, random);
                let what = format!("{column:?}");
                let bounds = self.certified.and_then(|_| model::column(column));
                let (source, entries) = match (self.checked, bounds) {
                    (Ok(accepted), Ok((lower, upper))) => {
                        let (source, entries) = matching(&**accepted, lower, upper);
                        let mut chosen = self.list.to_vec();
                        chosen.retain(|entry| model::in_column(column, entry.0));
                        same(&what, (source, &entries), ("its fields", &chosen))?;
                        (source, entries)
                    }
                    _ => ("model", Vec::new()),
                };
                let (mut keys, mut values) = lent(&entries, random);
                let (written, after) = written(&entries, &keys, &values);
                let numbers = bounds.map(|_| (written, entries.len() as u64));
                let answer = self
                    .ours()
                    .column(self.bytes, column, &mut keys, &mut values);
                let ours = (answer, (keys, values));
                same(&what, (source, (numbers, after)), ("ours", ours))?;
            }
        }
        Ok(())
    }

    /// Every call with a number of entries a node that 24 refuses, before all else, and nothing is written. Gives how many calls there were.
    fn compare_outside(&self, sought: &[u64], random: &mut Random) -> Result<u64, String> {
        let named = Named {
            width: ours::bits(self.layout.width, random.number()),
            entries: random.pick(&OUTSIDE),
            limits: self.limits,
        };
        let (mut keys, mut values) = lent(self.list, random);
        let before = (keys.clone(), values.clone());
        let answers = named.readers(self.bytes, sought, &mut keys, &mut values);
        let what = format!("{named:?}");
        let right = answers.map(|_| -24);
        same(&what, ("right", right), ("ours", answers))?;
        same(&what, ("before", before), ("after", (keys, values)))?;
        Ok(answers.len() as u64)
    }
}
