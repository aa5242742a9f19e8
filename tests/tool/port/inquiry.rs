//! A run over a family of lookups: each in the image that the port itself has read, beside the model,
//! and beside the Rust where document 01 admits it. Says what was compared and what was left out.

use crate::asking::{Asking, Lookups, Words};
use crate::both::Calls;
use crate::run::{describe, shown, smaller, Run, Rusts};
use cases::admitted::LeftOut;
use records::{Query, Source};
use std::collections::BTreeMap;

#[cfg(feature = "rust")]
use crate::asking::{said, Said};
#[cfg(feature = "rust")]
use crate::rust::{number, texts};
#[cfg(feature = "rust")]
use cases::admitted::admitted_within;

#[derive(Default)]
pub struct Counts {
    images: usize,
    lookups: usize,
    found: usize,
    refused: BTreeMap<u8, usize>,
    pub beside_the_rust: usize,
    left_out: BTreeMap<LeftOut, usize>,
}

impl Counts {
    fn count(&mut self, words: &Words, left_out: Option<LeftOut>) {
        self.lookups += 1;
        self.found += usize::from(words.found());
        if let Some(number) = words.refused() {
            *self.refused.entry(number).or_default() += 1;
        }
        match left_out {
            Some(why) => *self.left_out.entry(why).or_default() += 1,
            None => self.beside_the_rust += 1,
        }
    }

    /// What was compared; an error if nothing was.
    pub fn report(&self) -> Result<String, String> {
        if self.lookups == 0 {
            return Err("nothing was compared".to_string());
        }
        let refused: String = self.refused.iter().map(|(number, count)| format!(", {count} refused by {number}")).collect();
        let reasons: Vec<String> = self.left_out.iter().map(|(why, count)| format!("{count} {why}")).collect();
        let left_out = if reasons.is_empty() { "nothing".to_string() } else { reasons.join(", ") };
        let Self { images, lookups, found, beside_the_rust, .. } = self;
        Ok(format!(
            "{lookups} lookups in {images} images ({found} found a value{refused}) beside the model, \
             {beside_the_rust} beside the Rust; left out there: {left_out}"
        ))
    }

    /// The same of a family, which must find some values.
    pub fn report_family(&self) -> Result<String, String> {
        let report = self.report()?;
        if self.found == 0 {
            return Err(format!("no value was found: {report}"));
        }
        Ok(report)
    }
}

pub struct Inquiry {
    pub run: Run,
    pub asking: Asking,
    pub counts: Counts,
}

impl Inquiry {
    pub fn new(read: Calls, lookups: Lookups, room: &str) -> Self {
        Self { run: Run::new(read, room), asking: Asking::new(lookups), counts: Counts::default() }
    }

    /// Compares a reading, and then every query's lookups in what it left. A difference is told with
    /// the smallest source that was found to show one.
    pub fn ask(&mut self, source: &Source, queries: &[Query]) -> Result<(), String> {
        let (_, rusts) = self.run.compare(source).map_err(|why| self.told(source, &queries[..0], why))?;
        self.counts.images += 1;
        for query in queries {
            if let Err(why) = self.look_up(&rusts, query) {
                return Err(self.told(source, std::slice::from_ref(query), why));
            }
        }
        Ok(())
    }

    /// Compares a query's lookups in the image that is there.
    fn look_up(&mut self, rusts: &Result<Rusts, LeftOut>, query: &Query) -> Result<Words, String> {
        let words = self.asking.compare(&mut self.run.both, query)?;
        let left_out = self.compare_with_the_rust(rusts, query, words)?;
        self.counts.count(&words, left_out);
        Ok(words)
    }

    /// Compares a reading and a query's lookups with the Rust alone.
    pub fn ask_by_the_rust(&mut self, source: &Source, query: &Query) -> Result<(), String> {
        let rusts = self.run.see_by_the_rust(source)?;
        let words = self.asking.call(&mut self.run.both, query)?;
        self.compare_with_the_rust(&rusts, query, words).map(drop)
    }

    /// Compares what the port's words say. Gives why the lookup was left out, or none.
    #[cfg(feature = "rust")]
    fn compare_with_the_rust(
        &mut self,
        rusts: &Result<Rusts, LeftOut>,
        query: &Query,
        words: Words,
    ) -> Result<Option<LeftOut>, String> {
        let Rusts { database, reading } = match rusts {
            Ok(rusts) => rusts,
            Err(why) => return Ok(Some(format!("lookups in {why}"))),
        };
        if let Err(why) = admitted_within(self.asking.lookups.bounds, query, reading.entries.iter().map(|entry| &entry.key[..])) {
            return Ok(Some(why));
        }
        let (name, class) = texts(query).expect("an admitted query");
        let rusts = Said {
            bytes: database.get_bytes(name, class),
            string: database.get_string(name, class).map(str::as_bytes),
            boolean: database.get_bool(name, class),
            number: number(database, name, class),
        };
        let (_, bodies) = self.run.both.image();
        let ports = said(words, bodies)?;
        if ports != rusts {
            return Err(format!("the port answers {ports:?}, the Rust {rusts:?}"));
        }
        Ok(None)
    }

    #[cfg(not(feature = "rust"))]
    fn compare_with_the_rust(&mut self, _: &Result<Rusts, LeftOut>, _: &Query, _: Words) -> Result<Option<LeftOut>, String> {
        Ok(Some("lookups, as the Rust is not at hand".to_string()))
    }

    fn told(&mut self, source: &Source, queries: &[Query], why: String) -> String {
        let (small, why) = smaller(source.clone(), why, |less| match self.run.compare(less) {
            Err(why) => Some(why),
            Ok((_, rusts)) => queries.iter().find_map(|query| self.look_up(&rusts, query).err()),
        });
        let asked: Vec<String> =
            queries.iter().map(|query| format!(", name {}, class {}", shown(&query.name), shown(&query.class))).collect();
        format!("{}{}\nthey differ: {why}", describe(&small), asked.concat())
    }
}
