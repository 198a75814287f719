//! A log is given to both, entry by entry.

use reference::generator::offers::calls;
use reference::generator::seeds::seeded_log;
use reference::generator::Random;
use reference::{counters_line, counters_text, wording, Entries, Entry};

use crate::compare;
use crate::difference::Difference;
use crate::inputs;
use crate::pair::{proved_number, reference_number, Call, Pair};
use crate::totals::Totals;
use crate::written::{Log, Stretch, Written, CHANGED_LOG, OTHER_ENTRY};

/// A log that is run whole between two calls has at most this many bytes.
const MOST_ASIDE: usize = 2_000;

/// Two jobs on their way.
pub struct Walk<'a> {
    pub pair: Pair,
    pub random: &'a mut Random,
    pub totals: &'a mut Totals,
    /// Of 256 grants of a log so many go by way of offers.
    offers: usize,
    /// Of 256 ticks so many are seeded where a seeded one does the same.
    seeded: usize,
    /// The stretch of calls whose log is kept, if one is.
    stretch: Option<Stretch>,
}

/// Of 256 grants of the logs that copies take so many go by way of offers.
const OFFERS_OF_COPIES: usize = 32;
/// All of 256.
pub const ALL: usize = 256;

impl<'a> Walk<'a> {
    /// Two jobs at the start. Of 256 grants and of 256 ticks so many are made by way of offers and by the seed.
    pub fn new(
        pair: Pair,
        random: &'a mut Random,
        totals: &'a mut Totals,
        offers: usize,
        seeded: usize,
    ) -> Walk<'a> {
        Walk {
            pair,
            random,
            totals,
            offers,
            seeded,
            stretch: None,
        }
    }
}

impl Walk<'_> {
    /// Makes the calls of a log one after the other, with other things between them and a row about an offer at the end, and compares after
    /// each.
    pub fn follow(&mut self, log: &[u8]) -> Result<(), Difference> {
        let mut rest = log;
        self.begin_stretch();
        for entry in Entries::new(log).filter_map(Result::ok) {
            self.aside(rest)?;
            self.enter(entry, rest, self.offers)?;
            rest = &rest[entry_size(&entry)..];
        }
        self.totals.count_cycles(&self.pair.reference);
        let grant = Entry::Grant(self.pair.reference.desire());
        self.enter(grant, &[], ALL)?;
        self.end_stretch(false)?;
        if let Some(part) = compare::plans(&self.pair.proved, &self.pair.reference) {
            return Err(self.pair.difference(part, "the plan after a log".into()));
        }
        self.show()
    }

    /// Makes the call of an entry, or in so many of 256 grants a row by way of an offer.
    fn enter(&mut self, entry: Entry, rest: &[u8], offers: usize) -> Result<(), Difference> {
        for call in calls(self.random, &self.pair.reference, entry, offers) {
            if self.pair.reference.noted_offer().is_some() {
                self.aside_noted(rest)?;
            }
            self.call(Call::from(call))?;
        }
        Ok(())
    }

    /// Makes a call, or at times a seeded tick that does the same, and keeps the log of it.
    fn call(&mut self, call: Call) -> Result<(), Difference> {
        let (seeds, job) = (self.pair.seeds, &self.pair.reference);
        let by_seed = match call {
            Call::Tick(choices) => self.random.chance(self.seeded) && seeds.stand_for(choices, job),
            _ => false,
        };
        let call = if by_seed { Call::Seeded } else { call };
        self.pair.call(call, self.totals)?;
        self.keep(call)
    }

    /// Before 7 of 64 calls while an offer is noted something that leaves it.
    fn aside_noted(&mut self, rest: &[u8]) -> Result<(), Difference> {
        match self.random.below(64) {
            0..=2 => self.odd_call(),
            3 | 4 => self.whole(rest),
            5 => self.branch(),
            6 => self.show(),
            _ => Ok(()),
        }
    }

    /// Before 18 of 512 entries something that is not in the log, or a stretch ends and another begins.
    fn aside(&mut self, rest: &[u8]) -> Result<(), Difference> {
        match self.random.below(512) {
            0..=5 => self.odd_call(),
            6..=9 => self.show(),
            10 | 11 => self.whole(rest),
            12 | 13 => self.branch(),
            14..=17 => {
                self.end_stretch(false)?;
                self.begin_stretch();
                Ok(())
            }
            _ => Ok(()),
        }
    }

    /// A call that no log has, nearly always refused.
    fn odd_call(&mut self) -> Result<(), Difference> {
        let job = &self.pair.reference;
        let (desire, note) = (job.desire(), job.noted_offer());
        let workers = inputs::odd_count(self.random, desire);
        let above_offer = inputs::odd_count(self.random, note.unwrap_or(desire));
        let choices = inputs::odd_choices(self.random, job);
        let call = match self.random.below(8) {
            0..=2 => Call::Grant(workers),
            3..=5 => Call::Tick(&choices),
            6 => Call::Offer(workers),
            _ if note.is_none() && self.random.chance(128) => Call::Withdraw,
            _ => Call::Open(above_offer),
        };
        self.call(call)
    }

    /// Runs the start of a log whole, on copies; it may end inside an entry.
    fn whole(&mut self, log: &[u8]) -> Result<(), Difference> {
        let end = self.random.below(log.len().min(MOST_ASIDE) + 1);
        self.pair.clone().run_log(&log[..end], self.totals)
    }

    /// Copies take calls of their own, first of all about a noted offer; the originals must not move. Half of the copies take the log of a
    /// seeded day.
    fn branch(&mut self) -> Result<(), Difference> {
        self.totals.branches += 1;
        let pair = self.pair.clone();
        let mut copies = Walk::new(pair, self.random, self.totals, OFFERS_OF_COPIES, ALL);
        copies.end_offer()?;
        copies.begin_stretch();
        let job = &copies.pair.reference;
        let log = if copies.random.chance(128) {
            seeded_log(copies.random, job.clone(), copies.pair.seeds.proved)
        } else {
            inputs::short_log(copies.random, job)
        };
        for entry in Entries::new(&log).filter_map(Result::ok) {
            for call in calls(copies.random, &copies.pair.reference, entry, copies.offers) {
                copies.call(Call::from(call))?;
            }
        }
        copies.end_stretch(false)?;
        self.pair.compare(self.totals)
    }

    /// A noted offer is opened or withdrawn.
    fn end_offer(&mut self) -> Result<(), Difference> {
        let offered = match self.pair.reference.noted_offer() {
            Some(offered) => offered,
            None => return Ok(()),
        };
        let opened = self.random.between(0, offered) as u64;
        let ends = [Call::Open(opened), Call::Open(opened), Call::Withdraw];
        let end = *self.random.pick(&ends).unwrap_or(&Call::Withdraw);
        self.call(end)
    }
}

/// Logs that are kept.
impl Walk<'_> {
    /// From here on a log is kept, if none is, unless an offer is noted.
    fn begin_stretch(&mut self) {
        let job = &self.pair.reference;
        if self.stretch.is_none() && job.noted_offer().is_none() {
            self.totals.seeded.starts[usize::from(job.quanta_begun() > 0)] += 1;
            let buffer = inputs::log_buffer(self.random);
            self.stretch = Some(Stretch::new(&self.pair.proved, buffer));
        }
    }

    /// The log that is kept ends, if one is: with the last call, or where there was no room for it, with the one before. It has to lead
    /// where the calls did.
    fn end_stretch(&mut self, full: bool) -> Result<(), Difference> {
        let pair = &self.pair;
        let ended = if full { &pair.before } else { &pair.proved };
        if let Some(stretch) = self.stretch.take() {
            self.totals.seeded.ends[usize::from(!full)] += 1;
            let checked = stretch.check(ended);
            checked.map_err(|(part, detail)| pair.difference(part, detail))?;
        }
        Ok(())
    }

    /// Writes the entry of an accepted call, if a log is kept. An opening is the grant that it is, and half of the seeded ticks are written
    /// as before the tick.
    fn keep(&mut self, call: Call) -> Result<(), Difference> {
        let pair = &self.pair;
        let stretch = match &mut self.stretch {
            Some(stretch) if pair.answer == 0 => stretch,
            _ => return Ok(()),
        };
        let seed = pair.seeds.before;
        let late = seed < 1 << 31;
        let job = if late { &pair.proved } else { &pair.before };
        let (kind, entry) = match call {
            Call::Grant(workers) => (0, Written::Grant(workers)),
            Call::Open(workers) => (1, Written::Grant(workers)),
            Call::Tick(choices) => (2, Written::Tick(choices)),
            Call::Seeded => {
                let entry = Written::Seeded(job, &pair.reference, seed);
                (3 + usize::from(late), entry)
            }
            Call::Offer(_) | Call::Withdraw => return Ok(()),
        };
        match write(pair, &mut stretch.log, entry, self.totals)? {
            0 => self.totals.seeded.entries[kind] += 1,
            _ => self.end_stretch(true)?,
        }
        Ok(())
    }

    /// Both write an entry of any kind in a buffer that has room for it, or not.
    pub fn show_entry(&mut self) -> Result<(), Difference> {
        let (pair, random) = (&self.pair, &mut *self.random);
        let workers = inputs::written_count(random, pair.reference.desire());
        let choices = inputs::written_choices(random);
        let entry = match random.below(3) {
            0 => Written::Grant(workers),
            1 => Written::Tick(&choices),
            _ => Written::Seeded(&pair.proved, &pair.reference, random.next_u64() as u32),
        };
        let (length, used) = inputs::room(random, entry.size());
        let mut log = Log::new(random.bytes(length), used);
        let before = log.clone();
        let number = write(pair, &mut log, entry, self.totals)?;
        if number != 0 && log != before {
            let detail = format!("{entry:?}: {before:?}, then {log:?}");
            return Err(pair.difference(CHANGED_LOG, detail));
        }
        Ok(())
    }
}

/// Both write an entry. Returns the number.
fn write(
    pair: &Pair,
    log: &mut Log,
    entry: Written,
    totals: &mut Totals,
) -> Result<u8, Difference> {
    let room = log.room();
    let written = log.write(entry);
    let number = written.map_err(|detail| pair.difference(OTHER_ENTRY, detail))?;
    totals.seeded.count_entry(entry, number, room);
    Ok(number)
}

/// What is shown.
impl Walk<'_> {
    /// Compares the wording from a random sheet, the counters line, and an entry of a log.
    pub fn show(&mut self) -> Result<(), Difference> {
        self.show_wording()?;
        self.show_line()?;
        self.show_entry()
    }

    fn show_wording(&mut self) -> Result<(), Difference> {
        let sheet = inputs::sheet(self.random);
        let proved = self.pair.proved.wording(&sheet);
        let other = wording(&sheet, self.pair.reference.status());
        let place = |part: &[u8]| (part.as_ptr(), part.len());
        let number = proved_number(&proved);
        self.totals.wordings += 1;
        self.totals.count_refusal(number);
        if number == reference_number(&other) && proved.ok().map(place) == other.ok().map(place) {
            return Ok(());
        }
        let detail = format!("sheet {sheet:02x?}: proved {proved:?}, reference {other:?}");
        Err(self.pair.difference("wording", detail))
    }

    pub fn show_line(&mut self) -> Result<(), Difference> {
        let (proved, reference) = (&self.pair.proved, &self.pair.reference);
        let refused = inputs::refused_count(self.random);
        let mut buffer = inputs::buffer(self.random);
        let mut other = buffer.clone();
        let written = proved.write_line(refused, &mut buffer);
        let expected = counters_line(reference, refused, &mut other);
        let number = proved_number(&written);
        self.totals.count_line(refused);
        self.totals.count_refusal(number);
        let same_text =
            counters_text(reference, refused).strip_suffix('\n') == Some(&proved.line(refused));
        let same = number == reference_number(&expected)
            && written.ok() == expected.ok()
            && buffer == other;
        match compare::counters(&proved.counters(refused), reference, refused) {
            None if same && same_text => Ok(()),
            None => {
                let detail = format!("proved {buffer:02x?}, reference {other:02x?}");
                Err(self.pair.difference("counters line", detail))
            }
            Some(part) => Err(self
                .pair
                .difference(part, format!("{refused} refused calls"))),
        }
    }
}

/// The number of bytes of an entry.
fn entry_size(entry: &Entry) -> usize {
    match entry {
        Entry::Grant(_) => 1,
        Entry::Tick(choices) => 1 + choices.len(),
    }
}
