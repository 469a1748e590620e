//! A whole job or walk: the checker matches, nests and writes, and the crate's own source is asked for the
//! same where it can be.

use crate::jobs::difference;
use crate::predicates::{Difference, Shape, of_matches, of_rules};
use crate::whole_matches::{refusal_backing, stopped_backing};
use crate::whole_rules::Backing;
use checker::{JobWays, Laid, MATCHES, WholeJob, checked_walk, refused};
use input::{Answer, Job, Kept, Matched, Outcome, Parses, Task, pairs};
use ssr::{Asked, Finder, Found, MissingParse, Nested, NotFed, Rendered, Stopped, Workspace};

/// All the room that there may be.
const ROOM: usize = 1_048_576;

/// The most renderings of templates that the crate is asked for: nested texts in each other double them
/// at each level.
const RENDERINGS: u64 = 10_000;

/// What is known of the answer to a job.
#[derive(Debug)]
pub struct JudgedJob {
    pub outcome: Outcome,
    pub backing: Backing,
    /// The ways that the job went, none where it is refused before its parses.
    pub ways: JobWays,
    /// The number is 24 for the matches of a walk, and not for its rules.
    pub too_many_matches: bool,
}

/// A job or walk without its parses and its buffer, made ready.
pub struct WholeJobs<'a> {
    job: &'a Job,
    checked: Result<WholeJob, u32>,
    too_many_matches: bool,
    /// What the crate says to the refusal, or to matches and nesting.
    backing: Backing,
    covered: Vec<Difference>,
    nested: Option<(Finder<'a>, Nested)>,
}

/// The same with parses.
pub struct ParsedJob<'w> {
    whole: &'w WholeJobs<'w>,
    parses: &'w Parses,
    backing: Backing,
}

/// Makes a job or walk ready, and asks. Without `by_crate` the crate is not asked anything. Nested matches
/// need `ssr::on_large_stack`.
pub fn whole_job<T>(
    task: Task,
    job: &Job,
    by_crate: bool,
    ask: impl FnOnce(&WholeJobs<'_>) -> T,
) -> T {
    // Of a directory that is refused (1) the crate is not asked.
    let pairs = pairs::decode(&job.rules).unwrap_or_default();
    let whole = by_checker(task, job, of_rules(&pairs));
    if !by_crate {
        return ask(&whole);
    }
    if let Err(number) = whole.checked
        && !whole.too_many_matches
    {
        let backing = refusal_backing(&pairs, &job.rules, number, &whole.covered);
        return ask(&WholeJobs { backing, ..whole });
    }
    let workspace = match Workspace::new(&pairs, &job.rules.fact_text, Some(&job.file)) {
        Ok(workspace) => workspace,
        Err(what) => return ask(&WholeJobs { backing: stopped_backing(what), ..whole }),
    };
    match Finder::new(&workspace) {
        Ok(finder) => ask(&with_crate(task, whole, finder)),
        Err(what) => ask(&WholeJobs { backing: stopped_backing(what), ..whole }),
    }
}

/// What the checker alone says.
fn by_checker(task: Task, job: &Job, covered: Vec<Difference>) -> WholeJobs<'_> {
    let checked = WholeJob::new(task, job);
    let is_24 = task == Task::Walk && matches!(checked, Err(24));
    let too_many_matches = is_24 && checked_walk(job).is_ok();
    let backing = Backing::NotAsked;
    WholeJobs { job, checked, too_many_matches, backing, covered, nested: None }
}

/// The same with what the crate says to matches and nesting.
fn with_crate<'w>(task: Task, whole: WholeJobs<'w>, finder: Finder<'w>) -> WholeJobs<'w> {
    let WholeJobs { job, checked, too_many_matches, covered, .. } = whole;
    let (backing, nested, covered) = match &checked {
        Err(_) => (count_backing(finder.walk(job.range), &covered), None, covered),
        Ok(whole) => match asked(task, job, whole, &finder) {
            Ok((nested, matched, kept)) => {
                let shape = Shape::new(&job.file.tree);
                let covered = [covered, of_matches(&shape, &matched, &kept)].concat();
                (compared(whole, &matched, &kept, &covered), Some(nested), covered)
            }
            Err(stopped) => (stopped_backing(stopped), None, covered),
        },
    };
    let nested = nested.map(|nested| (finder, nested));
    WholeJobs { job, checked, too_many_matches, backing, covered, nested }
}

/// What the crate says to a walk with too many matches.
fn count_backing(found: Result<Found, Stopped>, covered: &[Difference]) -> Backing {
    match found {
        Ok(found) if found.count() > MATCHES => Backing::Same,
        Ok(_) if covered.contains(&Difference::TwoPathsOneCall) => Backing::Listed,
        Ok(found) => Backing::Other(format!("the crate has {} matches", found.count())),
        Err(stopped) => stopped_backing(stopped),
    }
}

/// The crate's kept matches, as its own and in words, and all its matches.
fn asked(
    task: Task,
    job: &Job,
    whole: &WholeJob,
    finder: &Finder,
) -> Result<(Nested, Vec<Matched>, Vec<Kept>), Stopped> {
    if whole.renderings() > RENDERINGS {
        return Err(NotFed::TooLong.into());
    }
    let found = finder.find_all(task, job)?;
    let matched = finder.matched(&found);
    let nested = finder.nest(found)?;
    let kept = finder.kept(&nested);
    Ok((nested, matched, kept))
}

/// Both have the same matches, kept in the same places.
fn compared(
    whole: &WholeJob,
    matched: &[Matched],
    kept: &[Kept],
    covered: &[Difference],
) -> Backing {
    let listed = |difference| covered.contains(&difference);
    if matched != whole.matches {
        if listed(Difference::TwoPathsOneCall) {
            return Backing::Listed;
        }
        return Backing::Other(format!("the crate matches {matched:?}, not {:?}", whole.matches));
    }
    if kept != whole.kept {
        if listed(Difference::TwoHoldingRanges) || listed(Difference::TwoPathsOneCall) {
            return Backing::Listed;
        }
        return Backing::Other(format!("the crate keeps {kept:?}, not {:?}", whole.kept));
    }
    Backing::Same
}

impl<'a> WholeJobs<'a> {
    /// The number that is there whatever the parses and the buffer are, 0 where there is none.
    pub fn number(&self) -> u32 {
        self.checked.as_ref().err().copied().unwrap_or(0)
    }

    /// How many candidates match.
    pub fn matches(&self) -> usize {
        self.checked.as_ref().map_or(0, |whole| whole.matches.len())
    }

    /// The listed differences that cover the job.
    pub fn covered(&self) -> &[Difference] {
        &self.covered
    }

    /// With these parses. Where `by_crate` is set, the crate renders with them too.
    pub fn with<'w>(&'w self, parses: &'w Parses, by_crate: bool) -> ParsedJob<'w>
    where
        'a: 'w,
    {
        let backing = match &self.checked {
            Ok(whole) if by_crate => self.rendering_backing(whole, parses),
            _ => self.backing.clone(),
        };
        ParsedJob { whole: self, parses, backing }
    }

    /// What the crate says to the text that the checker writes in all the room.
    fn rendering_backing(&self, whole: &WholeJob, parses: &Parses) -> Backing {
        if checker::check_parses(parses).is_err() {
            return Backing::NotAsked;
        }
        if !matches!(self.backing, Backing::Same) {
            return self.backing.clone();
        }
        let roomy = whole.write(parses, ROOM).laid;
        if matches!(roomy, Laid::Refused(30)) {
            return Backing::NotAsked;
        }
        match self.rendered(parses) {
            Ok(rendered) => match difference(self.job, &unpadded(roomy), rendered.rendering) {
                None => Backing::Same,
                Some(_) if self.is_text_listed() => Backing::Listed,
                Some(what) => Backing::Other(what),
            },
            Err(stopped) => stopped_backing(stopped),
        }
    }

    /// Whether a listed difference lets the text of the same kept matches differ.
    fn is_text_listed(&self) -> bool {
        let listed = [Difference::PrefixBeforeNested, Difference::EqualStarts];
        self.covered.iter().any(|difference| listed.contains(difference))
    }

    fn rendered(&self, parses: &Parses) -> Result<Rendered, Stopped> {
        let (finder, nested) = self.nested.as_ref().ok_or(NotFed::TooLong)?;
        finder.edited_text(nested, parses, MissingParse::Stop)
    }

    /// The texts that the crate wants parsed, in the order of first asking; nothing where it was not
    /// asked or does not come to an end.
    pub fn crate_asks(&self, parses: &Parses) -> Option<Vec<Asked>> {
        self.rendered(parses).ok().map(|rendered| rendered.asked)
    }
}

impl ParsedJob<'_> {
    /// With a buffer of so many bytes.
    pub fn ask(&self, buffer: usize) -> JudgedJob {
        let whole = match &self.whole.checked {
            Ok(whole) => whole,
            Err(number) => {
                let (outcome, ways) = (refused(*number, buffer), JobWays::default());
                return self.judged(outcome, ways);
            }
        };
        let written = whole.write(self.parses, buffer);
        self.judged(written.laid.outcome(buffer), written.ways)
    }

    fn judged(&self, outcome: Outcome, ways: JobWays) -> JudgedJob {
        let too_many_matches = self.whole.too_many_matches;
        JudgedJob { outcome, backing: self.backing.clone(), ways, too_many_matches }
    }
}

/// The outcome with a buffer that the bytes fill.
fn unpadded(laid: Laid) -> Outcome {
    let length = match &laid {
        Laid::List(bytes) | Laid::Asked(_, bytes) => bytes.len(),
        Laid::Refused(_) => 0,
    };
    laid.outcome(length)
}

/// The bytes of an answer's own in a buffer.
pub fn used_by(answer: &Answer) -> usize {
    match answer {
        Answer::Edits(length) | Answer::Asked { length, .. } => *length,
        _ => 0,
    }
}
