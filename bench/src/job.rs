//! A case by name, so that another process can be asked to run it.

use crate::case::{Case, Standing, Workload, RECORDS};
use crate::converts::{ConvertCall, OldPool};
use crate::filling::{Filled, Filling, FullStep};
use crate::kind::Kind;

#[derive(Clone, Copy, PartialEq, Eq, Debug)]
pub enum Job {
    /// A workload's tape of records; n and the places of the table.
    Records(Workload, usize, usize),
    /// The same without the records that are counted.
    Rest(Workload, usize, usize),
    /// A workload's tape in a pool of so many nodes; n before them.
    Pool(Workload, usize, usize),
    /// An empty tape there.
    PoolRest(Workload, usize, usize),
    /// An empty tape on a state made for the check.
    Check(Standing),
    /// A workload's records, each in a call of its own; n and the nodes of the pool.
    Steps(Workload, usize, usize),
    /// What is done with the image of such a state.
    Image(ImageCall, Standing),
    /// An empty tape on a filled pool.
    Filled(Filling),
    /// Steps in a full pool, each in a call of its own.
    FullSteps(FullStep),
    /// Such steps as the records of one tape.
    FullTape(FullStep),
    /// A read and then records of one kind, in a table of so many places.
    Kind(Kind, usize),
    /// The read alone.
    KindRest(Kind, usize),
    /// A workload's prelude and its records in a report; n.
    Report(Workload, usize),
    /// The prelude alone.
    ReportRest(Workload, usize),
    /// What is done with a pool of nodes of four words.
    Convert(ConvertCall, OldPool),
}

/// Single steps in a full pool.
pub const FULL_CALLS: usize = 16;

#[derive(Clone, Copy, PartialEq, Eq, Debug)]
pub enum ImageCall {
    Save,
    Load,
    /// Without the soundness check.
    BareSave,
    BareLoad,
    /// A reading that is refused by the check of the last block.
    Checks,
    /// Its bytes are copied to another place, and nothing else.
    Copy,
}

impl ImageCall {
    const ALL: [ImageCall; 6] = [
        ImageCall::Save,
        ImageCall::Load,
        ImageCall::BareSave,
        ImageCall::BareLoad,
        ImageCall::Checks,
        ImageCall::Copy,
    ];

    fn name(self) -> &'static str {
        match self {
            ImageCall::Save => "save",
            ImageCall::Load => "load",
            ImageCall::BareSave => "bare_save",
            ImageCall::BareLoad => "bare_load",
            ImageCall::Checks => "checks",
            ImageCall::Copy => "copy",
        }
    }

    fn named(name: &str) -> Option<Self> {
        Self::ALL.into_iter().find(|call| call.name() == name)
    }
}

impl Job {
    pub fn case(self) -> Case {
        match self {
            Job::Records(workload, n, places) => Case::records(workload, n).in_table(places),
            Job::Rest(workload, n, places) => {
                Job::Records(workload, n, places).case().rest(workload)
            }
            Job::Pool(workload, n, nodes) => Case::in_pool(workload, n, nodes),
            Job::PoolRest(workload, n, nodes) => Case::in_pool(workload, n, nodes).rest(workload),
            Job::Check(standing) | Job::Image(_, standing) => Case::standing(standing),
            Job::Steps(workload, n, nodes) => Case::steps(workload, n, nodes),
            Job::Filled(filling) => Filled::new(filling).case(),
            Job::FullSteps(step) => step.case(FULL_CALLS),
            Job::FullTape(step) => step.case(RECORDS),
            Job::Kind(kind, places) => kind.case().in_table(places),
            Job::KindRest(kind, places) => kind.rest().in_table(places),
            Job::Report(workload, n) => Case::records(workload, n).from_start(),
            Job::ReportRest(workload, n) => Case::records(workload, n).rest(workload).from_start(),
            Job::Convert(_, pool) => pool.case(),
        }
    }

    pub fn words(self) -> Vec<String> {
        match self {
            Job::Records(workload, n, places) => {
                vec![workload.name().into(), n.to_string(), places.to_string()]
            }
            Job::Rest(workload, n, places) => with_rest(Job::Records(workload, n, places)),
            Job::Check(standing) => standing_words("check", standing),
            Job::Image(call, standing) => standing_words(call.name(), standing),
            Job::Pool(workload, n, nodes) => pool_words("pool", workload, [n, nodes]),
            Job::PoolRest(workload, n, nodes) => with_rest(Job::Pool(workload, n, nodes)),
            Job::Steps(workload, n, nodes) => pool_words("steps", workload, [n, nodes]),
            Job::Filled(filling) => vec!["filled".into(), filling.name().into()],
            Job::FullSteps(step) => vec!["full_steps".into(), step.name().into()],
            Job::FullTape(step) => vec!["full_tape".into(), step.name().into()],
            Job::Kind(kind, places) => {
                vec!["kind".into(), kind.name().into(), places.to_string()]
            }
            Job::KindRest(kind, places) => with_rest(Job::Kind(kind, places)),
            Job::Report(workload, n) => {
                vec!["report".into(), workload.name().into(), n.to_string()]
            }
            Job::ReportRest(workload, n) => with_rest(Job::Report(workload, n)),
            Job::Convert(call, pool) => ["convert", call.name(), pool.name()]
                .map(String::from)
                .into(),
        }
    }

    pub fn from_words(words: &[&str]) -> Option<Self> {
        let number = |word: &str| word.parse::<usize>().ok();
        match words {
            [name, n, nodes, places, frames, writes, lines] => {
                let standing = Standing {
                    n: number(n)?,
                    nodes: number(nodes)?,
                    places: number(places)?,
                    frames: number(frames)?,
                    writes: number(writes)?,
                    lines: number(lines)?,
                };
                match *name {
                    "check" => Some(Job::Check(standing)),
                    call => Some(Job::Image(ImageCall::named(call)?, standing)),
                }
            }
            ["steps", workload, n, nodes] => Some(Job::Steps(
                Workload::named(workload)?,
                number(n)?,
                number(nodes)?,
            )),
            ["pool", workload, n, nodes] => Some(Job::Pool(
                Workload::named(workload)?,
                number(n)?,
                number(nodes)?,
            )),
            ["pool", workload, n, nodes, "rest"] => Some(Job::PoolRest(
                Workload::named(workload)?,
                number(n)?,
                number(nodes)?,
            )),
            ["filled", filling] => Some(Job::Filled(Filling::named(filling)?)),
            ["full_steps", step] => Some(Job::FullSteps(FullStep::named(step)?)),
            ["full_tape", step] => Some(Job::FullTape(FullStep::named(step)?)),
            ["kind", kind, places] => Some(Job::Kind(Kind::named(kind)?, number(places)?)),
            ["kind", kind, places, "rest"] => {
                Some(Job::KindRest(Kind::named(kind)?, number(places)?))
            }
            ["report", workload, n] => Some(Job::Report(Workload::named(workload)?, number(n)?)),
            ["report", workload, n, "rest"] => {
                Some(Job::ReportRest(Workload::named(workload)?, number(n)?))
            }
            ["convert", call, pool] => Some(Job::Convert(
                ConvertCall::named(call)?,
                OldPool::named(pool)?,
            )),
            [workload, n, places] => Some(Job::Records(
                Workload::named(workload)?,
                number(n)?,
                number(places)?,
            )),
            [workload, n, places, "rest"] => Some(Job::Rest(
                Workload::named(workload)?,
                number(n)?,
                number(places)?,
            )),
            _ => None,
        }
    }
}

fn with_rest(job: Job) -> Vec<String> {
    [job.words(), vec!["rest".into()]].concat()
}

fn pool_words(name: &str, workload: Workload, numbers: [usize; 2]) -> Vec<String> {
    let numbers = numbers.map(|number| number.to_string());
    [vec![name.into(), workload.name().into()], numbers.to_vec()].concat()
}

fn standing_words(name: &str, s: Standing) -> Vec<String> {
    let numbers = [s.n, s.nodes, s.places, s.frames, s.writes, s.lines];
    let numbers = numbers.map(|number| number.to_string());
    [vec![name.into()], numbers.to_vec()].concat()
}
