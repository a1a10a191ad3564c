//! The tables of the report, from the figures.

use crate::case::{Workload, BOTH, LONG_WORKLOADS};
use crate::checks::CheckCost;
use crate::converts::ConvertCost;
use crate::filled::{self, FilledCost, FullStepCost};
use crate::filling::Filling;
use crate::images::{CallCosts, ImageCost};
use crate::kinds::{KindCost, KIND_PEERS};
use crate::layouts::{LayoutCost, LAYOUT_PEERS};
use crate::peer::{Peer, PEERS};
use crate::places::{per_place, PlacesCost, SearchCost, SEARCH_TABLES};
use crate::records::{self, Cost};
use crate::reports::ReportCost;
use crate::steps::StepCost;
use crate::table::{grouped, Table};
use crate::timing::{self, Time};

/// The sizes of the tables.
pub const SIZES: [usize; 3] = [1, 16, 256];

/// A row for each workload and n: a figure of each peer, then the library's divided by each other peer's.
fn by_peer(
    workloads: &[Workload],
    peers: &[Peer],
    figure: impl Fn(Peer, Workload, usize) -> f64,
) -> Table {
    let others = || peers.iter().filter(|&&peer| peer != Peer::Library);
    let names = peers.iter().map(|peer| peer.name().to_string());
    let ratios = others().map(|peer| format!("library / {}", peer.name()));
    let header = ["workload".to_string(), "n".to_string()]
        .into_iter()
        .chain(names)
        .chain(ratios);
    let mut table = Table::new(header.collect());
    for &workload in workloads {
        for n in SIZES {
            let library = figure(Peer::Library, workload, n);
            let mut row = vec![workload.name().to_string(), n.to_string()];
            row.extend(
                peers
                    .iter()
                    .map(|&peer| format!("{:.1}", figure(peer, workload, n))),
            );
            row.extend(others().map(|&peer| format!("{:.2}", library / figure(peer, workload, n))));
            table.row(row);
        }
    }
    table
}

/// Instructions per record, without the check or with its share.
pub fn instructions(
    costs: &[Cost],
    workloads: &[Workload],
    peers: &[Peer],
    of: fn(&Cost) -> f64,
) -> Table {
    by_peer(workloads, peers, |peer, workload, n| {
        of(records::find(costs, peer, workload, n))
    })
}

/// Millions of records per second.
pub fn rates(times: &[Time], of: fn(&Time) -> f64) -> Table {
    by_peer(&LONG_WORKLOADS, &PEERS, |peer, workload, n| {
        of(timing::find(times, peer, workload, n)) / 1e6
    })
}

/// Tapes through the report and without it: library and plain Rust, and the library's report against plain Rust's.
pub fn reports(costs: &[ReportCost]) -> Table {
    let header = [
        "workload",
        "n",
        "library, tape",
        "library, report",
        "report / tape",
        "plain, tape",
        "plain, report",
        "report / tape",
        "library / plain, report",
    ];
    let mut table = Table::new(header.map(String::from).into());
    for cost in costs {
        let [library, plain] = [0, 1].map(|peer: usize| {
            [cost.taped[peer], cost.reported[peer]].map(|count| format!("{count:.1}"))
        });
        let first = [cost.workload.name().to_string(), cost.n.to_string()];
        let ratios = [cost.ratio(), cost.plain_ratio(), cost.against_plain()];
        let [ratio, plain_ratio, against] = ratios.map(|ratio| format!("{ratio:.2}"));
        table.row(
            [
                &first[..],
                &library,
                &[ratio],
                &plain,
                &[plain_ratio, against],
            ]
            .concat(),
        );
    }
    table
}

pub fn steps(steps: &[StepCost]) -> Table {
    let header = [
        "workload",
        "n",
        "nodes",
        "library",
        "plain",
        "library / plain",
    ];
    let mut table = Table::new(header.map(String::from).into());
    for step in steps {
        table.row(vec![
            step.workload.name().to_string(),
            step.n.to_string(),
            grouped(step.nodes as u64),
            grouped(step.library().round() as u64),
            grouped(step.plain().round() as u64),
            format!("{:.2}", step.ratio()),
        ]);
    }
    table
}

/// Records in tables of both lengths: the library's figures, how many more in the longer one, then plain's.
pub fn places(costs: &[PlacesCost]) -> Table {
    let of = |peer: &str| BOTH.map(|places| format!("{peer}, {places} places"));
    let header = [
        &["records", "n"].map(String::from)[..],
        &of("library"),
        &["more".into()],
        &of("plain"),
        &[format!("library / plain, {} places", BOTH[1])],
    ]
    .concat();
    let mut table = Table::new(header);
    let shown = |counts: [f64; 2]| counts.map(|count| format!("{count:.1}"));
    for cost in costs {
        let first = [cost.name.to_string(), cost.n.to_string()];
        let more = format!("{:.1}", cost.more());
        let ratio = format!("{:.2}", cost.ratio());
        let (library, plain) = (shown(cost.library), shown(cost.plain));
        table.row([&first[..], &library, &[more], &plain, &[ratio]].concat());
    }
    table
}

/// Records that search the table: library and plain Rust by its places.
pub fn searches(costs: &[SearchCost]) -> Table {
    let of = |peer: &str| {
        let figures = SEARCH_TABLES.map(|places| format!("{peer}, {places} places"));
        [&figures[..], &[format!("{peer}, per place")]].concat()
    };
    let mut table = Table::new([vec!["records".into()], of("library"), of("plain")].concat());
    let shown = |counts: [f64; 3]| {
        let figures = counts.map(|count| format!("{count:.0}"));
        [&figures[..], &[format!("{:.1}", per_place(counts))]].concat()
    };
    for cost in costs {
        let first = vec![cost.kind.name().to_string()];
        table.row([first, shown(cost.library), shown(cost.plain)].concat());
    }
    table
}

pub fn checks(checks: &[CheckCost]) -> Table {
    let header = [
        "n",
        "nodes",
        "places",
        "live frames",
        "lines",
        "writes each",
        "library",
        "plain",
        "library / plain",
    ];
    let mut table = Table::new(header.map(String::from).into());
    for check in checks {
        let s = check.standing;
        let numbers = [s.n, s.nodes, s.places, s.frames, s.lines, s.writes]
            .map(|number| grouped(number as u64));
        let costs = vec![
            grouped(check.library),
            grouped(check.plain),
            format!("{:.2}", check.ratio()),
        ];
        table.row([numbers.to_vec(), costs].concat());
    }
    table
}

/// The check by the table's places: also per place more than in the row before, of the same n.
pub fn check_places(checks: &[CheckCost]) -> Table {
    let header = [
        "n",
        "nodes",
        "places",
        "live frames",
        "library",
        "plain",
        "library / plain",
        "library, per place more",
        "plain, per place more",
    ];
    let mut table = Table::new(header.map(String::from).into());
    let mut before: Option<&CheckCost> = None;
    for check in checks {
        let s = check.standing;
        let numbers = [s.n, s.nodes, s.places, s.frames].map(|number| grouped(number as u64));
        let costs = [
            grouped(check.library),
            grouped(check.plain),
            format!("{:.2}", check.ratio()),
        ];
        let more = before.and_then(|before| check.per_place_more(before));
        let more = match more {
            Some(more) => more.map(|count| format!("{count:.1}")),
            None => ["-", "-"].map(String::from),
        };
        table.row([&numbers[..], &costs, &more].concat());
        before = Some(check);
    }
    table
}

/// The check of filled pools, also per node of the pool and against that of the untouched one.
pub fn filled(costs: &[FilledCost]) -> Table {
    let header = [
        "pool",
        "nodes in use",
        "places",
        "live frames",
        "writes each",
        "library",
        "plain",
        "library / plain",
        "library per node",
        "library / untouched",
    ];
    let untouched = filled::find(costs, Filling::Untouched).library as f64;
    let mut table = Table::new(header.map(String::from).into());
    for cost in costs {
        table.row(vec![
            cost.filling.name().to_string(),
            grouped(cost.used as u64),
            cost.filling.places().to_string(),
            cost.frames.to_string(),
            cost.filling.writes().to_string(),
            grouped(cost.library),
            grouped(cost.plain),
            format!("{:.2}", cost.ratio()),
            format!("{:.1}", cost.per_node()),
            format!("{:.2}", cost.library as f64 / untouched),
        ]);
    }
    table
}

/// Steps in a full pool, in calls of their own and as records of a tape.
pub fn full_steps(costs: &[FullStepCost]) -> Table {
    let header = [
        "step",
        "single, library",
        "single, plain",
        "library / plain",
        "in a tape, library",
        "in a tape, plain",
        "library / plain",
    ];
    let mut table = Table::new(header.map(String::from).into());
    for cost in costs {
        let single = cost.single.map(|count| grouped(count.round() as u64));
        let taped = match cost.taped {
            Some(taped) => taped.map(|count| format!("{count:.1}")),
            None => ["-", "-"].map(String::from),
        };
        let ratio = |[library, plain]: [f64; 2]| format!("{:.2}", library / plain);
        table.row(
            [
                vec![cost.step.name().to_string()],
                single.to_vec(),
                vec![ratio(cost.single)],
                taped.to_vec(),
                vec![cost.taped.map_or("-".into(), ratio)],
            ]
            .concat(),
        );
    }
    table
}

/// Records of one kind: the peers' figures, then the library's against plain's and against its own before R-5.
pub fn kinds(costs: &[KindCost]) -> Table {
    let peers = KIND_PEERS.map(|peer| peer.name());
    let others = ["library / plain", "library before", "more"];
    let header = [&["records"], &peers[..], &others].concat();
    let mut table = Table::new(header.into_iter().map(String::from).collect());
    let shown = |count: Option<f64>| count.map_or("-".into(), |count| format!("{count:.1}"));
    for cost in costs {
        let figures = cost.peers.map(|count| format!("{count:.1}"));
        let others = [
            format!("{:.2}", cost.ratio()),
            shown(cost.before),
            shown(cost.more()),
        ];
        table.row([&[cost.kind.name().to_string()], &figures[..], &others].concat());
    }
    table
}

/// Nodes of two words against nodes of four: a row for each figure of each workload, then those of the check.
pub fn layouts(costs: &[LayoutCost]) -> Table {
    let ratios = [
        (Peer::Library, Peer::Plain),
        (Peer::Library, Peer::FourWords),
        (Peer::Plain, Peer::FourWords),
    ];
    let first = ["records", "figure"].map(String::from);
    let peers = LAYOUT_PEERS.map(|peer| peer.name().to_string());
    let names = ratios.map(|(one, other)| format!("{} / {}", one.name(), other.name()));
    let mut table = Table::new([&first[..], &peers, &names].concat());
    for cost in costs {
        let rows = [
            ("instructions", cost.instructions),
            ("D1 misses", cost.machine[0]),
            ("LL misses", cost.machine[1]),
            ("D1 misses, small caches", cost.small[0]),
            ("LL misses, small caches", cost.small[1]),
        ];
        let name = cost
            .workload
            .map_or("check, per call", |workload| workload.name());
        for (figure, row) in rows {
            let shown = |count: f64| match (cost.workload, figure) {
                (None, _) => grouped(count.round() as u64),
                (_, "instructions") => format!("{count:.1}"),
                _ => format!("{count:.3}"),
            };
            let ratio = |(one, other)| {
                let ratio = LayoutCost::ratio(row, one, other);
                if ratio.is_finite() {
                    format!("{ratio:.2}")
                } else {
                    "-".into()
                }
            };
            let first = [name, figure].map(String::from);
            table.row([&first[..], &row.map(shown), &ratios.map(ratio)].concat());
        }
    }
    table
}

/// The instructions of a call with an image.
type ImageCount = fn(&CallCosts) -> u64;

/// These calls, whole and less their check, and a reading that looks at the checks of the blocks alone.
pub const IMAGE_CALLS: [(&str, ImageCount); 5] = [
    ("save", |costs| costs.save),
    ("reading", |costs| costs.load),
    ("save less the check", |costs| costs.bare_save),
    ("reading less the check", |costs| costs.bare_load),
    ("checks alone", |costs| costs.checks),
];

/// Instructions per block, a row for each call and image: the library's, now and before R-4, the other peers' and a copy's, then the
/// library's divided by others.
pub fn block_instructions(images: &[ImageCost]) -> Table {
    let header = [
        "call",
        "nodes",
        "places",
        "blocks",
        "library",
        "before",
        "plain",
        "bytewise",
        "copy",
        "library / before",
        "library / plain",
        "library / copy",
    ];
    let mut table = Table::new(header.map(String::from).into());
    for (call, instructions) in IMAGE_CALLS {
        for image in images {
            let [library, plain, bytewise] = image.peers.each_ref().map(instructions);
            let [library, plain, bytewise, copy] =
                [library, plain, bytewise, image.copy].map(|count| image.per_block(count));
            let before = image.before.per_block(instructions);
            let figures =
                [library, before, plain, bytewise, copy].map(|count| format!("{count:.1}"));
            let ratios = [before, plain, copy].map(|other| format!("{:.2}", library / other));
            let first = [
                call.to_string(),
                grouped(image.nodes as u64),
                image.places.to_string(),
                grouped(image.blocks()),
            ];
            table.row([&first[..], &figures, &ratios].concat());
        }
    }
    table
}

/// The instructions of a call with a pool of nodes of four words, of library and plain Rust, if they have it.
type ConvertCount = fn(&ConvertCost) -> [Option<u64>; 2];

/// The change-over, whole, refused and less its check, and the check alone.
const CONVERT_CALLS: [(&str, ConvertCount); 4] = [
    ("change-over", |cost| cost.convert.map(Some)),
    ("refused by 6", |cost| cost.refused.map(Some)),
    ("less the check", |cost| cost.pack.map(Some)),
    ("check alone", |cost| [None, Some(cost.check)]),
];

/// R-9's call, a row for each old pool: library and plain Rust, the library against plain Rust, all per node too, and a copy of the old pool.
pub fn converts(costs: &[ConvertCost]) -> Table {
    let header = [
        "call",
        "nodes",
        "in use",
        "places",
        "library",
        "plain",
        "library / plain",
        "library per node",
        "plain per node",
        "copy per node",
    ];
    let mut table = Table::new(header.map(String::from).into());
    let shown = |figure: Option<String>| figure.unwrap_or_else(|| "-".into());
    for (call, instructions) in CONVERT_CALLS {
        for cost in costs {
            let counts = instructions(cost);
            let [library, plain] = counts;
            let ratio = library.zip(plain).map(|(a, b)| a as f64 / b as f64);
            let per_node = |count: u64| format!("{:.1}", cost.per_node(count));
            let numbers = [cost.nodes, cost.used, cost.places].map(|number| grouped(number as u64));
            table.row(
                [
                    vec![call.to_string()],
                    numbers.to_vec(),
                    counts.map(|count| shown(count.map(grouped))).to_vec(),
                    vec![shown(ratio.map(|ratio| format!("{ratio:.2}")))],
                    counts.map(|count| shown(count.map(per_node))).to_vec(),
                    vec![per_node(cost.copy)],
                ]
                .concat(),
            );
        }
    }
    table
}
