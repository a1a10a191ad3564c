//! What saving and reading cost: the instructions of the calls, and of a plain copy of the image's bytes.

use crate::callgrind::count_all;
use crate::case::{Case, Standing, BOTH, MAX_NODES};
use crate::job::{ImageCall, Job};
use crate::library;
use crate::peer::{Images, Peer, Run};
use host_tests::image::{self, Size, BLOCK_BYTES};
use host_tests::parts::Parts;
use host_tests::plain;
use splitter::NODE_WORDS;

/// Live frames of the states that are saved, and the writes of each.
pub const FRAMES: usize = 8;
pub const WRITES: usize = 8;
/// Those that save and read.
pub const IMAGE_PEERS: [Peer; 3] = [Peer::Library, Peer::Plain, Peer::Bytewise];
/// What a target holds before.
const FILL: u8 = 0xA5;
/// n and the nodes of the pool.
const POOLS: [(usize, usize); 2] = [(16, 1_024), (256, MAX_NODES)];

/// The instructions of one peer's calls.
#[derive(Clone, Copy)]
pub struct CallCosts {
    pub save: u64,
    pub load: u64,
    /// Without the soundness check.
    pub bare_save: u64,
    pub bare_load: u64,
    /// A reading that is refused by the check of the last block.
    pub checks: u64,
}

/// The library's before R-4, at `BEFORE_COMMIT`, counted by this bench. Images had fewer words before R-5.
pub const BEFORE_COMMIT: &str = "22904c1";
const BEFORE: [Before; 2] = [
    Before {
        blocks: 40,
        costs: CallCosts {
            save: 108_043,
            load: 108_217,
            bare_save: 83_729,
            bare_load: 83_903,
            checks: 77_190,
        },
    },
    Before {
        blocks: 524,
        costs: CallCosts {
            save: 1_399_391,
            load: 1_400_317,
            bare_save: 1_104_465,
            bare_load: 1_105_391,
            checks: 1_006_954,
        },
    },
];

#[derive(Clone, Copy)]
pub struct Before {
    blocks: u64,
    costs: CallCosts,
}

impl Before {
    /// Instructions per block of the image as it was then.
    pub fn per_block(&self, instructions: fn(&CallCosts) -> u64) -> f64 {
        instructions(&self.costs) as f64 / self.blocks as f64
    }
}

pub struct ImageCost {
    pub places: usize,
    pub nodes: usize,
    /// Those of `IMAGE_PEERS`.
    pub peers: [CallCosts; 3],
    /// The library's before R-4.
    pub before: Before,
    /// The instructions of a plain copy.
    pub copy: u64,
}

impl ImageCost {
    pub fn bytes(&self) -> u64 {
        bytes(self.places, self.nodes) as u64
    }

    pub fn blocks(&self) -> u64 {
        self.bytes() / BLOCK_BYTES as u64
    }

    pub fn per_block(&self, instructions: u64) -> f64 {
        instructions as f64 / self.blocks() as f64
    }

    pub fn library(&self) -> &CallCosts {
        &self.peers[0]
    }

    pub fn plain(&self) -> &CallCosts {
        &self.peers[1]
    }
}

/// The bytes of an image.
fn bytes(places: usize, nodes: usize) -> usize {
    let (places, nodes) = (places as u32, nodes as u32);
    image::bytes(Size { places, nodes }) as usize
}

/// Each pool with tables of both lengths.
fn standings() -> Vec<(Standing, Before)> {
    let with_tables = |((n, nodes), before)| {
        let of = |places| Standing {
            n,
            nodes,
            places,
            frames: FRAMES,
            writes: WRITES,
            lines: 1,
        };
        BOTH.map(|places| (of(places), before))
    };
    let pools = POOLS.into_iter().zip(BEFORE);
    pools.flat_map(with_tables).collect()
}

pub fn count() -> Vec<ImageCost> {
    let all = standings().into_iter();
    all.map(|(standing, before)| count_at(standing, before))
        .collect()
}

fn count_at(standing: Standing, before: Before) -> ImageCost {
    let copy = (Peer::Plain, Job::Image(ImageCall::Copy, standing));
    let of_peers = IMAGE_PEERS.map(|peer| jobs(peer, standing).map(|job| (peer, job)));
    let all = [of_peers.as_flattened(), &[copy]].concat();
    let counts = count_all(&all);
    let (of_peers, _) = counts.as_chunks();
    let costs = |index: usize| costs(IMAGE_PEERS[index], of_peers[index]);
    ImageCost {
        places: standing.places,
        nodes: standing.nodes,
        peers: [0, 1, 2].map(costs),
        before,
        copy: counts[counts.len() - 1],
    }
}

/// What is counted of a peer. Plain Rust's soundness check is compiled into each call anew, so there are calls without it. The library's is
/// one function, which a call with an empty tape has too.
fn jobs(peer: Peer, standing: Standing) -> [Job; 5] {
    let image = |call| Job::Image(call, standing);
    let [bare_save, bare_load] = match peer {
        Peer::Library => [Job::Check(standing); 2],
        _ => [ImageCall::BareSave, ImageCall::BareLoad].map(image),
    };
    let [save, load, checks] = [ImageCall::Save, ImageCall::Load, ImageCall::Checks].map(image);
    [save, load, bare_save, bare_load, checks]
}

fn costs(peer: Peer, [save, load, bare_save, bare_load, checks]: [u64; 5]) -> CallCosts {
    let bare = |whole: u64, other| match peer {
        Peer::Library => whole.saturating_sub(other),
        _ => other,
    };
    CallCosts {
        save,
        load,
        bare_save: bare(save, bare_save),
        bare_load: bare(load, bare_load),
        checks,
    }
}

/// The image of the state after the case's prelude.
pub fn saved(peer: Peer, case: &Case) -> Vec<u8> {
    image_of(peer.begin(case).as_mut(), case)
}

/// The image of a run that was only started and has then read this image.
pub fn read_and_saved(peer: Peer, case: &Case, image: &[u8]) -> Vec<u8> {
    let mut run = peer.begin(&case.started());
    assert_ne!(image_of(run.as_mut(), case), image, "nothing to read");
    let refusal = images(run.as_mut()).load(image);
    assert_eq!(refusal, 0, "{}: the image is refused", peer.name());
    image_of(run.as_mut(), case)
}

/// The same without the soundness check.
fn bare_read_and_saved(peer: Peer, case: &Case, image: &[u8]) -> Vec<u8> {
    let mut run = peer.begin(&case.started());
    let run = images(run.as_mut());
    let mut target = vec![FILL; bytes(case.places, case.nodes)];
    let refusals = [run.bare_load(image), run.bare_save(&mut target)];
    assert_eq!(refusals, [0; 2], "{}: the image is refused", peer.name());
    target
}

/// A save into bytes that are not zero, with more of them past the image.
fn image_of(run: &mut dyn Run, case: &Case) -> Vec<u8> {
    let bytes = bytes(case.places, case.nodes);
    let mut target = vec![FILL; bytes + BLOCK_BYTES];
    let refusal = images(run).save(&mut target);
    assert_eq!(refusal, 0, "the save is refused");
    let past = target.split_off(bytes);
    assert!(
        past.iter().all(|&byte| byte == FILL),
        "bytes past the image"
    );
    target
}

/// The image with another check in its last block.
pub fn last_check_wrong(image: &[u8]) -> Vec<u8> {
    let mut image = image.to_vec();
    if let Some(byte) = image.last_mut() {
        *byte ^= 1;
    }
    image
}

pub fn images(run: &mut dyn Run) -> &mut dyn Images {
    run.images().expect("it has nodes")
}

/// The image by `tests/host/src/image.rs`, of plain.rs's state.
fn by_document(case: &Case) -> Vec<u8> {
    let (mut pool, mut work) = (vec![0; NODE_WORDS * case.nodes], vec![0; case.nodes]);
    let table = vec![plain::Frame::default(); case.places];
    let (mut state, started) = plain::start(case.workers as u32, &case.values, table, &mut pool);
    let mut answers = vec![0; case.prelude.len() / 4];
    let ran = plain::tape(
        &mut state,
        &mut pool,
        &mut work,
        &case.prelude,
        &mut answers,
    );
    let mut target = vec![FILL; bytes(case.places, case.nodes)];
    let saved = image::save(&Parts::of(&state), &pool, &mut work, &mut target);
    assert_eq!([started, ran, saved], [0; 3], "the document's image");
    target
}

/// Library and plain Rust save the document's bytes, and save them again after reading them into another run.
pub fn compare() {
    for (standing, _) in standings() {
        let Standing { places, nodes, .. } = standing;
        let case = Case::standing(standing);
        let expected = by_document(&case);
        let what = format!("images, {places} places, {nodes} nodes");
        let bytes = library::image_bytes(places, nodes);
        assert_eq!(
            bytes,
            expected.len() as u64,
            "{what}: the bytes of an image"
        );
        for peer in IMAGE_PEERS {
            compare_peer(peer, &case, &expected, &what);
        }
    }
}

fn compare_peer(peer: Peer, case: &Case, expected: &[u8], what: &str) {
    let same = saved(peer, case) == expected;
    assert!(same, "{what}: {} saves other bytes", peer.name());
    let same = read_and_saved(peer, case, expected) == expected;
    assert!(same, "{what}: {} reads something else", peer.name());
    let same = peer == Peer::Library || bare_read_and_saved(peer, case, expected) == expected;
    assert!(same, "{what}: {} without its soundness check", peer.name());
}
