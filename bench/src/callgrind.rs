//! Instructions of one call, and its data-cache misses, counted by callgrind in a process of its own.

use crate::job::Job;
use crate::peer::Peer;
use std::env;
use std::fs;
use std::process::{self, Command};
use std::sync::atomic::{AtomicUsize, Ordering};
use std::sync::Mutex;
use std::thread;

/// The caches that callgrind simulates.
#[derive(Clone, Copy, PartialEq, Eq, Debug)]
pub enum Caches {
    /// Those that it takes if it is told nothing else: this machine's, as it reads them.
    Machine,
    /// Small ones, such as a controller has.
    Small,
}

impl Caches {
    /// Bytes, ways and bytes of a line, of both first caches and of the last one.
    fn words(self) -> &'static [&'static str] {
        match self {
            Caches::Machine => &["--cache-sim=yes"],
            Caches::Small => &[
                "--cache-sim=yes",
                "--I1=16384,4,32",
                "--D1=16384,4,32",
                "--LL=131072,8,32",
            ],
        }
    }

    /// The data caches, in callgrind's words.
    pub fn described(self) -> String {
        let path = env::temp_dir().join(format!("bench_caches.{}", process::id()));
        let out = format!("--callgrind-out-file={}", path.display());
        let ran = Command::new("valgrind")
            .args(["--tool=callgrind", &out])
            .args(self.words())
            .arg("/bin/true")
            .output();
        ran.expect("valgrind starts: apt-get install valgrind");
        let text = fs::read_to_string(&path).unwrap_or_default();
        fs::remove_file(&path).ok();
        let lines = text.lines().filter_map(|line| line.strip_prefix("desc: "));
        let data =
            lines.filter(|line| line.starts_with("D1 cache") || line.starts_with("LL cache"));
        data.collect::<Vec<_>>().join("; ")
    }
}

/// What one call costs.
#[derive(Clone, Copy, Default)]
pub struct Counts {
    pub instructions: u64,
    /// Data reads and writes that miss the first cache.
    pub d1: u64,
    /// Of those, the ones that miss the last one too.
    pub ll: u64,
}

/// The instructions of each job's call, in order.
pub fn count_all(jobs: &[(Peer, Job)]) -> Vec<u64> {
    side_by_side(jobs, |&(peer, job)| {
        let said = run(peer, job, &[]);
        told(&said, "Ir").unwrap_or_else(|| panic!("callgrind gave no count:\n{said}"))
    })
}

/// The same with its cache misses.
pub fn simulate_all(jobs: &[(Peer, Job, Caches)]) -> Vec<Counts> {
    side_by_side(jobs, |&(peer, job, caches)| {
        let said = run(peer, job, caches.words());
        simulated(&said).unwrap_or_else(|| panic!("callgrind gave no misses:\n{said}"))
    })
}

/// Several processes run side by side, which does not alter the counts.
fn side_by_side<T: Sync, C: Clone + Default + Send>(
    jobs: &[T],
    count: impl Fn(&T) -> C + Sync,
) -> Vec<C> {
    let next = AtomicUsize::new(0);
    let counts = Mutex::new(vec![C::default(); jobs.len()]);
    let threads = thread::available_parallelism().map_or(1, |n| n.get());
    let work = || {
        while let Some((index, job)) = take(jobs, &next) {
            let counted = count(job);
            counts.lock().expect("no thread panicked")[index] = counted;
        }
    };
    thread::scope(|scope| (0..threads).for_each(|_| drop(scope.spawn(work))));
    counts.into_inner().expect("no thread panicked")
}

fn take<'a, T>(items: &'a [T], next: &AtomicUsize) -> Option<(usize, &'a T)> {
    let index = next.fetch_add(1, Ordering::Relaxed);
    items.get(index).map(|item| (index, item))
}

/// Callgrind counts `rep stosb` and `rep movsb` as an instruction for each byte. These settings keep the C library's memset and
/// memcpy to vector loops, whatever the length.
const TUNABLES: &str =
    "glibc.cpu.x86_rep_stosb_threshold=1073741824:glibc.cpu.x86_rep_movsb_threshold=1073741824";

/// Runs the program `one`, which lies beside this one, under callgrind: what callgrind says.
fn run(peer: Peer, job: Job, more: &[&str]) -> String {
    let one = env::current_exe()
        .expect("the program's own path")
        .with_file_name("one");
    let output = Command::new("valgrind")
        .env("GLIBC_TUNABLES", TUNABLES)
        .args([
            "--tool=callgrind",
            "--callgrind-out-file=/dev/null",
            "--toggle-collect=bench_measured*",
        ])
        .args(more)
        .arg(one)
        .arg(peer.name())
        .args(job.words())
        .output()
        .expect("valgrind starts: apt-get install valgrind");
    let said = String::from_utf8_lossy(&output.stderr);
    assert!(
        output.status.success(),
        "{} {:?} failed:\n{said}",
        peer.name(),
        job.words()
    );
    said.into()
}

fn simulated(said: &str) -> Option<Counts> {
    let of = |event| told(said, event);
    Some(Counts {
        instructions: of("Ir")?,
        d1: of("D1mr")? + of("D1mw")?,
        ll: of("DLmr")? + of("DLmw")?,
    })
}

/// The number under an event's name, of the lines `Events : Ir Dr` and `Collected : 1234 567`. Zeros at the end are left out there.
fn told(said: &str, event: &str) -> Option<u64> {
    let fields = |name: &str| {
        let line = said.lines().find(|line| line.contains(name))?;
        Some(line.split(" : ").nth(1)?.split_whitespace())
    };
    let at = fields("Events ")?.position(|name| name == event)?;
    fields("Collected ")?.nth(at).unwrap_or("0").parse().ok()
}

#[cfg(test)]
mod tests {
    use super::*;

    const SAID: &str = "==7== Events    : Ir Dr Dw I1mr D1mr D1mw ILmr DLmr DLmw\n==7== Collected : 9 8 7 6 5 4 3 2 1\n";

    #[test]
    fn counts_by_event() {
        let Counts {
            instructions,
            d1,
            ll,
        } = simulated(SAID).expect("all events");
        assert_eq!([instructions, d1, ll], [9, 9, 3]);
        assert_eq!(told(SAID, "Bcm"), None);
        let shorter = SAID.replace(" 2 1", "");
        assert_eq!(simulated(&shorter).map(|counts| counts.ll), Some(0));
    }
}
